//! Stored cases of the marker: sheets, round files and levels with the judge's
//! text on them, for a program that is run where the judge is not.

use std::collections::BTreeSet;
use std::fs;
use std::io;
use std::path::Path;

use crate::calls::SHEET_NUMBERS;
use crate::cases::TextCase;
use crate::making::mark_case;
use crate::options::SEED;
use crate::random::Random;

/// The most bytes that one sheet and its file have, so that the cases stay
/// small.
const LARGEST: usize = 9000;

/// The bytes of the cases, and the texts on them, one behind the other.
#[derive(Default)]
pub struct Stored {
    cases: Vec<u8>,
    texts: String,
}

impl Stored {
    /// Adds a case: the sheet's length in two bytes, the file's in four and the
    /// level's in two, high byte first, and the bytes of the three.
    fn push(&mut self, case: &TextCase, text: &str) {
        let TextCase { sheet, file, level, .. } = case;
        self.cases.extend((sheet.len() as u16).to_be_bytes());
        self.cases.extend((file.len() as u32).to_be_bytes());
        self.cases.extend((level.len() as u16).to_be_bytes());
        for bytes in [sheet, file, level] {
            self.cases.extend(bytes);
        }
        self.texts += text;
    }

    /// Writes the files data/cases.bin and stdout of a program's folder.
    pub fn write(&self, folder: &Path) -> io::Result<()> {
        fs::write(folder.join("data/cases.bin"), &self.cases)?;
        fs::write(folder.join("stdout"), &self.texts)
    }
}

/// What the cases are to meet: each line, a round's without its number and, where
/// several rows differ, with how many do, an empty sheet, file and level, a level of
/// two bytes, and accepted rounds that are not enough. Lines on a sheet that loads
/// are to be met in each kind.
fn wanted() -> BTreeSet<String> {
    let mut lines: Vec<String> = vec!["pass".into(), "fail".into(), "accepted".into()];
    lines.extend([0, 512].map(|count| format!("rounds {count}")));
    lines.extend((0..8).map(|row| format!("rejected {row}")));
    lines.extend((2..=8).map(|count| format!("{count} rows")));
    lines.extend([14, 15, 16].map(|number| format!("refused {number}")));
    lines.extend(["file 12", "level 25"].map(String::from));
    let kinds = [1, 2].into_iter();
    let of_kinds = kinds.flat_map(|kind| lines.iter().map(move |line| format!("{line}, {kind}")));
    let sheets = SHEET_NUMBERS.iter().map(|number| format!("sheet {number}"));
    let others = ["no sheet", "no file", "no level", "two bytes", "too few"].map(String::from);
    of_kinds.chain(sheets).chain(others).collect()
}

/// What a case meets, in the words of what is wanted.
fn met(sheet: &[u8], file: &[u8], level: &[u8], text: &str) -> BTreeSet<String> {
    let mut met = BTreeSet::new();
    for line in text.lines() {
        let line = line.trim_start_matches(|letter: char| letter.is_ascii_digit() || letter == ' ');
        let line = match line.split(' ').count() {
            words @ 3.. => format!("{} rows", words - 1),
            _ => line.to_string(),
        };
        met.insert(match sheet.get(5) {
            Some(kind) if !line.starts_with("sheet") => format!("{line}, {kind}"),
            _ => line.to_string(),
        });
    }
    let of_level = text == "level 25\n";
    for (name, holds) in [
        ("no sheet", sheet.is_empty()),
        ("no file", file.is_empty()),
        ("no level", level.is_empty() && of_level),
        ("two bytes", level.len() == 2 && of_level),
        ("too few", !text.contains(" re") && text.ends_with("accepted\nfail\n")),
    ] {
        if holds {
            met.insert(name.to_string());
        }
    }
    met
}

/// The cases to store: of those that the seed makes, each that meets something
/// wanted that the ones before it did not meet.
pub fn stored() -> Stored {
    let mut left = wanted();
    let mut stored = Stored::default();
    let mut number = 0;
    while !left.is_empty() {
        let case = mark_case(&mut Random::of_case(SEED, number));
        number += 1;
        if case.sheet.len() + case.file.len() > LARGEST {
            continue;
        }
        let text = judge::marker(&case.sheet, &case.file, &case.level);
        let met = met(&case.sheet, &case.file, &case.level, &text);
        if !left.is_disjoint(&met) {
            stored.push(&case, &text);
            left.retain(|thing| !met.contains(thing));
        }
    }
    stored
}

#[cfg(test)]
mod tests {
    use super::*;

    /// The folder of the program that runs the stored cases.
    const FOLDER: &str = concat!(env!("CARGO_MANIFEST_DIR"), "/../../crates/trials_marker");

    #[test]
    fn the_program_has_the_stored_cases() {
        let folder = Path::new(FOLDER);
        let Stored { cases, texts } = stored();
        assert!(fs::read(folder.join("data/cases.bin")).unwrap() == cases);
        assert_eq!(fs::read_to_string(folder.join("stdout")).unwrap(), texts);
    }

    #[test]
    fn stored_cases_are_few_and_read_back_with_every_line() {
        let Stored { cases, texts } = stored();
        assert!(cases.len() < 100_000);
        let (mut rest, mut left, mut said) = (&cases[..], wanted(), String::new());
        let mut count = 0;
        while let Some((lengths, bytes)) = rest.split_first_chunk::<8>() {
            let [a, b, c, d, e, f, g, h] = *lengths;
            let (sheet, bytes) = bytes.split_at(u16::from_be_bytes([a, b]).into());
            let (file, bytes) = bytes.split_at(u32::from_be_bytes([c, d, e, f]) as usize);
            let (level, bytes) = bytes.split_at(u16::from_be_bytes([g, h]).into());
            let text = judge::marker(sheet, file, level);
            let met = met(sheet, file, level, &text);
            left.retain(|thing| !met.contains(thing));
            said += &text;
            rest = bytes;
            count += 1;
        }
        assert!((30..=50).contains(&count), "{count} cases");
        assert!(rest.is_empty() && left.is_empty(), "{left:?}");
        assert_eq!(said, texts);
    }
}
