//! Cases of the calls that read a round file.

use crate::cases::{Case, FileCall, FileCase, SameCase};
use crate::files;
use crate::making::sheets;
use crate::random::Random;

/// A case of counting.
pub fn count(random: &mut Random) -> Box<dyn Case> {
    of_call(random, FileCall::Count)
}

/// A case of checking.
pub fn check(random: &mut Random) -> Box<dyn Case> {
    of_call(random, FileCall::Check)
}

/// A case of a round's part.
pub fn part(random: &mut Random) -> Box<dyn Case> {
    of_call(random, FileCall::Part)
}

/// A case of reading.
pub fn read(random: &mut Random) -> Box<dyn Case> {
    of_call(random, FileCall::Read)
}

/// A sheet, a file and a round number, each of them right or wrong.
fn of_call(random: &mut Random, call: FileCall) -> Box<dyn Case> {
    let (sheet, header) = sheets::bytes(random, 4);
    let file = if random.once_in(4) {
        files::damaged(random, &header)
    } else {
        files::any(random, &header)
    };
    let number = files::round_number(random, files::record_in(&header, &file), &file);
    Box::new(FileCase { call, sheet, file, number })
}

/// A case of comparing the commitments of two rounds.
pub fn same_commitment(random: &mut Random) -> Box<dyn Case> {
    Box::new(same_case(random))
}

/// A sheet, a file and two round numbers, each of them right or wrong. Two
/// records of the file are mostly alike but for one byte or the challenge.
fn same_case(random: &mut Random) -> SameCase {
    let (sheet, header) = sheets::bytes(random, 4);
    let rows = match sheet.get(18) {
        Some(rows) => usize::from(*rows).clamp(1, 8),
        None => 1,
    };
    let mut file = if random.once_in(6) {
        files::damaged(random, &header)
    } else {
        files::any(random, &header)
    };
    let record = files::record_in(&header, &file);
    let count = file.len().saturating_sub(7) / record;
    let mut numbers = [0, 1].map(|_| files::round_number(random, record, &file));
    if count > 0 && !random.once_in(4) {
        let places = [random.below(count), random.below(count)];
        numbers = places;
        alike(random, &mut file, record, places, 4 * rows);
        if random.once_in(8) {
            numbers[random.below(2)] = files::round_number(random, record, &file);
        }
    }
    SameCase { sheet, file, numbers }
}

/// Makes two records the same, or the same but for a byte of the commitment, often
/// the last, or for the challenge behind it, or for any byte.
fn alike(random: &mut Random, file: &mut [u8], record: usize, places: [usize; 2], bytes: usize) {
    let [from, to] = places.map(|place| 7 + place * record);
    file.copy_within(from..from + record, to);
    let changed = match random.below(8) {
        0 | 1 => None,
        2 => Some(bytes - 1),
        3 => Some(bytes - 1 - random.below(4.min(bytes))),
        4 => Some(random.below(bytes)),
        5 | 6 => Some(bytes + random.below(files::width(files::version(file)))),
        _ => Some(random.below(record)),
    };
    if let Some(byte) = changed.filter(|byte| *byte < record) {
        file[to + byte] ^= 1 << random.below(8);
    }
}

#[cfg(test)]
mod tests {
    use std::collections::BTreeMap;

    use super::*;
    use crate::library::Library::Judge;

    /// What stands out in a case of two rounds that can be read, or its number.
    fn shape(case: &SameCase) -> String {
        let SameCase { sheet, file, numbers: [i, j] } = case;
        let compared = Judge.same_commitment(sheet, file, *i, *j);
        let header = Judge.load(sheet).header;
        let count = Judge.count(sheet, file).count as usize;
        match compared.refusal {
            0 => {}
            13 => return format!("13, i inside {}, j inside {}", *i < count, *j < count),
            number => return number.to_string(),
        }
        let [one, other] = [*i, *j].map(|number| {
            let part = Judge.part(sheet, file, number);
            &file[part.offset..part.offset + part.length]
        });
        let bytes = 4 * header.rows as usize;
        let differing: Vec<usize> =
            (0..one.len()).filter(|byte| one[*byte] != other[*byte]).collect();
        match differing[..] {
            [] if i == j => "i = j".to_string(),
            [] => "two equal rounds".to_string(),
            [byte] if byte == bytes - 1 => "the last byte".to_string(),
            [byte] if (bytes..bytes + files::width(files::version(file))).contains(&byte) => {
                format!("the challenge, s < n {}", header.rows < header.columns)
            }
            [byte] if byte < bytes => format!("a byte, n < s {}", header.columns < header.rows),
            _ => "others".to_string(),
        }
    }

    #[test]
    fn records_that_differ_in_little_are_met() {
        let mut met = BTreeMap::new();
        for seed in 0..8000 {
            let case = same_case(&mut Random::new(seed));
            *met.entry(shape(&case)).or_insert(0) += 1;
        }
        for wanted in [
            "i = j",
            "two equal rounds",
            "the last byte",
            "the challenge, s < n true",
            "the challenge, s < n false",
            "a byte, n < s true",
            "a byte, n < s false",
            "13, i inside true, j inside false",
            "13, i inside false, j inside true",
            "13, i inside false, j inside false",
            "12",
        ] {
            assert!(met.get(wanted) > Some(&20), "{wanted}: {met:?}");
        }
    }
}
