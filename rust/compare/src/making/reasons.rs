//! Cases of the reason: sheets, files and rounds with one wrong value or with
//! several, of which the first is to be told.

use crate::calls::Call;
use crate::cases::{Case, TextCall, TextCase};
use crate::damage::spoil_length;
use crate::files;
use crate::instance::Instance;
use crate::lent::Lent;
use crate::library::{LONGEST_REASON, MOST_ROUNDS, Round};
use crate::making::brought::{round, spoil_round};
use crate::making::inputs::Inputs;
use crate::random::Random;

/// The numbers that several values of a sheet or of a round can have.
const OF_LISTS: [u32; 4] = [10, 11, 14, 16];

/// A case of the reason.
pub fn reason(random: &mut Random) -> Box<dyn Case> {
    Box::new(reason_case(random))
}

/// A sheet and a file, each of them whole, wrong or empty.
pub fn reason_case(random: &mut Random) -> TextCase {
    let mut inputs = Inputs::of_call(random, Call::Reason);
    let again = inputs.faults.clone().into_iter();
    let again = again.filter(|fault| OF_LISTS.contains(fault) && random.once_in(2));
    inputs.faults.extend(again.collect::<Vec<_>>());
    let file = file(random, &inputs);
    let sheet = sheet(random, &inputs);
    TextCase {
        call: TextCall::Reason,
        sheet,
        file,
        level: Vec::new(),
        lent: Lent::first(random, &[], LONGEST_REASON),
    }
}

/// The sheet with its faults, now and then empty, cut within its header with
/// another mark, or with a wrong kind and so long that not all of it is kept.
fn sheet(random: &mut Random, inputs: &Inputs) -> Vec<u8> {
    let mut sheet = inputs.bytes(random);
    match random.below(40) {
        0 => sheet.clear(),
        1 if sheet.len() >= 20 => {
            sheet[random.below(3)] ^= 1 << random.below(8);
            sheet.truncate(3 + random.below(17));
        }
        2 if sheet.len() >= 20 => {
            sheet[5] = random.pick(&[0, 3, 255]);
            sheet.resize(400, 1);
        }
        _ => {}
    }
    sheet
}

/// The file, of either version, with its faults, now and then an empty one.
/// Round 0 has the faults of a round; what is in the others does not count.
fn file(random: &mut Random, inputs: &Inputs) -> Vec<u8> {
    let Inputs { instance, faults } = inputs;
    if random.once_in(30) {
        return Vec::new();
    }
    let mut rounds = Vec::new();
    if !faults.contains(&13) {
        rounds.push(round(random, instance));
        for fault in faults {
            spoil_round(random, instance, &mut rounds[0], *fault);
        }
        for _ in 0..random.pick(&[0, 0, 1, 3]) {
            rounds.push(other(random, instance));
        }
    }
    let version = files::any_version(random);
    let mut file = files::of_rounds(&instance.sheet.header, version, &rounds);
    if faults.contains(&12) {
        spoil(random, &mut file);
    }
    file
}

/// A round behind the first.
fn other(random: &mut Random, instance: &Instance) -> Round {
    let mut other = round(random, instance);
    let number = random.pick(&[0, 14, 15, 16]);
    spoil_round(random, instance, &mut other, number);
    other
}

/// Puts one fault with the number 12 or several into a file: in the count, the
/// length, the version, the mark and the header's length.
fn spoil(random: &mut Random, bytes: &mut Vec<u8>) {
    let faults = random.between(1, 63);
    for fault in (0..6).filter(|fault| faults >> fault & 1 == 1) {
        match fault {
            0 => put_count(bytes, random.below(MOST_ROUNDS + 1)),
            1 => put_count(bytes, MOST_ROUNDS + 1 + random.below(1000)),
            2 => spoil_length(random, bytes, 7),
            3 => files::spoil_version(random, bytes),
            4 => bytes[random.below(3)] ^= 1 << random.below(8),
            _ if random.once_in(2) => bytes.truncate(random.below(7)),
            _ => {}
        }
    }
}

/// Puts a count into bytes 5 and 6.
fn put_count(bytes: &mut [u8], count: usize) {
    bytes[5..7].copy_from_slice(&(count as u16).to_be_bytes());
}

#[cfg(test)]
mod tests {
    use std::collections::BTreeMap;

    use super::*;

    /// The line without its offset, length or sides, and the sheet's kind.
    fn shape(case: &TextCase) -> String {
        let line = judge::reason(&case.sheet, &case.file);
        let words: Vec<&str> = line.split_whitespace().collect();
        let shown = match words[..] {
            ["refused", number, "length", _] => format!("refused {number} length"),
            ["refused", "7" | "12", _] => words.join(" "),
            ["refused", number @ ("15" | "16"), _] => {
                format!("refused {number} in {}", files::version(&case.file))
            }
            [word, number, ..] => format!("{word} {number}"),
            _ => words.join(" "),
        };
        let kind = case.sheet.get(5).unwrap_or(&0);
        format!("{shown}, {kind}")
    }

    /// Every line that there can be, on sheets of this kind.
    fn wanted(kind: u32) -> Vec<String> {
        let mut lines = vec!["accepted".to_string()];
        lines.extend((0..8).map(|row| format!("rejected {row}")));
        lines.extend([2, 3, 5, 6, 8, 10, 11, 13, 14].map(|n| format!("refused {n}")));
        for version in [1, 2] {
            lines.extend([15, 16].map(|n| format!("refused {n} in {version}")));
        }
        lines.extend(["refused 7 18", "refused 7 19"].map(String::from));
        lines.extend([0, 3, 5].map(|offset| format!("refused 12 {offset}")));
        lines.extend([2, 9, 12].map(|number| format!("refused {number} length")));
        // A sheet of kind 2 has no entries.
        lines.retain(|line| kind == 1 || line != "refused 10");
        lines.iter().map(|line| format!("{line}, {kind}")).collect()
    }

    #[test]
    fn every_line_is_met_in_both_kinds() {
        let mut met = BTreeMap::new();
        for seed in 0..6000 {
            let case = reason_case(&mut Random::new(seed));
            *met.entry(shape(&case)).or_insert(0) += 1;
        }
        for line in wanted(1).iter().chain(&wanted(2)) {
            assert!(met.get(line) > Some(&3), "{line}: {met:?}");
        }
    }

    /// Whether a value of a list is wrong behind the one that is told.
    fn is_told_of_several(case: &TextCase) -> bool {
        let line = judge::reason(&case.sheet, &case.file);
        let words: Vec<&str> = line.split_whitespace().collect();
        let ["refused", number, offset] = words[..] else {
            return false;
        };
        let number: u32 = number.parse().unwrap();
        let at: usize = offset.parse().unwrap();
        let mut mended = [case.sheet.clone(), case.file.clone()];
        if !OF_LISTS.contains(&number) {
            return false;
        }
        // 1 is an element and a slot of every sheet.
        mended[usize::from(number > 12)][at..at + 4].copy_from_slice(&[0, 0, 0, 1]);
        let again = judge::reason(&mended[0], &mended[1]);
        again.starts_with(&format!("refused {number} "))
    }

    #[test]
    fn lists_with_several_wrong_values_are_met() {
        let mut met = 0;
        for seed in 0..6000 {
            met += u32::from(is_told_of_several(&reason_case(&mut Random::new(seed))));
        }
        assert!(met > 50, "{met}");
    }
}
