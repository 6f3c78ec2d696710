//! The levels of 02's card 3, at the counts of rounds at which a file begins to
//! pass, in both libraries.

use crate::library::LONGEST_TEXT;
use crate::library::Library::{self, Judge};
use crate::making::{HIGHEST, needed};

/// The challenge counts that are tried.
const CHALLENGES: [u32; 8] = [2, 3, 11, 256, 257, 4096, 65_535, 65_536];

/// Bytes that are no level.
const NO_LEVELS: [&[u8]; 8] = [&[], &[0], &[65], &[255], &[7, 7], &[0, 7], &[7, 0], &[7; 300]];

/// Rounds of the sheet below, with each K: an accepted, a rejected and a refused
/// one.
const ACCEPTED: [u8; 12] = [0, 0, 0, 33, 0, 0, 0, 1, 0, 0, 0, 6];
const REJECTED: [u8; 12] = [0, 0, 0, 33, 0, 0, 0, 0, 0, 0, 0, 6];
const REFUSED: [u8; 12] = [0, 0, 0, 35, 0, 0, 0, 0, 0, 0, 0, 1];

/// Page G's sheet with e = 65,537, where each element has the power that it has
/// with e = 5, and with this K.
fn sheet(challenges: u32) -> Vec<u8> {
    let mut bytes = b"HOM\x00\x01\x02".to_vec();
    for number in [35, 65_537, challenges] {
        bytes.extend(number.to_be_bytes());
    }
    bytes.extend([1, 1, 0, 0, 0, 32]);
    bytes
}

/// A file of so many accepted rounds, and behind them these.
fn file(accepted: usize, others: &[[u8; 12]]) -> Vec<u8> {
    let count = (accepted + others.len()) as u16;
    let mut bytes = b"RND\x00\x01".to_vec();
    bytes.extend(count.to_be_bytes());
    bytes.extend(ACCEPTED.repeat(accepted));
    bytes.extend(others.as_flattened());
    bytes
}

/// The files that are marked at a level with this K: rounds that are just enough
/// and one fewer, and as many beside one that is not accepted.
fn files(challenges: u32, level: u32) -> Vec<Vec<u8>> {
    let count = needed(challenges, level);
    let others = [&[][..], &[REJECTED], &[REFUSED]];
    let counts = [count - 1, count];
    let files = counts.iter().flat_map(|count| others.map(|others| file(*count, others)));
    files.collect()
}

/// Both texts on these files.
fn texts(other: Library, sheet: &[u8], file: &[u8], level: &[u8]) -> [String; 2] {
    [Judge, other].map(|library| {
        let mut text = [0; LONGEST_TEXT];
        let length = library.mark(sheet, file, level, &mut text);
        String::from_utf8_lossy(&text[..length]).into_owned()
    })
}

/// Marks at every level and at bytes that are none, in both libraries, and
/// answers the line to print. An error says what differs.
pub fn check(other: Library) -> Result<String, String> {
    let (mut count, mut passes) = (0, 0);
    for challenges in CHALLENGES {
        let sheet = sheet(challenges);
        let mut cases = vec![];
        for level in 1..=HIGHEST {
            let files = files(challenges, level).into_iter();
            cases.extend(files.map(|file| (file, vec![level as u8])));
            cases.push((file(0, &[]), vec![level as u8]));
        }
        cases.push((file(512, &[]), vec![HIGHEST as u8]));
        for level in NO_LEVELS {
            cases.push((file(3, &[]), level.to_vec()));
            cases.push((Vec::new(), level.to_vec()));
        }
        for (file, level) in cases {
            let [judged, text] = texts(other, &sheet, &file, &level);
            if judged != text {
                let rounds = file.len() / ACCEPTED.len();
                return Err(format!(
                    "K {challenges}, {rounds} rounds, level {level:?}: the judge says {judged:?}, the library {text:?}"
                ));
            }
            count += 1;
            passes += u32::from(text.ends_with("\npass\n"));
        }
    }
    Ok(format!("levels: {count} files marked, {passes} pass"))
}

#[cfg(test)]
mod tests {
    use super::*;
    use crate::faults::Fault;
    use crate::library::Library::Faulty;

    #[test]
    fn a_file_passes_where_its_rounds_are_just_enough() {
        for challenges in CHALLENGES {
            for level in 1..=HIGHEST {
                let texts = files(challenges, level)
                    .into_iter()
                    .map(|file| judge::marker(&sheet(challenges), &file, &[level as u8]));
                let passes: Vec<bool> = texts.map(|text| text.ends_with("\npass\n")).collect();
                assert_eq!(passes, [false, false, false, true, false, false]);
            }
        }
    }

    #[test]
    fn the_judge_agrees_with_itself() {
        let line = check(Judge).unwrap();
        assert_eq!(line, "levels: 3720 files marked, 520 pass");
    }

    #[test]
    fn faults_of_the_level_are_found() {
        for fault in [
            Fault::MarkEmptyPasses,
            Fault::MarkRefusedPasses,
            Fault::MarkLevelWraps,
            Fault::MarkLevelAbove,
            Fault::MarkLevelIgnored,
            Fault::MarkLevelRounds,
            Fault::MarkEnoughAccepted,
            Fault::MarkLevelFirst,
            Fault::MarkLevelLast,
            Fault::MarkLevelFront,
            Fault::MarkLevelMissing,
            Fault::MarkLevelZero,
            Fault::MarkLevelCut,
        ] {
            assert!(check(Faulty(fault)).is_err(), "{fault:?}");
        }
    }
}
