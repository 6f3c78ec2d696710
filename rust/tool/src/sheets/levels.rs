//! How many rounds a level asks for.

/// The highest level.
pub const HIGHEST: u8 = 64;

/// The level in the bytes of a level file, if they are one.
pub fn of(bytes: &[u8]) -> Option<u8> {
    match bytes {
        [level @ 1..=HIGHEST] => Some(*level),
        _ => None,
    }
}

/// The fewest rounds that are enough for a level with this challenge count, 2 or more: the least count with K^count ≥ 2^level.
pub fn needed(challenges: u32, level: u8) -> usize {
    let (mut count, mut product) = (0, 1_u128);
    while product < 1 << level {
        count += 1;
        product *= u128::from(challenges);
    }
    count
}

/// The highest level that so many rounds are enough for, 0 if there is none.
pub fn reached(challenges: u32, rounds: usize) -> u8 {
    let enough = |level: &u8| needed(challenges, *level) <= rounds;
    (1..=HIGHEST).filter(enough).max().unwrap_or(0)
}

#[cfg(test)]
mod tests {
    use super::{HIGHEST, needed, reached};
    use dimkhoros::{EXPONENT, Header, Instance, LONGEST_FILE, LONGEST_TEXT, Round, RoundWriter};
    use dimkhoros::{PLACES, Values, mark, places};

    /// The sheet with the statement 1 and this challenge count.
    fn sheet(challenges: u32) -> Instance {
        let header =
            Header { kind: EXPONENT, modulus: 3, order: 65_537, challenges, rows: 1, columns: 1 };
        let (entries, statement) = ([[1; PLACES]; PLACES], [1; PLACES]);
        Instance::encode(&Values { header, entries, statement }).unwrap()
    }

    /// Whether the library passes so many accepted rounds at a level.
    fn passes(sheet: &Instance, rounds: usize, level: u8) -> bool {
        let mut buffer = [0; LONGEST_FILE];
        let mut file = RoundWriter::start(sheet, 1, &mut buffer).unwrap();
        let round = Round { commitment: places([1]), challenge: 0, response: places([0]) };
        (0..rounds).for_each(|_| file.append(&round).unwrap());
        let mut text = [0; LONGEST_TEXT];
        mark(sheet.bytes(), file.file().bytes(), &[level], &mut text).ends_with("pass\n")
    }

    #[test]
    fn the_library_passes_from_the_needed_count_on() {
        for challenges in [2, 3, 11, 255, 256, 257, 65_535, 65_536] {
            let sheet = sheet(challenges);
            for level in 1..=HIGHEST {
                let count = needed(challenges, level);
                assert!(passes(&sheet, count, level), "{challenges} {level} {count}");
                assert!(!passes(&sheet, count - 1, level), "{challenges} {level} {count}");
            }
        }
    }

    #[test]
    fn the_library_passes_up_to_the_reached_level() {
        for challenges in [2, 11, 65_536] {
            for count in [0, 1, 2, 3, 4, 18, 19, 63, 64, 65] {
                let (sheet, level) = (sheet(challenges), reached(challenges, count));
                assert!(level == 0 || passes(&sheet, count, level), "{challenges} {count}");
                assert!(!passes(&sheet, count, level + 1), "{challenges} {count}");
            }
        }
    }
}
