//! Pattern files, whole and damaged.

use crate::damage::{spoil_length, spoil_version};
use crate::random::Random;

/// The bytes before the first pattern.
const HEADER: usize = 6;

/// The most patterns that a file may have.
const MOST: usize = 32;

/// A pattern: its rows, columns and number of values, and its digits row by
/// row.
#[derive(Clone, Debug, PartialEq, Eq)]
pub struct Pattern {
    pub sizes: [u8; 3],
    pub digits: Vec<u8>,
}

impl Pattern {
    /// A pattern that is right, often one of the smallest or largest.
    fn any(random: &mut Random) -> Pattern {
        let [rows, columns] = [0; 2]
            .map(|_| if random.once_in(3) { random.pick(&[1, 8]) } else { 1 + random.below(8) });
        let cells = rows * columns;
        let values = if random.once_in(3) { cells.min(8) } else { 1 + random.below(cells.min(8)) };
        let mut digits: Vec<u8> = (1..=values as u8).collect();
        while digits.len() < cells {
            let place = random.below(digits.len() + 1);
            digits.insert(place, random.below(values + 1) as u8);
        }
        for place in (1..cells).rev() {
            digits.swap(place, random.below(place + 1));
        }
        Pattern { sizes: [rows, columns, values].map(|size| size as u8), digits }
    }

    pub fn rows(&self) -> usize {
        self.sizes[0].into()
    }

    pub fn columns(&self) -> usize {
        self.sizes[1].into()
    }

    pub fn values(&self) -> usize {
        self.sizes[2].into()
    }

    /// Whether each digit is 0 or names a value, and each value is named.
    pub fn is_named(&self) -> bool {
        let [.., values] = self.sizes;
        self.digits.iter().all(|digit| *digit <= values)
            && (1..=values).all(|value| self.digits.contains(&value))
    }

    /// Puts a fault with the number 24 in: a digit above the number of values,
    /// often one above it and often the last, or a value that no digit names,
    /// often the last.
    pub fn misname(&mut self, random: &mut Random) {
        let [.., values] = self.sizes;
        let place = random.place(self.digits.len());
        match random.below(4) {
            0 | 1 => self.digits[place] = random.pick(&[values + 1, values + 1, 9, 255]),
            2 if values < 8 => self.sizes[2] += 1,
            _ => {
                let value = random.place(values.into()) as u8 + 1;
                let next = value % values + 1;
                let other = if next == value || random.once_in(2) { 0 } else { next };
                for digit in self.digits.iter_mut().filter(|digit| **digit == value) {
                    *digit = other;
                }
            }
        }
    }

    /// Puts a size out of range, with as many digits as the sizes then ask for
    /// or as many as before.
    fn missize(&mut self, random: &mut Random) {
        let wrong = random.pick(&[0, 9, 9, 255]);
        self.sizes[random.below(3)] = wrong;
        let cells = self.rows() * self.columns();
        if random.once_in(2) && cells < 300 {
            self.digits.resize(cells, 1);
        }
    }
}

/// The patterns of a file that is right, often the shipped ones, one or as many
/// as there can be.
pub fn any(random: &mut Random) -> Vec<Pattern> {
    let count = match random.below(8) {
        0..=2 => return shipped(),
        3 => 1,
        4 => MOST,
        5 | 6 => 2 + random.below(6),
        _ => 1 + random.below(MOST),
    };
    (0..count).map(|_| Pattern::any(random)).collect()
}

/// The patterns of the shipped file.
pub fn shipped() -> Vec<Pattern> {
    read(&judge::pattern_file::SHIPPED, 8).0
}

/// The file of these patterns, under a count of as many.
pub fn file(patterns: &[Pattern]) -> Vec<u8> {
    let mut bytes = b"PAT\x00\x01".to_vec();
    bytes.push(patterns.len() as u8);
    for pattern in patterns {
        bytes.extend(pattern.sizes);
        bytes.extend(&pattern.digits);
    }
    bytes
}

/// The patterns of a file as far as their sizes are 1 to `widest`, their digits
/// are there and the file counts them, and the bytes behind them.
pub fn read(file: &[u8], widest: u8) -> (Vec<Pattern>, &[u8]) {
    let mut patterns = Vec::new();
    let Some((header, mut rest)) = file.split_first_chunk::<HEADER>() else {
        return (patterns, &[]);
    };
    while patterns.len() < header[HEADER - 1].into() {
        let Some((sizes, behind)) = rest.split_first_chunk::<3>() else {
            break;
        };
        let cells = usize::from(sizes[0]) * usize::from(sizes[1]);
        let in_range = sizes.iter().all(|size| (1..=widest).contains(size));
        let Some((digits, behind)) = behind.split_at_checked(cells).filter(|_| in_range) else {
            break;
        };
        patterns.push(Pattern { sizes: *sizes, digits: digits.to_vec() });
        rest = behind;
    }
    (patterns, rest)
}

/// The file of these patterns with a fault of the number 23.
pub fn misshapen(random: &mut Random, mut patterns: Vec<Pattern>) -> Vec<u8> {
    let fault = random.below(12);
    match fault {
        0..=2 => {
            let place = random.place(patterns.len());
            patterns[place].missize(random);
        }
        3 => patterns.resize_with(MOST + 1, || Pattern::any(random)),
        4 => patterns.clear(),
        _ => {}
    }
    let mut bytes = file(&patterns);
    match fault {
        5 => bytes[random.below(3)] ^= random.between(1, 255) as u8,
        6 => spoil_version(random, &mut bytes),
        7 => bytes[5] = random.pick(&[0, 33, 255, bytes[5] + 1, bytes[5] - 1]),
        8 => bytes.push(random.pick(&[0, 1, 255])),
        9 => bytes.truncate(bytes.len() - 1),
        10 => spoil_length(random, &mut bytes, HEADER),
        11 => bytes.truncate(random.below(HEADER + 1)),
        _ => {}
    }
    bytes
}

#[cfg(test)]
mod tests {
    use super::*;
    use crate::library::{Library::Judge, Plan};

    /// What the judge refuses a file with, 0 for nothing. The number is never a
    /// pattern's, so that a file that is right gives 1.
    fn refusal(file: &[u8]) -> u32 {
        let plan = Plan { number: u32::MAX, ..Plan::default() };
        match Judge.from_pattern(file, plan, &[], &[], &mut []).refusal {
            1 => 0,
            number => number,
        }
    }

    #[test]
    fn files_are_right_and_read_back() {
        let mut counts = [0; MOST + 1];
        for seed in 0..2000 {
            let patterns = any(&mut Random::new(seed));
            let bytes = file(&patterns);
            assert_eq!(refusal(&bytes), 0);
            assert!(patterns.iter().all(Pattern::is_named));
            counts[patterns.len()] += 1;
            assert_eq!(read(&bytes, 8), (patterns, &[][..]));
        }
        assert!(counts[1..].iter().all(|count| *count > 0), "{counts:?}");
        assert_eq!(file(&shipped()), judge::pattern_file::SHIPPED);
    }

    #[test]
    fn faults_have_their_numbers() {
        for seed in 0..4000 {
            let mut random = Random::new(seed);
            let mut patterns = any(&mut random);
            let place = random.below(patterns.len());
            patterns[place].misname(&mut random);
            assert_eq!(refusal(&file(&patterns)), 24);
            assert_eq!(refusal(&misshapen(&mut random, patterns)), 23);
        }
    }
}
