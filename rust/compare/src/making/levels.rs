//! Levels, and counts of rounds, at which the product of one K per round turns.

use crate::random::Random;

/// The highest level.
pub const HIGHEST: u32 = 64;

/// The product of one K per round as far as it is below 2^64, and one that is
/// not where it is not. It stays below 2^80.
fn product(challenges: u32, count: usize) -> u128 {
    let mut product = 1;
    for _ in 0..count {
        if product < 1 << HIGHEST {
            product *= u128::from(challenges);
        }
    }
    product
}

/// The highest level for which so many rounds are enough, 0 for none.
pub fn reached(challenges: u32, count: usize) -> u32 {
    product(challenges, count).ilog2().min(HIGHEST)
}

/// The fewest rounds that are enough for a level.
pub fn needed(challenges: u32, level: u32) -> usize {
    let enough = |count: &usize| product(challenges, *count) >= 1 << level;
    (0..).find(enough).unwrap_or(0)
}

/// The bytes of a level file for so many rounds: mostly the highest level that
/// they reach or the one above, now and then any level, or bytes that are no
/// level.
pub fn level(random: &mut Random, challenges: u32, count: usize) -> Vec<u8> {
    let reached = reached(challenges, count);
    let at = |level: u32| vec![level.clamp(1, HIGHEST) as u8];
    match random.below(32) {
        0..=12 => at(reached),
        13..=19 => at(reached + 1),
        20 => at(reached.saturating_sub(1)),
        21 => at(1),
        22..=24 => at(HIGHEST),
        25 | 26 => at(random.between(1, HIGHEST)),
        27 => Vec::new(),
        28 => vec![random.pick(&[0, 65, 66, 127, 128, 255])],
        29 => vec![random.bits() as u8],
        30 => [at(reached), vec![random.pick(&[0, 1, 64, 255])]].concat(),
        _ => {
            let length = 2 + random.below(300);
            random.bytes(length)
        }
    }
}

#[cfg(test)]
mod tests {
    use super::*;

    #[test]
    fn levels_are_reached_by_the_rounds_they_need() {
        for challenges in [2, 3, 11, 256, 65_535, 65_536] {
            for level in 1..=HIGHEST {
                let count = needed(challenges, level);
                assert!(reached(challenges, count) >= level);
                assert!(reached(challenges, count - 1) < level);
            }
            assert_eq!(reached(challenges, 0), 0);
            assert_eq!(reached(challenges, 512), HIGHEST);
        }
        assert_eq!([2, 3].map(|count| reached(11, count)), [6, 10]);
        assert_eq!([63, 64].map(|count| reached(2, count)), [63, 64]);
        assert_eq!([3, 4].map(|count| reached(65_536, count)), [48, 64]);
        assert_eq!(reached(65_535, 4), 63);
    }
}
