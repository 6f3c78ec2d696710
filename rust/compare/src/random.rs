//! A small generator of numbers, splitmix64. Equal seeds give equal numbers.

/// A state of the generator.
pub struct Random {
    state: u64,
}

/// 32-bit numbers at which something often changes.
const BORDERS: [u32; 16] = [
    0,
    1,
    2,
    3,
    7,
    8,
    9,
    255,
    256,
    65_535,
    65_536,
    65_537,
    0x7fff_ffff,
    0x8000_0000,
    0xffff_fffe,
    0xffff_ffff,
];

impl Random {
    /// The generator of this seed.
    pub fn new(seed: u64) -> Random {
        Random { state: seed }
    }

    /// The generator of one case, so that each case stands for itself.
    pub fn of_case(seed: u64, case: u64) -> Random {
        let start = Random::new(seed).bits();
        Random::new(Random::new(start.wrapping_add(case)).bits())
    }

    /// 64 bits.
    pub fn bits(&mut self) -> u64 {
        self.state = self.state.wrapping_add(0x9e37_79b9_7f4a_7c15);
        let mut mixed = self.state;
        mixed = (mixed ^ (mixed >> 30)).wrapping_mul(0xbf58_476d_1ce4_e5b9);
        mixed = (mixed ^ (mixed >> 27)).wrapping_mul(0x94d0_49bb_1331_11eb);
        mixed ^ (mixed >> 31)
    }

    /// A number from `low` to `high`, both of them included.
    pub fn between(&mut self, low: u32, high: u32) -> u32 {
        let span = u64::from(high) - u64::from(low) + 1;
        low + (((self.bits() >> 32) * span) >> 32) as u32
    }

    /// A number below the bound, or 0 where the bound is 0.
    pub fn below(&mut self, bound: usize) -> usize {
        ((u128::from(self.bits()) * bound as u128) >> 64) as usize
    }

    /// One of so many places, often the last.
    pub fn place(&mut self, count: usize) -> usize {
        if self.once_in(3) { count - 1 } else { self.below(count) }
    }

    /// True once in so many times.
    pub fn once_in(&mut self, times: usize) -> bool {
        self.below(times) == 0
    }

    /// One of these, which are at least one.
    pub fn pick<T: Copy>(&mut self, choices: &[T]) -> T {
        choices[self.below(choices.len())]
    }

    /// A 32-bit number, now and then one at a border.
    pub fn word(&mut self) -> u32 {
        if self.once_in(3) { self.pick(&BORDERS) } else { self.bits() as u32 }
    }

    /// So many 32-bit numbers.
    pub fn words<const N: usize>(&mut self) -> [u32; N] {
        std::array::from_fn(|_| self.word())
    }

    /// So many bytes.
    pub fn bytes(&mut self, length: usize) -> Vec<u8> {
        let mut bytes = Vec::with_capacity(length + 7);
        while bytes.len() < length {
            bytes.extend(self.bits().to_le_bytes());
        }
        bytes.truncate(length);
        bytes
    }
}

#[cfg(test)]
mod tests {
    use super::*;

    #[test]
    fn numbers_follow_the_published_sequence() {
        let mut random = Random::new(1_234_567);
        assert_eq!(random.bits(), 6_457_827_717_110_365_317);
        assert_eq!(random.bits(), 3_203_168_211_198_807_973);
    }

    #[test]
    fn every_number_of_a_range_is_met() {
        let mut random = Random::new(1);
        let mut met = [0; 5];
        for _ in 0..1000 {
            met[random.between(3, 7) as usize - 3] += 1;
            assert!(random.below(3) < 3);
        }
        assert!(met.iter().all(|times| *times > 100));
        assert_eq!(random.below(0), 0);
        assert!(random.between(0, u32::MAX) > 0);
    }

    #[test]
    fn cases_of_one_seed_differ() {
        let first = Random::of_case(1, 1).bits();
        assert_eq!(first, Random::of_case(1, 1).bits());
        assert_ne!(first, Random::of_case(1, 2).bits());
        assert_ne!(first, Random::of_case(2, 1).bits());
    }
}
