//! A small generator of numbers, splitmix64. Equal seeds give equal numbers.

/// A state of the generator.
pub struct Random {
    state: u64,
}

/// 32-bit numbers at which something often changes.
const BORDERS: [u32; 8] = [0, 1, 255, 65_535, 65_536, 0x7fff_ffff, 0x8000_0000, 0xffff_ffff];

impl Random {
    /// The generator of one case.
    pub fn of_case(seed: u64, case: usize) -> Random {
        Random { state: seed ^ (case as u64).wrapping_mul(0xd134_2543_de82_ef95) }
    }

    /// 64 bits.
    fn bits(&mut self) -> u64 {
        self.state = self.state.wrapping_add(0x9e37_79b9_7f4a_7c15);
        let mut mixed = self.state;
        mixed = (mixed ^ (mixed >> 30)).wrapping_mul(0xbf58_476d_1ce4_e5b9);
        mixed = (mixed ^ (mixed >> 27)).wrapping_mul(0x94d0_49bb_1331_11eb);
        mixed ^ (mixed >> 31)
    }

    /// A number below the bound, which is not 0.
    pub fn below(&mut self, bound: usize) -> usize {
        ((u128::from(self.bits()) * bound as u128) >> 64) as usize
    }

    /// True once in so many times.
    pub fn once_in(&mut self, times: usize) -> bool {
        self.below(times) == 0
    }

    /// One of these, which are at least one.
    pub fn pick<'a, T>(&mut self, choices: &'a [T]) -> &'a T {
        &choices[self.below(choices.len())]
    }

    /// A number, mostly below the bound and now and then at a border.
    pub fn number(&mut self, bound: usize) -> u32 {
        if self.once_in(12) { *self.pick(&BORDERS) } else { self.below(bound) as u32 }
    }

    /// So many bytes.
    pub fn bytes(&mut self, length: usize) -> Vec<u8> {
        (0..length).map(|_| self.bits() as u8).collect()
    }
}
