//! Phases of sessions that are made by hand.

use crate::random::Random;

/// A phase that is not this one: one of the other three, or a number that
/// stands for none. Some are this phase where they are cut to fewer bits.
pub fn wrong_phase(random: &mut Random, right: u32) -> u32 {
    match random.below(4) {
        0 => random.pick(&[4, 5, 255, 256, u32::MAX, u32::MAX - 1]),
        1 => random.pick(&[4, 8, 0x100, 0x1_0000, 0x100_0000, 0x8000_0000]) + right,
        _ => (right + random.between(1, 3)) % 4,
    }
}

/// Any phase, also a number that stands for none.
pub fn any_phase(random: &mut Random) -> u32 {
    let phase = random.between(0, 3);
    if random.once_in(4) { wrong_phase(random, phase) } else { phase }
}
