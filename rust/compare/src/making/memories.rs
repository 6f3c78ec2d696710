//! What Peggy's session remembers, made by hand: saved states and answered commitments.

use crate::instance::Instance;
use crate::library::phases::prover::COMMITTED;
use crate::library::{Listed, MOST_ANSWERED, Memory, Places, SAVED_STATES, Saved};
use crate::making::phases::any_phase;
use crate::random::Random;

/// Counts of a list that has no room. Some have room if they are cut.
const FULL: [u32; 9] = [64, 64, 65, 66, 0x100, 0x1_0001, 0x8000_0000, u32::MAX - 1, u32::MAX];

/// A number that says that a state was saved, mostly 1.
fn kept(random: &mut Random) -> u32 {
    match random.below(3) {
        0 => random.pick(&[2, 3, 0x100, 0x1_0000, 0x8000_0000, u32::MAX]),
        _ => 1,
    }
}

/// A state that was saved. Half of them can be gone on with on this sheet.
pub fn saved(random: &mut Random, instance: &Instance) -> Saved {
    let (phase, kept) = (any_phase(random), kept(random));
    if random.once_in(2) {
        return Saved { nonce: random.words(), commitment: random.words(), phase, kept };
    }
    let nonce = instance.slots(random);
    Saved {
        nonce,
        commitment: instance.sheet.image(&nonce),
        phase: if random.once_in(2) { COMMITTED } else { phase },
        kept,
    }
}

/// A state that was saved, or never, with zeros or any numbers.
fn any_state(random: &mut Random, instance: &Instance) -> Saved {
    match random.below(3) {
        0 => saved(random, instance),
        1 if random.once_in(2) => Saved { kept: 0, ..saved(random, instance) },
        _ => Saved::default(),
    }
}

/// A memory for a session that holds this commitment, which is not listed. The list has
/// room. One in three remembers nothing.
pub fn with_room(random: &mut Random, instance: &Instance, commitment: &Places) -> Memory {
    let mut memory = Memory::default();
    if random.once_in(3) {
        return memory;
    }
    memory.saved = [(); SAVED_STATES].map(|()| any_state(random, instance));
    memory.count = match random.below(4) {
        0 => random.pick(&[0, 1, 62, 63]),
        1 => 63,
        _ => random.between(0, 63),
    };
    let count = memory.count as usize;
    for (place, listed) in memory.answered.iter_mut().enumerate() {
        listed.commitment = if place < count {
            unlike(random, instance, commitment)
        } else {
            behind(random, commitment)
        };
    }
    memory
}

/// A listed commitment that is not this one. Many agree with it in some places: in all
/// rows of the sheet, in all places but the eighth, or in all but one.
fn unlike(random: &mut Random, instance: &Instance, commitment: &Places) -> Places {
    let mut other = *commitment;
    let rows = instance.rows();
    match random.below(6) {
        0 => other = random.words(),
        1 => other = [0; 8],
        2 if rows < 8 => other[rows + random.below(8 - rows)] ^= random.between(1, u32::MAX),
        3 => other[7] ^= random.pick(&[1, 0x100, 0x8000_0000]),
        4 => other[random.below(rows)] ^= random.pick(&[1, 0x100, 0x8000_0000]),
        _ => other = instance.elements(random),
    }
    if other == *commitment {
        other[0] ^= 1;
    }
    other
}

/// What stands in the list from the count on: zeros, anything, or the commitment.
fn behind(random: &mut Random, commitment: &Places) -> Places {
    match random.below(3) {
        0 => [0; 8],
        1 => random.words(),
        _ => *commitment,
    }
}

/// Makes the list one without room. The commitment is not among the first 64.
pub fn fill(random: &mut Random, instance: &Instance, memory: &mut Memory, commitment: &Places) {
    memory.count = random.pick(&FULL);
    for listed in &mut memory.answered {
        if listed.commitment == *commitment {
            listed.commitment = unlike(random, instance, commitment);
        }
    }
}

/// Lists the commitment at a place that is counted, often the first or one of the last.
pub fn list(random: &mut Random, memory: &mut Memory, commitment: &Places) {
    memory.count = memory.count.max(1);
    let count = (memory.count as usize).min(MOST_ANSWERED);
    let place = match random.below(5) {
        0 => 0,
        1 => count - 1,
        2 => count.saturating_sub(2),
        _ => random.below(count),
    };
    memory.answered[place] = Listed { commitment: *commitment };
}

/// Any memory, also one whose list has no room or that lists the commitment.
pub fn any(random: &mut Random, instance: &Instance, commitment: &Places) -> Memory {
    let mut memory = with_room(random, instance, commitment);
    if random.once_in(4) {
        fill(random, instance, &mut memory, commitment);
    }
    if random.once_in(4) {
        list(random, &mut memory, commitment);
    }
    memory
}

/// A name from 0 to 7, often the last.
pub fn name(random: &mut Random) -> u32 {
    random.place(SAVED_STATES) as u32
}

/// A name that is none, often one that is a name if it is cut.
pub fn no_name(random: &mut Random) -> u32 {
    match random.below(3) {
        0 => random.pick(&[8, 9, 15, 255, u32::MAX - 1, u32::MAX]),
        1 => random.pick(&[8, 0x100, 0x1_0000, 0x100_0000, 0x8000_0000]) + name(random),
        _ => 8,
    }
}
