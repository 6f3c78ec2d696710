//! What a call brings: commitments, challenges, slots and rounds.

use crate::arithmetic::multiply;
use crate::instance::Instance;
use crate::library::{Places, Round};
use crate::random::Random;

/// Fills the places beyond those in use with any numbers, in half of the cases.
pub fn fill_unread(random: &mut Random, values: &mut Places, used: usize) {
    if random.once_in(2) {
        for value in &mut values[used..] {
            *value = random.word();
        }
    }
}

/// Fills the unread places of a round, in half of the cases.
pub fn fill_round(random: &mut Random, instance: &Instance, round: &mut Round) {
    fill_unread(random, &mut round.commitment, instance.rows());
    fill_unread(random, &mut round.response, instance.columns());
}

/// A challenge of K or more, often one that is below K where it is cut.
pub fn wrong_challenge(random: &mut Random, instance: &Instance) -> u32 {
    let count = instance.sheet.header.challenges;
    let inside = instance.challenge(random);
    let wrong = match random.below(5) {
        0 | 1 => count,
        2 => random.pick(&[0x1_0000, 0x2_0000, 0x100_0000, 0x8000_0000]) + inside,
        3 => random.pick(&[count + 1, u32::MAX, u32::MAX - 1]),
        _ => random.between(count, u32::MAX),
    };
    wrong.max(count)
}

/// Makes one commitment value no group element.
pub fn spoil_commitment(random: &mut Random, instance: &Instance, commitment: &mut Places) {
    commitment[random.place(instance.rows())] = instance.group.other(random);
}

/// Makes one slot no domain slot.
pub fn spoil_slots(random: &mut Random, instance: &Instance, slots: &mut Places) {
    slots[random.place(instance.columns())] = instance.group.no_slot(random);
}

/// Puts a fault with the number 14, 15 or 16 into a round.
pub fn spoil_round(random: &mut Random, instance: &Instance, round: &mut Round, number: u32) {
    match number {
        14 => spoil_commitment(random, instance, &mut round.commitment),
        15 => round.challenge = wrong_challenge(random, instance),
        16 => spoil_slots(random, instance, &mut round.response),
        _ => {}
    }
}

/// A round without a fault. In half of the cases it is changed, so that it is
/// mostly rejected.
pub fn round(random: &mut Random, instance: &Instance) -> Round {
    let mut round = instance.accepted(random);
    if random.once_in(2) {
        change(random, instance, &mut round);
    }
    round
}

/// Changes a round in one value or in several.
pub fn change(random: &mut Random, instance: &Instance, round: &mut Round) {
    match random.below(8) {
        0..=3 => change_rows(random, instance, &mut round.commitment),
        4 => round.challenge = instance.other_challenge(random, round.challenge),
        5 => change_slot(random, instance, &mut round.response),
        6 => flip(random, instance, round),
        _ => {
            round.commitment = instance.elements(random);
            round.response = instance.slots(random);
        }
    }
}

/// Changes one row of a commitment, or that row and those behind it, or any. The
/// factor is the largest of four elements, which is seldom 1.
pub fn change_rows(random: &mut Random, instance: &Instance, commitment: &mut Places) {
    let first = random.place(instance.rows());
    let rows = match random.below(3) {
        0 => 1 << first,
        1 => 0xff << first,
        _ => 1 + random.below((1 << instance.rows()) - 1),
    };
    let used = commitment[..instance.rows()].iter_mut().enumerate();
    for (_, value) in used.filter(|(row, _)| rows >> row & 1 == 1) {
        let factor = (0..4).map(|_| instance.group.element(random)).max();
        *value = multiply(*value, factor.unwrap_or(1), instance.group.modulus);
    }
}

/// Puts another slot in one place.
pub fn change_slot(random: &mut Random, instance: &Instance, slots: &mut Places) {
    slots[random.place(instance.columns())] = instance.group.slot(random);
}

/// Flips one bit of a round, which may make it one that is refused.
fn flip(random: &mut Random, instance: &Instance, round: &mut Round) {
    let bit = random.pick(&[0, 1, 2, 3, 7, 8, 15, 16, 30, 31]);
    let value = match random.below(3) {
        0 => &mut round.commitment[random.below(instance.rows())],
        1 => &mut round.challenge,
        _ => &mut round.response[random.below(instance.columns())],
    };
    *value ^= 1 << bit;
}
