//! Cases of opening a watch, and of giving a round to one that is made by hand.

use crate::calls::{Call, SHEET_NUMBERS};
use crate::cases::{Case, Start, WatchCase, WatchStep};
use crate::damage;
use crate::instance::Instance;
use crate::library::{LONGEST_SHEET, MOST_REMEMBERED, Places, Round, Watch};
use crate::making::brought::{
    change, change_rows, change_slot, fill_round, spoil_round, spoil_slots, wrong_challenge,
};
use crate::making::inputs::Inputs;
use crate::making::rounds::with_nonce;
use crate::making::sheets;
use crate::random::Random;
use crate::sheets::Sheet;

/// A case of opening.
pub fn open(random: &mut Random) -> Box<dyn Case> {
    let (sheet, _) = sheets::bytes(random, 2);
    Box::new(WatchCase { start: Start::Opened(sheet), steps: Vec::new() })
}

/// A case of a round that is given to a watch made by hand.
pub fn round(random: &mut Random) -> Box<dyn Case> {
    Box::new(made(random))
}

fn made(random: &mut Random) -> WatchCase {
    let inputs = Inputs::known(random, Call::WatchRound);
    let instance = &inputs.instance;
    let mut hand = Hand::new(random, instance);
    if random.once_in(4) {
        change(random, instance, &mut hand.round);
    }
    for fault in &inputs.faults {
        match fault {
            21 => hand.spoil(random, instance),
            _ => spoil_round(random, instance, &mut hand.round, *fault),
        }
    }
    fill_round(random, instance, &mut hand.round);
    WatchCase {
        start: Start::Made(hand.watch),
        steps: vec![WatchStep { sheet: inputs.bytes(random), round: hand.round }],
    }
}

/// A round, its nonce, and the watch that it is given to.
struct Hand {
    nonce: Places,
    round: Round,
    watch: Box<Watch>,
}

impl Hand {
    /// An accepted round and a watch that is opened on its sheet. Up to four remembered
    /// rounds have to do with the round.
    fn new(random: &mut Random, instance: &Instance) -> Hand {
        let nonce = instance.slots(random);
        let challenge = instance.challenge(random);
        let mut hand = Hand {
            nonce,
            round: with_nonce(random, instance, &nonce, challenge),
            watch: Box::new(watch(random, instance)),
        };
        for _ in 0..random.below(5) {
            let place = hand.place(random);
            hand.watch.rounds[place] = hand.related(random, instance);
        }
        hand
    }

    /// A place among the rounds: the first, the last that is counted, the one after it,
    /// the last of all, or any.
    fn place(&self, random: &mut Random) -> usize {
        let (count, last) = (self.watch.count as usize, MOST_REMEMBERED - 1);
        match random.below(8) {
            0 => 0,
            1 => count.saturating_sub(1).min(last),
            2 => count.min(last),
            3 => last,
            4 => random.below(MOST_REMEMBERED),
            _ => random.below(count.clamp(1, MOST_REMEMBERED)),
        }
    }

    /// A round with the same commitment and another challenge or the same one. Now and
    /// then it is forged, or its commitment differs after all.
    fn related(&self, random: &mut Random, instance: &Instance) -> Round {
        let challenge = if random.once_in(4) {
            self.round.challenge
        } else {
            instance.other_challenge(random, self.round.challenge)
        };
        let mut round = with_nonce(random, instance, &self.nonce, challenge);
        match random.below(8) {
            0 => change_rows(random, instance, &mut round.commitment),
            1 => forge(random, instance, &mut round),
            _ => {}
        }
        fill_round(random, instance, &mut round);
        round
    }

    /// Makes the watch one that does not fit, or one whose named round is not accepted
    /// in most cases.
    fn spoil(&mut self, random: &mut Random, instance: &Instance) {
        match random.below(4) {
            0 => self.spoil_sheet(random, instance),
            1 => self.watch.length = wrong_length(random, self.watch.length),
            2 => self.watch.count = wrong_count(random),
            _ => {
                self.watch.count = self.watch.count.clamp(1, MOST_REMEMBERED as u32);
                let challenge = instance.other_challenge(random, self.round.challenge);
                let mut forged = with_nonce(random, instance, &self.nonce, challenge);
                forge(random, instance, &mut forged);
                fill_round(random, instance, &mut forged);
                let place = random.below(self.watch.count as usize);
                self.watch.rounds[place] = forged;
            }
        }
    }

    /// Puts other bytes into the watch.
    fn spoil_sheet(&mut self, random: &mut Random, instance: &Instance) {
        let other = other_bytes(random, instance);
        let held = &other[..other.len().min(LONGEST_SHEET)];
        self.watch.sheet[..held.len()].copy_from_slice(held);
        self.watch.length = other.len() as u32;
    }
}

/// A watch that is opened on the sheet. It has any count up to 63, often one at an end.
/// Its rounds are accepted ones, zeros or anything, those from the count on too.
fn watch(random: &mut Random, instance: &Instance) -> Watch {
    let bytes = instance.sheet.bytes();
    let mut sheet = [0; LONGEST_SHEET];
    if random.once_in(2) {
        sheet.copy_from_slice(&random.bytes(LONGEST_SHEET));
    }
    sheet[..bytes.len()].copy_from_slice(&bytes);
    let others: [Round; 3] = std::array::from_fn(|_| {
        let mut other = instance.accepted(random);
        fill_round(random, instance, &mut other);
        other
    });
    let zeros = random.once_in(4);
    let rounds = std::array::from_fn(|_| match random.below(4) {
        _ if zeros => Round::default(),
        0 => {
            Round { commitment: random.words(), challenge: random.word(), response: random.words() }
        }
        _ => random.pick(&others),
    });
    let most = MOST_REMEMBERED as u32;
    Watch {
        rounds,
        sheet,
        length: bytes.len() as u32,
        count: match random.below(6) {
            0 | 1 => most,
            2 => most - 1,
            3 => random.between(0, 3),
            _ => random.between(0, most),
        },
    }
}

/// Makes a round one that is not accepted, in most cases: by a challenge of K or more,
/// by a slot that is none, or by a wrong response.
fn forge(random: &mut Random, instance: &Instance, round: &mut Round) {
    match random.below(4) {
        0 => round.challenge = wrong_challenge(random, instance),
        1 => spoil_slots(random, instance, &mut round.response),
        2 => change_slot(random, instance, &mut round.response),
        _ => round.response = instance.slots(random),
    }
}

/// A length that is not this one: one byte off, beyond the longest sheet, or one that is
/// the same if it is cut.
fn wrong_length(random: &mut Random, right: u32) -> u32 {
    let cut = random.pick(&[0x100, 0x1_0000, 0x100_0000, 0x8000_0000]) + right;
    let longest = LONGEST_SHEET as u32;
    let wrong = random.pick(&[right - 1, right + 1, 0, longest + 1, cut, cut, u32::MAX]);
    if wrong == right { longest + 1 } else { wrong }
}

/// A count above 63, often one that is below it if it is cut.
fn wrong_count(random: &mut Random) -> u32 {
    let below = random.between(0, MOST_REMEMBERED as u32);
    match random.below(3) {
        0 => random.pick(&[64, 64, 65, u32::MAX]),
        1 => random.pick(&[0x100, 0x1_0000, 0x100_0000, 0x8000_0000]) + below,
        _ => random.pick(&[65, 128, u32::MAX - 1, u32::MAX]),
    }
}

/// Bytes that are not the sheet's, in most cases: a byte is another, there is one more or
/// one fewer, or they are those of another sheet, which loads or does not.
pub fn other_bytes(random: &mut Random, instance: &Instance) -> Vec<u8> {
    let Instance { group, sheet, .. } = instance;
    let mut bytes = sheet.bytes();
    let length = bytes.len();
    match random.below(8) {
        0 => bytes[random.place(length)] ^= 1 << random.below(8),
        1 => bytes.push(0),
        2 => bytes.truncate(length - 1),
        3 => bytes = Sheet::of_group(random, group).bytes(),
        4 => {
            let number = random.pick(&SHEET_NUMBERS);
            bytes = damage::refused(random, number);
        }
        5 => {
            // Values of the same group in the same places.
            let mut other = sheet.clone();
            let row = random.place(instance.rows());
            if random.once_in(2) {
                other.statement[row] = group.element(random)
            } else {
                other.entries[8 * row] = group.element(random)
            }
            bytes = other.bytes();
        }
        _ => bytes = with_other_count(random, instance),
    }
    bytes
}

/// The sheet's bytes with another challenge count, if one is allowed: most rounds
/// that the sheet accepts are accepted there too.
fn with_other_count(random: &mut Random, instance: &Instance) -> Vec<u8> {
    let mut other = instance.sheet.clone();
    let count = other.header.challenges;
    if let Some(allowed) = instance.group.other_challenges(random, count) {
        other.header.challenges = allowed;
    }
    other.bytes()
}

#[cfg(test)]
mod tests;
