//! Runs of a watch from its opening on, in which nonces are used again.

use crate::cases::{Case, Start, WatchCase, WatchStep};
use crate::damage;
use crate::groups::Group;
use crate::instance::Instance;
use crate::library::{MOST_REMEMBERED, Places};
use crate::making::brought::{change, fill_round, spoil_round};
use crate::making::rounds::with_nonce;
use crate::making::watches::other_bytes;
use crate::random::Random;

/// A case of a run. A long one has 70 or 130 rounds. Now and then the bytes that the
/// watch is opened on are damaged.
pub fn run(random: &mut Random) -> Box<dyn Case> {
    let rounds = match random.below(30) {
        0 => 70,
        1 => 130,
        _ => random.between(2, 12),
    };
    let (mut sheet, steps) = of_rounds(random, rounds);
    if random.once_in(20) {
        sheet = damage::damaged(random, sheet);
    }
    Box::new(WatchCase { start: Start::Opened(sheet), steps })
}

/// A sheet and so many rounds. Most come with the sheet's bytes and are accepted.
pub fn of_rounds(random: &mut Random, rounds: u32) -> (Vec<u8>, Vec<WatchStep>) {
    let group = group(random);
    let mut run = Run {
        instance: Instance::known(random, group),
        long: rounds > MOST_REMEMBERED as u32,
        past: Vec::new(),
        steps: Vec::new(),
    };
    // Of 70 rounds more than 63 are to be accepted.
    let spoilt = if rounds == 70 { 24 } else { 5 };
    for _ in 0..rounds {
        run.step(random, spoilt);
    }
    (run.instance.sheet.bytes(), run.steps)
}

/// Any group. Up to four are tried for one that is not small, so that commitments are
/// seldom the same by chance.
pub fn group(random: &mut Random) -> Group {
    let mut group = Group::any(random);
    for _ in 0..3 {
        if group.modulus > 1000 && group.order > 1000 {
            break;
        }
        group = Group::any(random);
    }
    group
}

/// A run up to some round.
struct Run {
    instance: Instance,
    /// Whether it will have more than 63 rounds.
    long: bool,
    /// The nonces and challenges of the accepted rounds, the newest last.
    past: Vec<(Places, u32)>,
    steps: Vec<WatchStep>,
}

impl Run {
    /// Adds a round. One in so many is made to be rejected, to be refused, or to come
    /// with other bytes.
    fn step(&mut self, random: &mut Random, spoilt: usize) {
        let (nonce, challenge) = self.next(random);
        let instance = &self.instance;
        let mut step = WatchStep {
            sheet: instance.sheet.bytes(),
            round: with_nonce(random, instance, &nonce, challenge),
        };
        if random.once_in(spoilt) {
            spoil(random, instance, &mut step);
        } else {
            self.past.push((nonce, challenge));
        }
        fill_round(random, &self.instance, &mut step.round);
        self.steps.push(step);
    }

    /// The nonce and the challenge of the next round: those of an earlier round, mostly
    /// with another challenge, or new ones.
    fn next(&self, random: &mut Random) -> (Places, u32) {
        let instance = &self.instance;
        match self.earlier(random) {
            Some((nonce, challenge)) if !random.once_in(3) => {
                if random.once_in(3) {
                    (nonce, challenge)
                } else {
                    (nonce, instance.other_challenge(random, challenge))
                }
            }
            _ => (instance.slots(random), instance.challenge(random)),
        }
    }

    /// The values of an accepted round: of any, or in a long run mostly of one that
    /// stands 62 to 64 back, if there is one.
    fn earlier(&self, random: &mut Random) -> Option<(Places, u32)> {
        let count = self.past.len();
        let back = match random.pick(&[0, 0, 62, 63, 63, 64, 64]) {
            far @ 1.. if self.long => far,
            _ => 1 + random.below(count),
        };
        let place = count.checked_sub(back)?;
        self.past.get(place).copied()
    }
}

/// Makes a round one that is rejected or refused in most cases, or hands in other bytes
/// with a round of any sort.
fn spoil(random: &mut Random, instance: &Instance, step: &mut WatchStep) {
    let other = random.once_in(2);
    if other {
        step.sheet = other_bytes(random, instance);
    }
    match random.below(4) {
        0 => {
            let number = random.pick(&[14, 15, 16]);
            spoil_round(random, instance, &mut step.round, number);
        }
        1 => change(random, instance, &mut step.round),
        _ if other => {}
        _ => change(random, instance, &mut step.round),
    }
}
