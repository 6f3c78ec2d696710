//! Cases of judging rounds of the OR proof and of extracting from them.

use crate::calls::Call;
use crate::cases::{Case, OrRoundCall, OrRoundCase};
use crate::instance::Instance;
use crate::library::{OrRound, Round};
use crate::making::brought::{change, change_rows, change_slot, fill_unread, spoil_commitment};
use crate::making::brought::{spoil_slots, wrong_challenge};
use crate::making::pairs::PairInputs;
use crate::making::rounds::with_nonce;
use crate::pair::Pair;
use crate::random::Random;

/// A case of judging.
pub fn judge(random: &mut Random) -> Box<dyn Case> {
    Box::new(judge_case(random))
}

fn judge_case(random: &mut Random) -> OrRoundCase {
    let inputs = PairInputs::of_call(random, Call::OrJudge, [Instance::of_group; 2]);
    let pair = &inputs.pair;
    let mut judged = round(random, pair);
    for fault in &inputs.faults {
        spoil_round(random, pair, &mut judged, *fault);
    }
    fill_round(random, pair, &mut judged);
    OrRoundCase { sheets: inputs.bytes(random), call: OrRoundCall::Judge(Box::new(judged)) }
}

/// A round without a fault. In half of the cases one side or both are changed,
/// so that it is mostly rejected.
fn round(random: &mut Random, pair: &Pair) -> OrRound {
    let mut sides = pair.accepted(random);
    if random.once_in(2) {
        let changed: &[usize] = match random.below(5) {
            0 | 1 => &[0],
            2 | 3 => &[1],
            _ => &[0, 1],
        };
        for side in changed {
            change(random, &pair.instances[*side], &mut sides[*side]);
        }
    }
    let mut round = pair.joined(&sides);
    if random.once_in(12) {
        let challenge = pair.instances[0].challenge(random);
        *random_challenge(random, &mut round) = challenge;
    }
    round
}

/// c or c0.
fn random_challenge<'a>(random: &mut Random, round: &'a mut OrRound) -> &'a mut u32 {
    if random.once_in(2) { &mut round.challenge } else { &mut round.challenge0 }
}

/// Puts a fault with the number 14, 15 or 16 into one side or into both.
fn spoil_round(random: &mut Random, pair: &Pair, round: &mut OrRound, number: u32) {
    let [first, second] = &pair.instances;
    let spoilt = random.between(1, 3);
    let (one, two) = (spoilt & 1 == 1, spoilt & 2 == 2);
    match number {
        14 if one => spoil_commitment(random, first, &mut round.commitment0),
        15 if one => round.challenge = wrong_challenge(random, first),
        16 if one => spoil_slots(random, first, &mut round.response0),
        _ => {}
    }
    match number {
        14 if two => spoil_commitment(random, second, &mut round.commitment1),
        15 if two => round.challenge0 = wrong_challenge(random, second),
        16 if two => spoil_slots(random, second, &mut round.response1),
        _ => {}
    }
}

/// Fills the unread places of a round, in half of the cases of each list.
fn fill_round(random: &mut Random, pair: &Pair, round: &mut OrRound) {
    let [first, second] = &pair.instances;
    fill_unread(random, &mut round.commitment0, first.rows());
    fill_unread(random, &mut round.commitment1, second.rows());
    fill_unread(random, &mut round.response0, first.columns());
    fill_unread(random, &mut round.response1, second.columns());
}

/// A case of extracting.
pub fn extract(random: &mut Random) -> Box<dyn Case> {
    Box::new(extract_case(random))
}

fn extract_case(random: &mut Random) -> OrRoundCase {
    let inputs = PairInputs::of_call(random, Call::OrExtract, [Instance::known; 2]);
    let pair = &inputs.pair;
    let mut sides = two_rounds(random, pair);
    for fault in inputs.faults.iter().filter(|fault| [18, 20].contains(*fault)) {
        spoil_sides(random, pair, &mut sides, *fault);
    }
    let mut rounds = sides.each_ref().map(|sides| pair.joined(sides));
    for fault in &inputs.faults {
        let one = random.below(2);
        match fault {
            19 => equal_challenges(random, &mut rounds, one),
            _ => spoil_round(random, pair, &mut rounds[one], *fault),
        }
    }
    for round in &mut rounds {
        fill_round(random, pair, round);
    }
    OrRoundCase { sheets: inputs.bytes(random), call: OrRoundCall::Extract(Box::new(rounds)) }
}

/// Two accepted rounds with the same commitments. The challenges differ on side
/// 0, on side 1 or on both, and then now and then by the same in both directions,
/// so that c is the same.
fn two_rounds(random: &mut Random, pair: &Pair) -> [[Round; 2]; 2] {
    let [first, second] = pair.instances.each_ref().map(|instance| {
        let (nonce, challenge) = (instance.slots(random), instance.challenge(random));
        let other = instance.other_challenge(random, challenge);
        (nonce, [challenge, other])
    });
    let (mut one, mut two) = (first.1, second.1);
    match random.below(16) {
        0..=5 => two[1] = two[0],
        6..=11 => one[1] = one[0],
        12 => {
            let step = pair.left(one[1], one[0]);
            two[1] = pair.left(two[0], step);
        }
        _ => {}
    }
    let [i, j] = &pair.instances;
    [0, 1].map(|place| {
        [with_nonce(random, i, &first.0, one[place]), with_nonce(random, j, &second.0, two[place])]
    })
}

/// Makes the commitments of a side differ (18), or a side of one round or of both
/// rejected (20), in most cases.
fn spoil_sides(random: &mut Random, pair: &Pair, sides: &mut [[Round; 2]; 2], number: u32) {
    let (one, side) = (random.below(2), random.below(2));
    let instance = &pair.instances[side];
    match (number, random.below(4)) {
        (18, 0 | 1) => {
            let (nonce, challenge) = (instance.slots(random), sides[one][side].challenge);
            sides[one][side] = with_nonce(random, instance, &nonce, challenge);
        }
        (18, _) => change_rows(random, instance, &mut sides[one][side].commitment),
        (_, 0) => {
            change_rows(random, instance, &mut sides[one][side].commitment);
            sides[1 - one][side].commitment = sides[one][side].commitment;
        }
        (_, 1) => change(random, instance, &mut sides[one][side]),
        _ => change_slot(random, instance, &mut sides[one][side].response),
    }
}

/// Gives both rounds one c: the rounds are the same, or the second c is another.
fn equal_challenges(random: &mut Random, rounds: &mut [OrRound; 2], one: usize) {
    if random.once_in(2) {
        rounds[one] = rounds[1 - one];
    } else {
        rounds[one].challenge = rounds[1 - one].challenge;
    }
}

#[cfg(test)]
mod tests {
    use std::collections::BTreeMap;

    use super::*;
    use crate::library::Library::Judge;

    /// What stands out in a case, with what it comes to.
    fn shapes(case: &OrRoundCase) -> Vec<String> {
        let [first, second] = &case.sheets;
        let rounds = case.rounds();
        let count = Judge.load(first).header.challenges;
        let mut shapes = Vec::new();
        let wraps = |round: &OrRound| round.challenge < round.challenge0;
        if let [round] = rounds {
            let judged = Judge.or_judge(first, second, round);
            if judged.refusal == 0 {
                let verdict = (judged.accepted, judged.rows0 != 0, judged.rows1 != 0);
                shapes.push(format!("{verdict:?}, c below c0 {}", wraps(round)));
            }
            let one = [round.challenge >= count, round.challenge0 >= count];
            if judged.refusal == 15 {
                shapes.push(format!("15, of c and c0 {one:?}"));
            }
        }
        if let [one, other] = rounds {
            let extracted = Judge.or_extract(first, second, one, other);
            let (c, c0) = (one.challenge == other.challenge, one.challenge0 == other.challenge0);
            match extracted.refusal {
                0 => {
                    let one_wraps = wraps(one) != wraps(other);
                    let left =
                        |round: &OrRound| (round.challenge + count - round.challenge0) % count;
                    let c1 = left(one) == left(other);
                    shapes.push(format!("c0 equal {c0}, c1 equal {c1}, one wraps {one_wraps}"));
                    assert_eq!(extracted.side, u32::from(c0));
                }
                number => shapes.push(format!("{number}, c equal {c}, c0 equal {c0}")),
            }
        }
        shapes
    }

    #[test]
    fn rounds_of_every_shape_are_met() {
        let mut met = BTreeMap::new();
        for seed in 0..8000 {
            let mut random = Random::new(seed);
            for case in [judge_case(&mut random), extract_case(&mut random)] {
                for shape in shapes(&case) {
                    *met.entry(shape).or_insert(0) += 1;
                }
            }
        }
        for wanted in [
            "(1, false, false), c below c0 false",
            "(1, false, false), c below c0 true",
            "(0, true, false), c below c0 true",
            "(0, false, true), c below c0 true",
            "(0, true, true), c below c0 true",
            "15, of c and c0 [true, false]",
            "15, of c and c0 [false, true]",
            "15, of c and c0 [true, true]",
            "c0 equal false, c1 equal true, one wraps false",
            "c0 equal false, c1 equal true, one wraps true",
            "c0 equal true, c1 equal false, one wraps false",
            "c0 equal true, c1 equal false, one wraps true",
            "c0 equal false, c1 equal false, one wraps true",
            "18, c equal false, c0 equal true",
            "18, c equal false, c0 equal false",
            "18, c equal true, c0 equal true",
            "19, c equal true, c0 equal false",
            "20, c equal false, c0 equal true",
            "20, c equal false, c0 equal false",
        ] {
            assert!(met.get(wanted) > Some(&10), "{wanted}: {met:#?}");
        }
    }
}
