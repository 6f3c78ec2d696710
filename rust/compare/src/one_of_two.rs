//! What card 4 asks of the OR proof, on small pairs of sheets, over all rounds,
//! through one library alone.
//!
//! For each challenge, the rounds of a holder of either witness, over all choices
//! of nonce and simulated values, are the accepted rounds, each met once. Two
//! accepted rounds with the same commitments and two challenges extract a witness
//! of side 0 where the c0 differ, else of side 1, the same one in either order.

use std::cell::Cell;
use std::collections::BTreeMap;

use crate::demand_three::sheets::{exponent, root};
use crate::demand_three::{Small, meets_each_once};
use crate::library::{Library, OrRound, Places};
use crate::printing::hex;
use crate::sheets::Sheet;

/// Tries the card on every small pair and answers the line to print. An error says
/// where it fails.
pub fn check(library: Library) -> Result<String, String> {
    let (mut pairs, mut calls) = (0, 0);
    for sheets in small_pairs() {
        let pair = SmallPair::new(library, sheets);
        pair.check().map_err(|what| {
            let [first, second] = pair.sides.each_ref().map(|side| hex(&side.bytes));
            format!("card 4 fails on sheets {first} and {second}: {what}")
        })?;
        pairs += 1;
        calls += pair.calls.get();
    }
    Ok(format!("card 4 holds on {pairs} small pairs of sheets over all rounds, {calls} calls"))
}

/// Pairs of either kind and of both, whose sheets have one witness, several and
/// none.
fn small_pairs() -> Vec<[Sheet; 2]> {
    let one = || exponent([7, 3, 3], 1, &[2], &[4]);
    let several = || root([7, 3, 3], &[1]);
    let none = || exponent([7, 3, 3], 1, &[1], &[2]);
    let only_root = || root([5, 3, 3], &[3]);
    vec![
        [one(), several()],
        [only_root(), one()],
        [none(), one()],
        // K is below the order, so that c - c' and c1 - c1' are different there.
        [several(), exponent([11, 5, 3], 1, &[3], &[9])],
        [only_root(), root([7, 3, 3], &[3])],
        [exponent([5, 2, 2], 1, &[4], &[4]), exponent([3, 2, 2], 2, &[2, 1], &[2])],
        [exponent([3, 2, 2], 1, &[2, 2], &[2, 2]), root([4, 3, 2], &[3])],
        [none(), root([7, 3, 3], &[3])],
    ]
}

/// Two small sheets with one K.
struct SmallPair {
    library: Library,
    calls: Cell<u64>,
    sides: [Small; 2],
}

/// What Peggy commits to beside the side that she knows.
#[derive(Clone, Copy)]
struct Choice {
    nonce: Places,
    challenge: u32,
    response: Places,
}

impl SmallPair {
    fn new(library: Library, sheets: [Sheet; 2]) -> SmallPair {
        SmallPair {
            library,
            calls: Cell::new(0),
            sides: sheets.map(|sheet| Small::new(library, sheet)),
        }
    }

    /// Counts so many calls.
    fn count(&self, calls: u64) {
        self.calls.set(self.calls.get() + calls);
    }

    /// The challenge count K.
    fn challenges(&self) -> u32 {
        self.sides[0].sheet.header.challenges
    }

    /// The bytes of both sheets.
    fn bytes(&self) -> [&[u8]; 2] {
        self.sides.each_ref().map(|side| &side.bytes[..])
    }

    fn check(&self) -> Result<(), String> {
        let mut rounds: BTreeMap<[Places; 2], Vec<OrRound>> = BTreeMap::new();
        for challenge in 0..self.challenges() {
            let accepted = self.accepted(challenge);
            for (side, known) in self.sides.iter().enumerate() {
                for x in &known.witnesses {
                    let choices = self.choices(side).into_iter();
                    let made = choices.map(|choice| self.made(side, x, challenge, &choice));
                    meets_each_once(made, &accepted).map_err(|what| {
                        format!("rounds of side {side}, witness {x:?}, c {challenge}: {what}")
                    })?;
                }
            }
            for round in accepted {
                let commitments = [round.commitment0, round.commitment1];
                rounds.entry(commitments).or_default().push(round);
            }
        }
        rounds.values().try_for_each(|rounds| self.extract(rounds))
    }

    /// All accepted rounds with this challenge, by judging every choice.
    fn accepted(&self, challenge: u32) -> Vec<OrRound> {
        let [first, second] = self.bytes();
        let [[t0, r0], [t1, r1]] = self.sides.each_ref().map(Small::tried);
        let mut accepted = Vec::new();
        let sides = |t: &[Places], r: &[Places]| -> Vec<(Places, Places)> {
            let pairs = t.iter().flat_map(|t| r.iter().map(move |r| (*t, *r)));
            pairs.collect()
        };
        for (commitment0, response0) in sides(&t0, &r0) {
            for (commitment1, response1) in sides(&t1, &r1) {
                for challenge0 in 0..=self.challenges() {
                    let round = OrRound {
                        commitment0,
                        commitment1,
                        response0,
                        response1,
                        challenge,
                        challenge0,
                    };
                    self.count(1);
                    if self.library.or_judge(first, second, &round).accepted == 1 {
                        accepted.push(round);
                    }
                }
            }
        }
        accepted
    }

    /// All choices of a holder of this side.
    fn choices(&self, side: usize) -> Vec<Choice> {
        let (own, other) = (&self.sides[side].domain, &self.sides[1 - side].domain);
        let mut choices = Vec::new();
        for nonce in own {
            for challenge in 0..self.challenges() {
                choices.extend(other.iter().map(|response| Choice {
                    nonce: *nonce,
                    challenge,
                    response: *response,
                }));
            }
        }
        choices
    }

    /// The round of a choice for a challenge.
    fn made(
        &self,
        side: usize,
        witness: &Places,
        challenge: u32,
        choice: &Choice,
    ) -> Result<OrRound, u32> {
        let ([first, second], side) = (self.bytes(), side as u32);
        let Choice { nonce, challenge: simulated, response } = choice;
        self.count(3);
        let library = self.library;
        let new = library.or_prover_new();
        let committed =
            library.or_prover_commit(first, second, new, side, nonce, *simulated, response);
        let session = committed.session;
        let answered = library.or_prover_respond(first, second, session, challenge, witness);
        match (committed.refusal, answered.refusal) {
            (0, 0) => Ok(OrRound {
                commitment0: committed.values0,
                commitment1: committed.values1,
                response0: answered.values0,
                response1: answered.values1,
                challenge,
                challenge0: answered.challenge0,
            }),
            (0, number) | (number, _) => Err(number),
        }
    }

    /// Extracts from every two of these rounds that differ in the challenge.
    fn extract(&self, rounds: &[OrRound]) -> Result<(), String> {
        let [first, second] = self.bytes();
        for one in rounds {
            let later = |other: &&OrRound| other.challenge > one.challenge;
            for other in rounds.iter().filter(later) {
                self.count(2);
                let found = self.library.or_extract(first, second, one, other);
                let swapped = self.library.or_extract(first, second, other, one);
                let side = usize::from(one.challenge0 == other.challenge0);
                let holds = found == swapped
                    && found.refusal == 0
                    && found.side as usize == side
                    && self.sides[side].witnesses.contains(&found.values);
                if !holds {
                    return Err(format!("{one:?} and {other:?}: {found:?}, swapped {swapped:?}"));
                }
            }
        }
        Ok(())
    }
}

#[cfg(test)]
mod tests {
    use std::collections::BTreeSet;

    use super::*;
    use crate::faults::Fault;
    use crate::library::Library::{Faulty, Judge};

    #[test]
    fn the_judge_meets_card_four() {
        assert_eq!(check(Judge).map(|_| ()), Ok(()));
    }

    #[test]
    fn impostors_do_not_meet_card_four() {
        for fault in [
            Fault::OrOneSide,
            Fault::OrFirstSide,
            Fault::OrChallengeSame,
            Fault::OrChallengeWhole,
            Fault::OrChallengeWraps,
            Fault::OrChallengeAdded,
            Fault::OrExtractFirst,
            Fault::OrExtractWhole,
            Fault::OrExtractEqual,
            Fault::OrExtractSecond,
            Fault::OrStill,
            Fault::OrCommitKnown,
            Fault::OrRespondSimulated,
            Fault::OrRespondWhole,
            Fault::OrRespondWraps,
            Fault::OrRespondExchanged,
            Fault::OrRespondFirstSheet,
        ] {
            assert!(check(Faulty(fault)).is_err(), "{fault:?}");
        }
    }

    #[test]
    fn small_pairs_have_one_witness_or_several_or_none_on_each_side() {
        let mut counts = BTreeSet::new();
        for sheets in small_pairs() {
            let pair = SmallPair::new(Judge, sheets);
            let [first, second] = pair.sides.each_ref().map(|side| &side.sheet.header);
            assert_eq!(first.challenges, second.challenges);
            for (side, small) in pair.sides.iter().enumerate() {
                assert_eq!(Judge.load(&small.bytes).refusal, 0);
                counts.insert((side, small.witnesses.len().min(2)));
            }
        }
        assert_eq!(counts.len(), 6, "{counts:?}");
    }
}
