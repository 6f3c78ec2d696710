//! Demand 3 on small sheets, over all rounds, through one library alone.
//!
//! For each challenge, the simulated rounds of all responses are the accepted
//! rounds, each met once, and so are the honest rounds of all nonces for each
//! witness. Two accepted rounds with one commitment and two challenges extract
//! a witness, the same one in either order.

pub mod sheets;

use std::cell::Cell;
use std::collections::{BTreeMap, HashSet};
use std::fmt::Debug;
use std::hash::Hash;

use crate::groups::Group;
use crate::library::{Library, Places, Round};
use crate::printing::hex;
use crate::sheets::Sheet;

/// Tries demand 3 on every small sheet and answers the line to print. An error
/// says where it fails.
pub fn check(library: Library) -> Result<String, String> {
    let (mut sheets, mut calls) = (0, 0);
    for sheet in sheets::small() {
        let small = Small::new(library, sheet);
        small
            .check()
            .map_err(|what| format!("demand 3 fails on sheet {}: {what}", hex(&small.bytes)))?;
        sheets += 1;
        calls += small.calls.get();
    }
    Ok(format!("demand 3 holds on {sheets} small sheets over all rounds, {calls} calls"))
}

/// Every choice of so many of the values, with 0 in the places beyond.
pub fn choices(values: &[u32], count: usize) -> Vec<Places> {
    let mut all = vec![[0; 8]];
    for place in 0..count {
        let extended = all.iter().flat_map(|choice| {
            values.iter().map(move |value| {
                let mut choice = *choice;
                choice[place] = *value;
                choice
            })
        });
        all = extended.collect();
    }
    all
}

/// A small sheet with all its nonces, which are also its responses, and all its
/// witnesses.
pub struct Small {
    library: Library,
    pub calls: Cell<u64>,
    pub bytes: Vec<u8>,
    pub sheet: Sheet,
    pub domain: Vec<Places>,
    pub witnesses: Vec<Places>,
}

impl Small {
    pub fn new(library: Library, sheet: Sheet) -> Small {
        let header = sheet.header;
        let group = Group::new(header.kind, header.modulus, header.order);
        let slots: Vec<u32> = match header.kind {
            1 => (0..header.order).collect(),
            _ => (1..header.modulus).filter(|v| group.is_element(*v)).collect(),
        };
        let domain = choices(&slots, header.columns as usize);
        let is_witness = |slots: &&Places| sheet.image(slots) == sheet.statement;
        Small {
            library,
            calls: Cell::new(0),
            bytes: sheet.bytes(),
            witnesses: domain.iter().filter(is_witness).copied().collect(),
            sheet,
            domain,
        }
    }

    /// Counts so many calls.
    fn count(&self, calls: u64) {
        self.calls.set(self.calls.get() + calls);
    }

    fn check(&self) -> Result<(), String> {
        let mut rounds: BTreeMap<Places, Vec<Round>> = BTreeMap::new();
        for challenge in 0..self.sheet.header.challenges {
            let accepted = self.accepted(challenge);
            let simulated = self.domain.iter().map(|r| self.simulated(challenge, r));
            meets_each_once(simulated, &accepted)
                .map_err(|what| format!("simulated rounds of challenge {challenge}: {what}"))?;
            for x in &self.witnesses {
                let honest = self.domain.iter().map(|k| self.honest(x, challenge, k));
                meets_each_once(honest, &accepted).map_err(|what| {
                    format!("honest rounds of witness {x:?}, challenge {challenge}: {what}")
                })?;
            }
            for round in accepted {
                rounds.entry(round.commitment).or_default().push(round);
            }
        }
        rounds.values().try_for_each(|rounds| self.extract(rounds))
    }

    /// The commitments and the responses that are tried: every choice of numbers in
    /// range and of some that are not.
    pub fn tried(&self) -> [Vec<Places>; 2] {
        let header = self.sheet.header;
        let values: Vec<u32> = (0..=header.modulus + 1).collect();
        let most = match header.kind {
            1 => header.order + 1,
            _ => header.modulus + 1,
        };
        let slots: Vec<u32> = (0..=most).collect();
        [choices(&values, header.rows as usize), choices(&slots, header.columns as usize)]
    }

    /// All accepted rounds with this challenge, by judging every choice.
    fn accepted(&self, challenge: u32) -> Vec<Round> {
        let [commitments, responses] = self.tried();
        let mut accepted = Vec::new();
        for commitment in commitments {
            for response in &responses {
                let round = Round { commitment, challenge, response: *response };
                self.count(1);
                if self.library.judge(&self.bytes, &round).accepted == 1 {
                    accepted.push(round);
                }
            }
        }
        accepted
    }

    /// The simulated round of a response.
    fn simulated(&self, challenge: u32, response: &Places) -> Result<Round, u32> {
        self.count(1);
        let simulated = self.library.simulate(&self.bytes, challenge, response);
        match simulated.refusal {
            0 => Ok(Round { commitment: simulated.values, challenge, response: *response }),
            number => Err(number),
        }
    }

    /// The honest round of a witness and a nonce.
    pub fn honest(&self, witness: &Places, challenge: u32, nonce: &Places) -> Result<Round, u32> {
        self.count(3);
        let session = self.library.prover_new();
        let committed = self.library.prover_commit(&self.bytes, session, nonce);
        let session = committed.session;
        let answered = self.library.prover_respond(&self.bytes, session, challenge, witness);
        match (committed.refusal, answered.refusal) {
            (0, 0) => {
                Ok(Round { commitment: committed.values, challenge, response: answered.values })
            }
            (0, number) | (number, _) => Err(number),
        }
    }

    /// Extracts from every two of these rounds that differ in the challenge.
    fn extract(&self, rounds: &[Round]) -> Result<(), String> {
        for first in rounds {
            let later = |second: &&Round| second.challenge > first.challenge;
            for second in rounds.iter().filter(later) {
                self.count(2);
                let one = self.library.extract(&self.bytes, first, second);
                let two = self.library.extract(&self.bytes, second, first);
                if one != two || one.refusal != 0 || !self.witnesses.contains(&one.values) {
                    return Err(format!("{first:?} and {second:?}: {one:?}, swapped {two:?}"));
                }
            }
        }
        Ok(())
    }
}

/// Whether the made rounds are the accepted ones, each met once.
pub fn meets_each_once<R: Copy + Debug + Eq + Hash>(
    made: impl Iterator<Item = Result<R, u32>>,
    accepted: &[R],
) -> Result<(), String> {
    let all: HashSet<&R> = accepted.iter().collect();
    let mut met = HashSet::new();
    for round in made {
        let round = round.map_err(|number| format!("refused with {number}"))?;
        if !all.contains(&round) {
            return Err(format!("{round:?} is not accepted"));
        }
        if !met.insert(round) {
            return Err(format!("{round:?} is met twice"));
        }
    }
    match accepted.iter().find(|round| !met.contains(*round)) {
        Some(round) => Err(format!("{round:?} is not met")),
        None => Ok(()),
    }
}

#[cfg(test)]
mod tests {
    use super::*;
    use crate::faults::Fault;
    use crate::library::Library::{Faulty, Judge};

    #[test]
    fn the_judge_meets_demand_three() {
        assert_eq!(check(Judge).map(|_| ()), Ok(()));
    }

    #[test]
    fn impostors_do_not_meet_demand_three() {
        for fault in [
            Fault::JudgeRowZero,
            Fault::JudgeRejectsAll,
            Fault::JudgeCongruent,
            Fault::JudgeSlotReduced,
            Fault::SimulateOne,
            Fault::SimulatePositive,
            Fault::SimulateBeyond,
            Fault::ExtractTwenty,
            Fault::ExtractInverseModM,
            Fault::ExtractModM,
            Fault::ExtractUnsigned,
            Fault::ExtractWithoutStatement,
            Fault::ProverStill,
            Fault::CommitOneNonce,
            Fault::RespondModM,
        ] {
            assert!(check(Faulty(fault)).is_err(), "{fault:?}");
        }
    }

    #[test]
    fn small_sheets_have_one_witness_or_several_or_none() {
        let mut counts = HashSet::new();
        for sheet in sheets::small() {
            let kind = sheet.header.kind;
            let small = Small::new(Judge, sheet);
            assert_eq!(Judge.load(&small.bytes).refusal, 0);
            counts.insert((kind, small.witnesses.len().min(2)));
        }
        assert_eq!(counts.len(), 6);
    }
}
