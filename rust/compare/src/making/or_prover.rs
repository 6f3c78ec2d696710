//! Cases of the calls on Peggy's session of the OR proof, with sessions made by
//! hand.

use crate::arithmetic::multiply;
use crate::calls::Call;
use crate::cases::{Case, OrSessionCase, OrStep};
use crate::instance::Instance;
use crate::library::phases::prover::{COMMITTED, NEW};
use crate::library::{OrSession, Places};
use crate::making::brought::{change_rows, change_slot, fill_unread, spoil_slots, wrong_challenge};
use crate::making::pairs::{PairInputs, Sheets};
use crate::making::phases::{any_phase, wrong_phase};
use crate::pair::Pair;
use crate::random::Random;

/// What a session holds, but for its state, and what its commitments are made of.
#[derive(Clone, Copy)]
pub struct Held {
    side: u32,
    nonce: Places,
    challenge: u32,
    response: Places,
}

/// The places of the side that is known and of the other, every side but 0 being 1.
pub fn places(side: u32) -> (usize, usize) {
    match side {
        0 => (0, 1),
        _ => (1, 0),
    }
}

impl Held {
    /// Any choice of this side.
    pub fn any(random: &mut Random, pair: &Pair, side: u32) -> Held {
        let (own, other) = places(side);
        Held {
            side,
            nonce: pair.instances[own].slots(random),
            challenge: pair.instances[other].challenge(random),
            response: pair.instances[other].slots(random),
        }
    }

    /// The commitments that these make, also where they are out of range.
    fn commitments(&self, pair: &Pair) -> [Places; 2] {
        let (own, other) = places(self.side);
        let mut made = [[0; 8]; 2];
        made[own] = pair.instances[own].sheet.image(&self.nonce);
        made[other] = pair.instances[other].simulated(self.challenge, &self.response);
        made
    }

    /// The committed session that holds these. Any numbers may stand beyond the
    /// columns.
    fn session(mut self, random: &mut Random, pair: &Pair) -> OrSession {
        let [commitment0, commitment1] = self.commitments(pair);
        self.fill(random, pair);
        OrSession {
            nonce: self.nonce,
            response: self.response,
            commitment0,
            commitment1,
            challenge: self.challenge,
            side: self.side,
            phase: COMMITTED,
        }
    }

    /// Fills the places beyond the columns, in half of the cases of each list.
    fn fill(&mut self, random: &mut Random, pair: &Pair) {
        let (own, other) = places(self.side);
        fill_unread(random, &mut self.nonce, pair.instances[own].columns());
        fill_unread(random, &mut self.response, pair.instances[other].columns());
    }

    /// The call that commits to these, with another number for side 1 now and then.
    pub fn commit(mut self, random: &mut Random, pair: &Pair) -> OrStep {
        self.fill(random, pair);
        if self.side == 1 && random.once_in(4) {
            self.side = beyond_one(random);
        }
        OrStep::Commit {
            side: self.side,
            nonce: self.nonce,
            challenge: self.challenge,
            response: self.response,
        }
    }
}

/// A side that is neither 0 nor 1, often one that is 0 or 1 where it is cut.
fn beyond_one(random: &mut Random) -> u32 {
    match random.below(3) {
        0 => random.pick(&[2, 3, 255, u32::MAX]),
        1 => random.pick(&[0x100, 0x1_0000, 0x8000_0000]),
        _ => random.pick(&[0x101, 0x1_0001, 0x8000_0001]),
    }
}

/// Makers of the sheets for a Peggy who knows this side: the witness of the other
/// is mostly not known, and there may be none.
pub fn sheets(side: u32) -> [Sheets; 2] {
    let (own, _) = places(side);
    let mut sheets: [Sheets; 2] = [Instance::of_group; 2];
    sheets[own] = Instance::known;
    sheets
}

/// A case of committing. Most sessions hold something that it writes over.
pub fn commit(random: &mut Random) -> Box<dyn Case> {
    Box::new(commit_case(random))
}

fn commit_case(random: &mut Random) -> OrSessionCase {
    let side = random.between(0, 1);
    let inputs = PairInputs::of_call(random, Call::OrProverCommit, sheets(side));
    let pair = &inputs.pair;
    let (own, other) = places(side);
    let mut held = Held::any(random, pair, side);
    let mut session = any_held(random, pair);
    session.phase = NEW;
    for fault in &inputs.faults {
        match (fault, random.below(3)) {
            (15, _) => held.challenge = wrong_challenge(random, &pair.instances[other]),
            (16, 0) => spoil_slots(random, &pair.instances[own], &mut held.nonce),
            (16, 1) => spoil_slots(random, &pair.instances[other], &mut held.response),
            (16, _) => {
                spoil_slots(random, &pair.instances[own], &mut held.nonce);
                spoil_slots(random, &pair.instances[other], &mut held.response);
            }
            (21, _) => session.phase = wrong_phase(random, NEW),
            _ => {}
        }
    }
    let step = held.commit(random, pair);
    OrSessionCase::one(inputs.bytes(random), session, step)
}

/// A case of responding.
pub fn respond(random: &mut Random) -> Box<dyn Case> {
    Box::new(respond_case(random))
}

fn respond_case(random: &mut Random) -> OrSessionCase {
    let side = random.between(0, 1);
    let mut inputs = PairInputs::of_call(random, Call::OrProverRespond, sheets(side));
    let (own, _) = places(side);
    let mut session = Held::any(random, &inputs.pair, side).session(random, &inputs.pair);
    let instance = &inputs.pair.instances[own];
    let mut challenge = instance.challenge(random);
    let mut witness = instance.witness.unwrap_or_default();
    if random.once_in(4) {
        instance.shift(random, &mut witness);
    }
    for fault in inputs.faults.clone() {
        let instance = &mut inputs.pair.instances[own];
        match fault {
            15 => challenge = wrong_challenge(random, instance),
            16 => spoil_slots(random, instance, &mut witness),
            17 if random.once_in(2) => change_slot(random, instance, &mut witness),
            17 => {
                let mut statement = instance.sheet.statement;
                change_rows(random, instance, &mut statement);
                instance.sheet.statement = statement;
            }
            21 => spoil_session(random, &inputs.pair, &mut session),
            _ => {}
        }
    }
    fill_unread(random, &mut witness, inputs.pair.instances[own].columns());
    let step = OrStep::Respond { challenge, witness };
    OrSessionCase::one(inputs.bytes(random), session, step)
}

/// A case of dropping, which takes no sheet.
pub fn give_up(random: &mut Random) -> Box<dyn Case> {
    let inputs = PairInputs::of_call(random, Call::OrProverDrop, sheets(0));
    let mut session = any_held(random, &inputs.pair);
    session.phase = any_phase(random);
    Box::new(OrSessionCase::one(Default::default(), session, OrStep::Drop))
}

/// A session with any held values.
fn any_held(random: &mut Random, pair: &Pair) -> OrSession {
    let side = random.between(0, 1);
    match random.below(4) {
        0 => OrSession::default(),
        1 => Held::any(random, pair, side).session(random, pair),
        _ => OrSession {
            nonce: random.words(),
            response: random.words(),
            commitment0: random.words(),
            commitment1: random.words(),
            challenge: random.word(),
            side: random.pick(&[0, 1, 2, u32::MAX]),
            phase: COMMITTED,
        },
    }
}

/// Makes a session one that does not allow a response on these sheets.
fn spoil_session(random: &mut Random, pair: &Pair, session: &mut OrSession) {
    match random.below(10) {
        0..=2 => session.phase = wrong_phase(random, COMMITTED),
        3 if session.side == 1 => session.side = beyond_one(random),
        3 => session.side = 1 - session.side,
        4..=6 => spoil_held(random, pair, session),
        7 => *session = any_held(random, pair),
        _ => spoil_commitments(random, pair, session),
    }
}

/// Changes what is held beside the commitments. In most cases it is out of range,
/// and the commitments are made of it all the same.
fn spoil_held(random: &mut Random, pair: &Pair, session: &mut OrSession) {
    let (own, other) = places(session.side);
    let (own, other) = (&pair.instances[own], &pair.instances[other]);
    let before = *session;
    match random.below(6) {
        0 => spoil_slots(random, own, &mut session.nonce),
        1 => spoil_slots(random, other, &mut session.response),
        2 => session.challenge = wrong_challenge(random, other),
        3 => session.challenge = beyond_order(random, other, session.challenge),
        4 => change_slot(random, own, &mut session.nonce),
        _ => {
            change_slot(random, other, &mut session.response);
            session.challenge = other.challenge(random);
        }
    }
    if !random.once_in(4) {
        let held = Held {
            side: before.side,
            nonce: session.nonce,
            challenge: session.challenge,
            response: session.response,
        };
        [session.commitment0, session.commitment1] = held.commitments(pair);
    }
}

/// A challenge of K or more with which the statement's power is the same in kind 1.
fn beyond_order(random: &mut Random, instance: &Instance, challenge: u32) -> u32 {
    let order = instance.group.order;
    match challenge.checked_add(order) {
        Some(beyond) => beyond,
        None => wrong_challenge(random, instance),
    }
}

/// Changes a held commitment in a row, beyond the rows or by the modulus.
fn spoil_commitments(random: &mut Random, pair: &Pair, session: &mut OrSession) {
    let side = random.below(2);
    let instance = &pair.instances[side];
    let rows = instance.rows();
    let commitment = match side {
        0 => &mut session.commitment0,
        _ => &mut session.commitment1,
    };
    match random.below(4) {
        0 if rows < 8 => commitment[rows + random.below(8 - rows)] = random.word().max(1),
        1 => {
            let value = &mut commitment[random.below(rows)];
            *value = value.wrapping_add(instance.group.modulus);
        }
        2 => {
            let value = &mut commitment[random.place(rows)];
            *value = multiply(*value, instance.group.element(random), instance.group.modulus);
        }
        _ => change_rows(random, instance, commitment),
    }
}

#[cfg(test)]
mod tests {
    use std::collections::BTreeMap;

    use super::*;
    use crate::library::Header;
    use crate::library::Library::Judge;

    /// What a slot of a sheet is below.
    fn bound(header: &Header) -> u32 {
        match header.kind {
            1 => header.order,
            _ => header.modulus,
        }
    }

    /// What stands out in a case of responding.
    fn shapes(case: &OrSessionCase) -> Vec<&'static str> {
        let [first, second] = &case.sheets;
        let [OrStep::Respond { challenge, witness }] = case.steps[..] else { unreachable!() };
        let session = case.made.unwrap();
        let respond =
            |session| Judge.or_prover_respond(first, second, session, challenge, &witness).refusal;
        let (number, phase) = (respond(session), session.phase);
        let headers = [first, second].map(|sheet| Judge.load(sheet).header);
        if headers.iter().any(|header| header.modulus == 0) {
            return Vec::new();
        }
        let (own, other) = places(session.side);
        let (own, other) = (bound(&headers[own]), headers[other]);
        let mended = |session| number == 21 && respond(session) == 0;
        let (nonce, response) = (
            session.nonce.map(|slot| slot % own),
            session.response.map(|slot| slot % bound(&other)),
        );
        let left = session.challenge % other.order;
        let shapes = [
            (number == 17 && phase != COMMITTED, "17 in a wrong state"),
            (number == 17 && session.side > 1, "17 of a side beyond 1"),
            (number == 21 && phase > 3, "an unknown state"),
            (mended(OrSession { side: 1, ..session }), "a side beyond 1"),
            (mended(OrSession { nonce, ..session }), "a nonce out of range"),
            (mended(OrSession { response, ..session }), "a simulated response out of range"),
            (
                mended(OrSession { challenge: left, ..session }),
                "a simulated challenge out of range",
            ),
            (number == 0 && session.side == 0, "answered on side 0"),
            (number == 0 && session.side == 1, "answered on side 1"),
            (number == 0 && challenge < session.challenge, "a challenge below the simulated one"),
        ];
        let met = shapes.into_iter().filter(|(met, _)| *met);
        met.map(|(_, name)| name).collect()
    }

    #[test]
    fn sessions_of_every_shape_are_met() {
        let mut met = BTreeMap::new();
        for seed in 0..20_000 {
            let case = respond_case(&mut Random::new(seed));
            for shape in shapes(&case) {
                *met.entry(shape).or_insert(0) += 1;
            }
        }
        assert_eq!(met.len(), 10, "{met:?}");
        assert!(met.values().all(|times| *times > 10), "{met:?}");
    }
}
