//! Cases of the calls on Vic's session, with sessions made by hand.

use crate::calls::Call;
use crate::cases::{Case, SessionCase, Step};
use crate::instance::Instance;
use crate::library::phases::verifier::{ASKED, HOLDING, WAITING};
use crate::library::{Round, VerifierSession};
use crate::making::brought::{
    fill_round, fill_unread, round, spoil_commitment, spoil_slots, wrong_challenge,
};
use crate::making::inputs::Inputs;
use crate::making::phases::wrong_phase;
use crate::random::Random;

/// A case of bringing the commitment. Most sessions hold something already.
pub fn commitment(random: &mut Random) -> Box<dyn Case> {
    let inputs = Inputs::of_call(random, Call::VerifierCommitment);
    let instance = &inputs.instance;
    let mut session = any_held(random, instance);
    session.phase = WAITING;
    let mut commitment = instance.elements(random);
    for fault in &inputs.faults {
        match fault {
            14 => spoil_commitment(random, instance, &mut commitment),
            21 => session.phase = wrong_phase(random, WAITING),
            _ => {}
        }
    }
    fill_unread(random, &mut commitment, instance.rows());
    SessionCase::one(inputs.bytes(random), session, Step::Commitment { commitment })
}

/// A case of bringing the challenge. A challenge that is held is written over.
pub fn challenge(random: &mut Random) -> Box<dyn Case> {
    let inputs = Inputs::of_call(random, Call::VerifierChallenge);
    let instance = &inputs.instance;
    let mut session = holding(random, instance);
    if random.once_in(2) {
        session.challenge = random.word();
    }
    let mut challenge = instance.challenge(random);
    for fault in &inputs.faults {
        match fault {
            15 => challenge = wrong_challenge(random, instance),
            21 => spoil_session(random, instance, &mut session),
            _ => {}
        }
    }
    SessionCase::one(inputs.bytes(random), session, Step::Challenge { challenge })
}

/// A case of bringing the response, to an accepted or a rejected round.
pub fn response(random: &mut Random) -> Box<dyn Case> {
    let inputs = Inputs::of_call(random, Call::VerifierResponse);
    let instance = &inputs.instance;
    let mut held = round(random, instance);
    fill_round(random, instance, &mut held);
    let Round { commitment, challenge, mut response } = held;
    let mut session = VerifierSession { phase: ASKED, commitment, challenge };
    for fault in &inputs.faults {
        match fault {
            16 => spoil_slots(random, instance, &mut response),
            21 if random.once_in(3) => session.challenge = wrong_challenge(random, instance),
            21 => spoil_session(random, instance, &mut session),
            _ => {}
        }
    }
    SessionCase::one(inputs.bytes(random), session, Step::Response { response })
}

/// A session that holds a commitment. Any numbers may stand beyond its rows.
fn holding(random: &mut Random, instance: &Instance) -> VerifierSession {
    let mut commitment = instance.elements(random);
    fill_unread(random, &mut commitment, instance.rows());
    VerifierSession { phase: HOLDING, commitment, challenge: 0 }
}

/// A session with any held values.
fn any_held(random: &mut Random, instance: &Instance) -> VerifierSession {
    match random.below(3) {
        0 => VerifierSession::default(),
        1 => holding(random, instance),
        _ => {
            VerifierSession { phase: HOLDING, commitment: random.words(), challenge: random.word() }
        }
    }
}

/// Puts the session into another phase, or makes a held commitment value no
/// group element.
fn spoil_session(random: &mut Random, instance: &Instance, session: &mut VerifierSession) {
    if random.once_in(2) {
        session.phase = wrong_phase(random, session.phase);
    } else {
        spoil_commitment(random, instance, &mut session.commitment);
    }
}
