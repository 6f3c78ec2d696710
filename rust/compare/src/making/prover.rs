//! Cases of the calls on Peggy's session, with sessions made by hand.

use crate::calls::Call;
use crate::cases::{Case, SessionCase, Step};
use crate::instance::Instance;
use crate::library::ProverSession;
use crate::library::phases::prover::{COMMITTED, NEW};
use crate::making::brought::{change_rows, change_slot, fill_unread, spoil_slots, wrong_challenge};
use crate::making::inputs::Inputs;
use crate::making::memories::{any, fill, list, with_room};
use crate::making::phases::{any_phase, wrong_phase};
use crate::random::Random;

/// A case of committing. Most sessions hold something that it writes over.
pub fn commit(random: &mut Random) -> Box<dyn Case> {
    let inputs = Inputs::of_call(random, Call::ProverCommit);
    let instance = &inputs.instance;
    let mut session = any_held(random, instance);
    session.phase = NEW;
    let mut nonce = instance.slots(random);
    for fault in &inputs.faults {
        match fault {
            16 => spoil_slots(random, instance, &mut nonce),
            21 => session.phase = wrong_phase(random, NEW),
            _ => {}
        }
    }
    fill_unread(random, &mut nonce, instance.columns());
    SessionCase::one(inputs.bytes(random), session, Step::Commit { nonce })
}

/// A case of responding. Most sessions remember something.
pub fn respond(random: &mut Random) -> Box<dyn Case> {
    let mut inputs = Inputs::known(random, Call::ProverRespond);
    let mut challenge = inputs.instance.challenge(random);
    let mut witness = inputs.instance.witness.unwrap_or_default();
    if random.once_in(4) {
        inputs.instance.shift(random, &mut witness);
    }
    let mut session = committed(random, &inputs.instance);
    let instance = &mut inputs.instance;
    for fault in &inputs.faults {
        match fault {
            15 => challenge = wrong_challenge(random, instance),
            16 => spoil_slots(random, instance, &mut witness),
            17 if random.once_in(2) => change_slot(random, instance, &mut witness),
            17 => {
                let mut statement = instance.sheet.statement;
                change_rows(random, instance, &mut statement);
                instance.sheet.statement = statement;
            }
            21 => spoil_session(random, instance, &mut session),
            32 => list(random, &mut session.memory, &session.commitment),
            33 => fill(random, instance, &mut session.memory, &session.commitment),
            _ => {}
        }
    }
    fill_unread(random, &mut witness, inputs.instance.columns());
    let step = Step::Respond { challenge, witness };
    SessionCase::one(inputs.bytes(random), session, step)
}

/// A case of dropping, which takes no sheet.
pub fn give_up(random: &mut Random) -> Box<dyn Case> {
    let inputs = Inputs::of_call(random, Call::ProverDrop);
    let mut session = any_held(random, &inputs.instance);
    session.phase = any_phase(random);
    SessionCase::one(Vec::new(), session, Step::Drop)
}

/// A session that holds a nonce with its commitment and can answer.
fn committed(random: &mut Random, instance: &Instance) -> ProverSession {
    let mut nonce = instance.slots(random);
    let commitment = instance.sheet.image(&nonce);
    fill_unread(random, &mut nonce, instance.columns());
    ProverSession {
        phase: COMMITTED,
        nonce,
        commitment,
        memory: with_room(random, instance, &commitment),
    }
}

/// A session with any held values and any memory.
pub fn any_held(random: &mut Random, instance: &Instance) -> ProverSession {
    let mut session = match random.below(4) {
        0 => return ProverSession::default(),
        1 => committed(random, instance),
        _ => ProverSession {
            phase: COMMITTED,
            nonce: random.words(),
            commitment: random.words(),
            ..ProverSession::default()
        },
    };
    session.memory = any(random, instance, &session.commitment);
    session
}

/// Makes a session one that does not allow a response on this sheet.
fn spoil_session(random: &mut Random, instance: &Instance, session: &mut ProverSession) {
    if random.once_in(3) {
        session.phase = wrong_phase(random, COMMITTED);
        return;
    }
    let row = random.below(instance.rows());
    match random.below(7) {
        0 | 1 => {
            spoil_slots(random, instance, &mut session.nonce);
            session.commitment = instance.sheet.image(&session.nonce);
        }
        2 => spoil_slots(random, instance, &mut session.nonce),
        3 => change_slot(random, instance, &mut session.nonce),
        4 => change_rows(random, instance, &mut session.commitment),
        5 if instance.rows() < 8 => {
            let beyond = instance.rows() + random.below(8 - instance.rows());
            session.commitment[beyond] = random.word().max(1);
        }
        6 => *session = any_held(random, instance),
        _ => {
            let value = &mut session.commitment[row];
            *value = value.wrapping_add(instance.group.modulus);
        }
    }
}
