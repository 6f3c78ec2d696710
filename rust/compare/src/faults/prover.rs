//! Faults of the calls on Peggy's session.

use crate::arithmetic::multiply;
use crate::faults::Fault;
use crate::faults::rounds::{bad_beyond, slot_bound};
use crate::faults::states::{self, Asked};
use crate::library::Library::Judge;
use crate::library::phases::prover::{ANSWERED, COMMITTED, DROPPED, NEW};
use crate::library::{Header, Places, ProverAnswer, ProverSession};

/// A refusal with this number, which hands the session back.
pub fn refused(refusal: u32, session: ProverSession) -> ProverAnswer {
    ProverAnswer { refusal, session, values: [0; 8] }
}

pub fn prover_new(fault: Fault) -> ProverSession {
    let mut right = Judge.prover_new();
    match fault {
        Fault::ProverNewCommitted => right.phase = COMMITTED,
        Fault::ProverNewOnes => {
            right.nonce = [1; 8];
            right.commitment = [1; 8];
        }
        _ => {}
    }
    states::created(fault, right)
}

/// The call with a fault in how the phase is taken or handed back.
fn with_phase(
    fault: Fault,
    session: ProverSession,
    call: impl Fn(ProverSession) -> ProverAnswer,
) -> ProverAnswer {
    let mut taken = session;
    if fault == Fault::ProverPhaseCut {
        taken.phase &= 0xff;
    }
    let mut answer = call(taken);
    if answer.refusal != 0 {
        answer.session.phase = match fault {
            Fault::ProverPhaseCut => session.phase,
            Fault::ProverPhaseMended => session.phase.min(DROPPED),
            _ => answer.session.phase,
        };
    } else if fault == Fault::ProverStill {
        answer.session = session;
    }
    answer
}

pub fn prover_commit(
    fault: Fault,
    sheet: &[u8],
    session: ProverSession,
    nonce: &Places,
) -> ProverAnswer {
    with_phase(fault, session, |session| {
        let answer = committed(fault, sheet, session, nonce);
        states::committed(fault, &session, answer)
    })
}

fn committed(fault: Fault, sheet: &[u8], session: ProverSession, nonce: &Places) -> ProverAnswer {
    let mut right = Judge.prover_commit(sheet, session, nonce);
    let header = Judge.load(sheet).header;
    let (rows, bound) = (header.rows as usize, slot_bound(&header));
    match (fault, right.refusal) {
        (Fault::CommitStateFirst, 16) | (Fault::CommitSheetLast, 2..=11)
            if session.phase != NEW =>
        {
            refused(21, session)
        }
        (Fault::CommitOneNonce, 0) => Judge.prover_commit(sheet, session, &[1; 8]),
        (Fault::CommitTestsHeld, 0) if session.nonce != [0; 8] => refused(21, session),
        (Fault::CommitUnread, 0) if bad_beyond(nonce, header.columns, bound) => {
            refused(16, session)
        }
        (Fault::CommitStoresJunk, 0) => {
            right.session.nonce = *nonce;
            right
        }
        (Fault::CommitOnesBeyond, 0) => {
            right.values[rows..].fill(1);
            right.session.commitment = right.values;
            right
        }
        (Fault::CommitNotStored, 0) => {
            right.session.commitment = session.commitment;
            right
        }
        _ => right,
    }
}

pub fn prover_respond(
    fault: Fault,
    sheet: &[u8],
    session: ProverSession,
    challenge: u32,
    witness: &Places,
) -> ProverAnswer {
    with_phase(fault, session, |session| {
        let right = Judge.prover_respond(sheet, session, challenge, witness);
        let header = Judge.load(sheet).header;
        let answer = match right.refusal {
            0 => answered(fault, &header, session, challenge, witness, right),
            15..=17 => respond_early(fault, sheet, session, challenge, witness, right),
            21 => respond_unfit(fault, sheet, session, challenge, witness, right),
            _ => right,
        };
        let asked = Asked { sheet, session, challenge, witness };
        asked.answer(fault, answer)
    })
}

/// Responding where nothing is refused.
fn answered(
    fault: Fault,
    header: &Header,
    session: ProverSession,
    challenge: u32,
    witness: &Places,
    mut right: ProverAnswer,
) -> ProverAnswer {
    let columns = header.columns as usize;
    match fault {
        Fault::RespondModM if header.kind == 1 => {
            let m = header.modulus;
            let slots = session.nonce.iter().zip(witness).take(columns);
            for (value, (nonce, witness)) in right.values.iter_mut().zip(slots) {
                let sum = u64::from(*nonce) + u64::from(multiply(challenge, *witness, m));
                *value = (sum % u64::from(m)) as u32;
            }
        }
        Fault::RespondKeepsNonce => right.session.nonce = session.nonce,
        Fault::RespondClearsPart => {
            right.session.nonce[columns..].copy_from_slice(&session.nonce[columns..]);
        }
        Fault::RespondClearsCommitment => right.session.commitment = [0; 8],
        Fault::RespondReadsEight if bad_beyond(&session.nonce, header.columns, 1) => {
            return refused(21, session);
        }
        _ => {}
    }
    right
}

/// Responding where the challenge or the witness is refused.
fn respond_early(
    fault: Fault,
    sheet: &[u8],
    session: ProverSession,
    challenge: u32,
    witness: &Places,
    mut right: ProverAnswer,
) -> ProverAnswer {
    let (image, z) = (
        Judge.prover_commit(sheet, Judge.prover_new(), witness).values,
        Judge.load(sheet).statement,
    );
    match (fault, right.refusal) {
        (Fault::RespondStateFirst, _) if session.phase != COMMITTED => refused(21, session),
        (Fault::RespondRefusedMoves, _) if session.phase == COMMITTED => {
            right.session.phase = ANSWERED;
            right
        }
        (Fault::RespondAnyWitness, 17) => respond_to(sheet, &image, session, challenge, witness),
        (Fault::RespondWitnessRow, 17) if image[0] == z[0] => {
            respond_to(sheet, &image, session, challenge, witness)
        }
        _ => right,
    }
}

/// What is responded on the same sheet with another statement.
fn respond_to(
    sheet: &[u8],
    statement: &Places,
    session: ProverSession,
    challenge: u32,
    witness: &Places,
) -> ProverAnswer {
    let rows = Judge.load(sheet).header.rows as usize;
    let mut bytes = sheet[..sheet.len() - 4 * rows].to_vec();
    for value in &statement[..rows] {
        bytes.extend(value.to_be_bytes());
    }
    Judge.prover_respond(&bytes, session, challenge, witness)
}

/// Responding where the session is refused.
fn respond_unfit(
    fault: Fault,
    sheet: &[u8],
    session: ProverSession,
    challenge: u32,
    witness: &Places,
    mut right: ProverAnswer,
) -> ProverAnswer {
    let header = Judge.load(sheet).header;
    let mut taken = session;
    match (fault, header.kind) {
        (Fault::RespondReadsRows, _) => taken.commitment[header.rows as usize..].fill(0),
        (Fault::RespondHeldOrder, 1) | (Fault::RespondHeldModulus, 2) => {
            taken.nonce = session.nonce.map(|slot| slot % slot_bound(&header));
        }
        (Fault::RespondHeldUntested, _) => {
            let committed = Judge.prover_commit(sheet, Judge.prover_new(), &session.nonce);
            taken.commitment = committed.values;
        }
        (Fault::RespondTwice, _) if session.phase == ANSWERED => taken.phase = COMMITTED,
        (Fault::RespondRefusedValues, _) => {
            right.values = session.nonce;
            return right;
        }
        _ => return right,
    }
    let mut answer = Judge.prover_respond(sheet, taken, challenge, witness);
    if answer.refusal != 0 {
        return right;
    }
    answer.session.commitment = session.commitment;
    answer
}

pub fn prover_drop(fault: Fault, session: ProverSession) -> ProverAnswer {
    with_phase(fault, session, |session| states::dropped(fault, dropped(fault, session)))
}

fn dropped(fault: Fault, session: ProverSession) -> ProverAnswer {
    let mut right = Judge.prover_drop(session);
    match (fault, right.refusal) {
        (Fault::DropNewRefused, 0) if session.phase == NEW => return refused(21, session),
        (Fault::DropKeepsNonce, 0) => right.session.nonce = session.nonce,
        (Fault::DropNewKeeps, 0) if session.phase == NEW => right.session.nonce = session.nonce,
        (Fault::DropClearsPart, 0) => right.session.nonce[7] = session.nonce[7],
        (Fault::DropClearsCommitment, 0) => right.session.commitment = [0; 8],
        (Fault::DropAnswered, 21) if session.phase == ANSWERED => {
            return Judge.prover_drop(ProverSession { phase: COMMITTED, ..session });
        }
        _ => {}
    }
    right
}
