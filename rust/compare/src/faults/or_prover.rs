//! Faults of Peggy's new session of the OR proof, of committing and of dropping.

use crate::faults::Fault;
use crate::faults::rounds::{bad_beyond, slot_bound};
use crate::library::Library::Judge;
use crate::library::phases::prover::{ANSWERED, COMMITTED, DROPPED, NEW};
use crate::library::{OrAnswer, OrSession, Places};

/// A refusal with this number, which hands the session back.
pub fn refused(refusal: u32, session: OrSession) -> OrAnswer {
    OrAnswer { refusal, session, ..OrAnswer::default() }
}

/// Of two things the one of the known side and the one of the other.
pub fn own_and_other<T: Copy>(side: u32, [first, second]: [T; 2]) -> (T, T) {
    match side {
        0 => (first, second),
        _ => (second, first),
    }
}

pub fn or_prover_new(fault: Fault) -> OrSession {
    let mut right = Judge.or_prover_new();
    match fault {
        Fault::OrNewCommitted => right.phase = COMMITTED,
        Fault::OrNewOnes => {
            right.nonce = [1; 8];
            right.response = [1; 8];
            right.side = 1;
        }
        _ => {}
    }
    right
}

/// The call with a fault in how the phase is taken or handed back.
pub fn with_phase(
    fault: Fault,
    session: OrSession,
    call: impl Fn(OrSession) -> OrAnswer,
) -> OrAnswer {
    let mut taken = session;
    if fault == Fault::OrPhaseCut {
        taken.phase &= 0xff;
    }
    let mut answer = call(taken);
    if answer.refusal != 0 {
        answer.session.phase = match fault {
            Fault::OrPhaseCut => session.phase,
            Fault::OrPhaseMended => session.phase.min(DROPPED),
            _ => answer.session.phase,
        };
    } else if fault == Fault::OrStill {
        answer.session = session;
    }
    answer
}

/// What the call that commits is brought.
#[derive(Clone, Copy)]
struct Brought<'a> {
    side: u32,
    nonce: &'a Places,
    challenge: u32,
    response: &'a Places,
}

impl Brought<'_> {
    fn commit(&self, [first, second]: [&[u8]; 2], session: OrSession) -> OrAnswer {
        let Brought { side, nonce, challenge, response } = *self;
        Judge.or_prover_commit(first, second, session, side, nonce, challenge, response)
    }
}

#[allow(clippy::too_many_arguments, reason = "the call takes these")]
pub fn or_prover_commit(
    fault: Fault,
    first: &[u8],
    second: &[u8],
    session: OrSession,
    side: u32,
    nonce: &Places,
    challenge: u32,
    response: &Places,
) -> OrAnswer {
    let brought = Brought { side, nonce, challenge, response };
    with_phase(fault, session, |session| {
        let right = brought.commit([first, second], session);
        match right.refusal {
            0 => committed(fault, [first, second], session, brought, right),
            15 | 16 => commit_early(fault, [first, second], session, brought, right),
            _ => right,
        }
    })
}

/// Committing where nothing is refused.
fn committed(
    fault: Fault,
    sheets: [&[u8]; 2],
    session: OrSession,
    brought: Brought,
    mut right: OrAnswer,
) -> OrAnswer {
    let (_, other) = own_and_other(brought.side, sheets.map(|sheet| Judge.load(sheet).header));
    match fault {
        Fault::OrCommitKnown => {
            let side = u32::from(brought.side == 0);
            let exchanged = Brought { side, ..brought }.commit(sheets, session);
            if exchanged.refusal == 0 {
                (right.values0, right.values1) = (exchanged.values0, exchanged.values1);
                right.session.commitment0 = exchanged.values0;
                right.session.commitment1 = exchanged.values1;
            }
        }
        Fault::OrCommitSideKept => right.session.side = brought.side,
        Fault::OrCommitSideCut => {
            let side = brought.side & 0xff;
            return Brought { side, ..brought }.commit(sheets, session);
        }
        Fault::OrCommitStoresJunk => {
            right.session.nonce = *brought.nonce;
            right.session.response = *brought.response;
        }
        Fault::OrCommitNotStored => {
            right.session.commitment0 = session.commitment0;
            right.session.commitment1 = session.commitment1;
        }
        Fault::OrCommitTells => right.challenge0 = brought.challenge,
        Fault::OrCommitUnread
            if bad_beyond(brought.response, other.columns, slot_bound(&other)) =>
        {
            return refused(16, session);
        }
        _ => {}
    }
    right
}

/// Committing where the challenge, the nonce or the response is refused.
fn commit_early(
    fault: Fault,
    sheets: [&[u8]; 2],
    session: OrSession,
    brought: Brought,
    right: OrAnswer,
) -> OrAnswer {
    let (own, _) = own_and_other(brought.side, sheets);
    let own_slots = |slots| Judge.simulate(own, 0, slots).refusal == 0;
    match (fault, right.refusal) {
        (Fault::OrCommitStateFirst, _) if session.phase != NEW => refused(21, session),
        (Fault::OrCommitChallenge, 15) => {
            let challenge = brought.challenge % Judge.load(own).header.challenges;
            Brought { challenge, ..brought }.commit(sheets, session)
        }
        (Fault::OrCommitResponse, 16) => without_response(sheets, session, brought),
        (Fault::OrCommitOwnSheet, 16) if own_slots(brought.response) => {
            without_response(sheets, session, brought)
        }
        _ => right,
    }
}

/// What is answered where the response is not tested: ones stand for it, but for
/// the session.
fn without_response(sheets: [&[u8]; 2], session: OrSession, brought: Brought) -> OrAnswer {
    let untested = Brought { response: &[1; 8], ..brought };
    let mut answer = untested.commit(sheets, session);
    if answer.refusal == 0 {
        answer.session.response = *brought.response;
    }
    answer
}

pub fn or_prover_drop(fault: Fault, session: OrSession) -> OrAnswer {
    with_phase(fault, session, |session| dropped(fault, session))
}

fn dropped(fault: Fault, session: OrSession) -> OrAnswer {
    let mut right = Judge.or_prover_drop(session);
    match (fault, right.refusal) {
        (Fault::OrDropKeepsNonce, 0) => right.session.nonce = session.nonce,
        (Fault::OrDropKeepsResponse, 0) => right.session.response = session.response,
        (Fault::OrDropKeepsChallenge, 0) => right.session.challenge = session.challenge,
        (Fault::OrDropKeepsSide, 0) => right.session.side = session.side,
        (Fault::OrDropClears, 0) => {
            right.session.commitment0 = [0; 8];
            right.session.commitment1 = [0; 8];
        }
        (Fault::OrDropAnswered, 21) if session.phase == ANSWERED => {
            return Judge.or_prover_drop(OrSession { phase: COMMITTED, ..session });
        }
        _ => {}
    }
    right
}
