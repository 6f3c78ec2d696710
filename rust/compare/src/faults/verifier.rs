//! Faults of the calls on Vic's session.

use crate::faults::Fault;
use crate::faults::rounds::{ACCEPTED, bad_beyond, compared, refused, rejected};
use crate::faults::rows::misnamed;
use crate::library::Library::Judge;
use crate::library::phases::verifier::{ASKED, HOLDING, JUDGED, WAITING};
use crate::library::{Places, VerifierAnswer, VerifierJudgement, VerifierSession};

pub fn verifier_new(fault: Fault) -> VerifierSession {
    let mut right = Judge.verifier_new();
    match fault {
        Fault::VerifierNewHolding => right.phase = HOLDING,
        Fault::VerifierNewOnes => {
            right.commitment = [1; 8];
            right.challenge = 1;
        }
        _ => {}
    }
    right
}

/// The session as a call with a fault takes it.
fn taken(fault: Fault, session: VerifierSession) -> VerifierSession {
    let cut = VerifierSession { phase: session.phase & 0xff, ..session };
    match fault {
        Fault::VerifierPhaseCut => cut,
        _ => session,
    }
}

/// The session as a call with a fault hands it back, where this one was given,
/// the call was refused or not, and this one would be handed back.
fn handed(
    fault: Fault,
    given: VerifierSession,
    refusal: u32,
    back: VerifierSession,
) -> VerifierSession {
    match (fault, refusal) {
        (Fault::VerifierStill, 0) => given,
        (_, 0) => back,
        (Fault::VerifierPhaseCut, _) => given,
        (Fault::VerifierPhaseMended, _) => {
            VerifierSession { phase: given.phase.min(JUDGED), ..given }
        }
        _ => back,
    }
}

/// Refuses with 21, which hands the session back.
fn unfit(session: VerifierSession) -> VerifierAnswer {
    VerifierAnswer { refusal: 21, session }
}

pub fn verifier_commitment(
    fault: Fault,
    sheet: &[u8],
    session: VerifierSession,
    commitment: &Places,
) -> VerifierAnswer {
    let mut answer = held(fault, sheet, taken(fault, session), commitment);
    answer.session = handed(fault, session, answer.refusal, answer.session);
    answer
}

fn held(
    fault: Fault,
    sheet: &[u8],
    session: VerifierSession,
    commitment: &Places,
) -> VerifierAnswer {
    let mut right = Judge.verifier_commitment(sheet, session, commitment);
    let header = Judge.load(sheet).header;
    match (fault, right.refusal) {
        (Fault::HoldStoresEight, 0) => right.session.commitment = *commitment,
        (Fault::HoldClearsChallenge, 0) => right.session.challenge = 0,
        (Fault::HoldStateFirst, 14) if session.phase != WAITING => return unfit(session),
        (Fault::HoldTestsHeld, 0) if session.challenge >= header.challenges => {
            return unfit(session);
        }
        (Fault::HoldCongruent, 14) => {
            let reduced = commitment.map(|t| t % header.modulus);
            right = Judge.verifier_commitment(sheet, session, &reduced);
        }
        _ => {}
    }
    right
}

pub fn verifier_challenge(
    fault: Fault,
    sheet: &[u8],
    session: VerifierSession,
    challenge: u32,
) -> VerifierAnswer {
    let mut answer = asked(fault, sheet, taken(fault, session), challenge);
    answer.session = handed(fault, session, answer.refusal, answer.session);
    answer
}

fn asked(fault: Fault, sheet: &[u8], session: VerifierSession, challenge: u32) -> VerifierAnswer {
    let mut right = Judge.verifier_challenge(sheet, session, challenge);
    let header = Judge.load(sheet).header;
    match (fault, right.refusal) {
        (Fault::AskClearsBeyond, 0) => right.session.commitment[header.rows as usize..].fill(0),
        (Fault::AskReadsEight, 0)
            if bad_beyond(&session.commitment, header.rows, header.modulus) =>
        {
            return unfit(session);
        }
        (Fault::AskTestsChallenge, 0) if session.challenge >= header.challenges => {
            return unfit(session);
        }
        (Fault::AskKeepsChallenge, 0) => right.session.challenge = session.challenge,
        (Fault::AskStateFirst, 15) if session.phase != HOLDING => return unfit(session),
        (Fault::AskHeldUntested, 21) => {
            return asked_with(sheet, session, [1; 8], challenge);
        }
        (Fault::AskHeldCongruent, 21) => {
            let reduced = session.commitment.map(|t| t % header.modulus);
            return asked_with(sheet, session, reduced, challenge);
        }
        _ => {}
    }
    right
}

/// What is answered where this commitment is tested in place of the held one.
fn asked_with(
    sheet: &[u8],
    session: VerifierSession,
    tested: Places,
    challenge: u32,
) -> VerifierAnswer {
    let other = VerifierSession { commitment: tested, ..session };
    let mut answer = Judge.verifier_challenge(sheet, other, challenge);
    answer.session.commitment = session.commitment;
    answer
}

pub fn verifier_response(
    fault: Fault,
    sheet: &[u8],
    session: VerifierSession,
    response: &Places,
) -> VerifierJudgement {
    let mut answer = judged(fault, sheet, taken(fault, session), response);
    answer.session = handed(fault, session, answer.verdict.refusal, answer.session);
    answer
}

fn judged(
    fault: Fault,
    sheet: &[u8],
    session: VerifierSession,
    response: &Places,
) -> VerifierJudgement {
    let right = Judge.verifier_response(sheet, session, response);
    match right.verdict.refusal {
        0 => answered(fault, sheet, session, right),
        2..=11 => right,
        _ => answered_anyway(fault, sheet, session, response, right),
    }
}

/// The verdict where nothing is refused.
fn answered(
    fault: Fault,
    sheet: &[u8],
    session: VerifierSession,
    mut right: VerifierJudgement,
) -> VerifierJudgement {
    let header = Judge.load(sheet).header;
    match fault {
        Fault::AnswerRowZero => right.verdict = compared(right.verdict, 1),
        Fault::AnswerEndRow => {
            let rows = misnamed(fault, right.verdict.rows, header.rows);
            right.verdict = compared(right.verdict, rows);
        }
        Fault::AnswerRejectsAll => right.verdict = rejected(right.verdict.rows.max(1)),
        Fault::AnswerFirstRow | Fault::AnswerAgreeing | Fault::AnswerRowsBeyond
            if right.verdict != ACCEPTED =>
        {
            right.verdict.rows = misnamed(fault, right.verdict.rows, header.rows);
        }
        Fault::AnswerRejectedStays if right.verdict != ACCEPTED => right.session = session,
        Fault::AnswerClears => {
            right.session.commitment = [0; 8];
            right.session.challenge = 0;
        }
        Fault::AnswerClearsBeyond => right.session.commitment[header.rows as usize..].fill(0),
        Fault::AnswerReadsEight if bad_beyond(&session.commitment, header.rows, header.modulus) => {
            right.verdict = refused(21);
            right.session = session;
        }
        _ => {}
    }
    right
}

/// The verdict where the response or the session is refused.
fn answered_anyway(
    fault: Fault,
    sheet: &[u8],
    session: VerifierSession,
    response: &Places,
    mut right: VerifierJudgement,
) -> VerifierJudgement {
    let header = Judge.load(sheet).header;
    let mut taken = session;
    match (fault, right.verdict.refusal) {
        (Fault::AnswerStateFirst, 16) if session.phase != ASKED => {
            right.verdict = refused(21);
            return right;
        }
        (Fault::AnswerHeldChallenge, 21) => {
            taken.challenge = session.challenge.min(header.challenges - 1);
        }
        (Fault::AnswerHeldUntested, 21) => taken.commitment = [1; 8],
        (Fault::AnswerFromHolding, 21) if session.phase == HOLDING => taken.phase = ASKED,
        _ => return right,
    }
    let answer = Judge.verifier_response(sheet, taken, response);
    if answer.verdict.refusal != 0 {
        return right;
    }
    VerifierJudgement {
        verdict: answer.verdict,
        session: VerifierSession { phase: JUDGED, ..session },
    }
}
