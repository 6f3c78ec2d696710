//! The judge's calls of the OR proof, behind those of the library.

use judge::or_proof::{self, OrProver, OrVerdict};

use super::values::mask;
use crate::library::{OrAnswer, OrExtracted, OrJudgement, OrRound, OrSession, Places};

/// A round for the judge.
fn round(round: &OrRound) -> or_proof::OrRound {
    or_proof::OrRound {
        commitments: [round.commitment0, round.commitment1],
        challenge: round.challenge,
        first_challenge: round.challenge0,
        responses: [round.response0, round.response1],
    }
}

/// A session for the judge.
fn prover(session: &OrSession) -> OrProver {
    OrProver {
        phase: session.phase,
        nonce: session.nonce,
        simulated_response: session.response,
        commitments: [session.commitment0, session.commitment1],
        simulated_challenge: session.challenge,
        side: session.side,
    }
}

/// A session from the judge.
fn session(prover: OrProver) -> OrSession {
    let [commitment0, commitment1] = prover.commitments;
    OrSession {
        nonce: prover.nonce,
        response: prover.simulated_response,
        commitment0,
        commitment1,
        challenge: prover.simulated_challenge,
        side: prover.side,
        phase: prover.phase,
    }
}

/// What a call on a session answers: two lists of values and c0, or a number.
fn answer(result: Result<([Places; 2], u32), u32>, next: OrProver) -> OrAnswer {
    let session = session(next);
    match result {
        Ok(([values0, values1], challenge0)) => {
            OrAnswer { session, values0, values1, challenge0, refusal: 0 }
        }
        Err(refusal) => OrAnswer { session, refusal, ..OrAnswer::default() },
    }
}

pub fn or_judge(first: &[u8], second: &[u8], judged: &OrRound) -> OrJudgement {
    let (accepted, rows, refusal) = match or_proof::judge([first, second], &round(judged)) {
        OrVerdict::Accepted => (1, [0; 2], 0),
        OrVerdict::Rejected(rows) => (0, rows.each_ref().map(mask), 0),
        OrVerdict::Refused(number) => (0, [0; 2], number),
    };
    let [rows0, rows1] = rows;
    OrJudgement { accepted, rows0, rows1, refusal }
}

pub fn or_extract(first: &[u8], second: &[u8], a: &OrRound, b: &OrRound) -> OrExtracted {
    match or_proof::extract([first, second], &round(a), &round(b)) {
        Ok(found) => OrExtracted { values: found.witness, side: found.side, refusal: 0 },
        Err(refusal) => OrExtracted { refusal, ..OrExtracted::default() },
    }
}

pub fn or_prover_new() -> OrSession {
    session(OrProver::new())
}

pub fn or_prover_commit(
    first: &[u8],
    second: &[u8],
    given: OrSession,
    side: u32,
    nonce: &Places,
    challenge: u32,
    response: &Places,
) -> OrAnswer {
    let sheets = [first, second];
    let (result, next) = or_proof::commit(sheets, prover(&given), side, nonce, challenge, response);
    answer(result.map(|commitments| (commitments, 0)), next)
}

pub fn or_prover_respond(
    first: &[u8],
    second: &[u8],
    given: OrSession,
    challenge: u32,
    witness: &Places,
) -> OrAnswer {
    let (result, next) = or_proof::respond([first, second], prover(&given), challenge, witness);
    answer(result.map(|answer| (answer.responses, answer.first_challenge)), next)
}

pub fn or_prover_drop(given: OrSession) -> OrAnswer {
    let (result, next) = or_proof::drop_session(prover(&given));
    answer(result.map(|()| ([[0; 8]; 2], 0)), next)
}
