//! Faults of responding in Peggy's session of the OR proof.

use crate::arithmetic::{multiply, power};
use crate::faults::Fault;
use crate::faults::or_prover::{own_and_other, refused, with_phase};
use crate::faults::rounds::{bad_beyond, slot_bound};
use crate::library::Library::Judge;
use crate::library::phases::prover::{ANSWERED, COMMITTED};
use crate::library::{Header, OrAnswer, OrSession, Places};

pub fn or_prover_respond(
    fault: Fault,
    first: &[u8],
    second: &[u8],
    session: OrSession,
    challenge: u32,
    witness: &Places,
) -> OrAnswer {
    let asked = Asked { sheets: [first, second], challenge, witness };
    with_phase(fault, session, |session| {
        let right = asked.respond(session);
        match right.refusal {
            0 => answered(fault, asked, session, right),
            15..=17 => respond_early(fault, asked, session, right),
            21 => respond_unfit(fault, asked, session, right),
            _ => right,
        }
    })
}

/// What the call that responds is given beside the session.
#[derive(Clone, Copy)]
struct Asked<'a> {
    sheets: [&'a [u8]; 2],
    challenge: u32,
    witness: &'a Places,
}

impl Asked<'_> {
    fn respond(&self, session: OrSession) -> OrAnswer {
        let [first, second] = self.sheets;
        Judge.or_prover_respond(first, second, session, self.challenge, self.witness)
    }

    fn headers(&self) -> [Header; 2] {
        self.sheets.map(|sheet| Judge.load(sheet).header)
    }
}

/// Responding where nothing is refused.
fn answered(fault: Fault, asked: Asked, session: OrSession, mut right: OrAnswer) -> OrAnswer {
    let (own, _) = own_and_other(session.side, asked.headers());
    match fault {
        Fault::OrRespondKeepsNonce => right.session.nonce = session.nonce,
        Fault::OrRespondKeepsResponse => right.session.response = session.response,
        Fault::OrRespondKeepsChallenge => right.session.challenge = session.challenge,
        Fault::OrRespondKeepsSide => right.session.side = session.side,
        Fault::OrRespondClears => {
            right.session.commitment0 = [0; 8];
            right.session.commitment1 = [0; 8];
        }
        Fault::OrRespondSimulated => right.challenge0 = session.challenge,
        Fault::OrRespondWhole => put_own(&mut right, &own, &session, asked, asked.challenge),
        Fault::OrRespondWraps => {
            let wrapped = asked.challenge.wrapping_sub(session.challenge);
            put_own(&mut right, &own, &session, asked, wrapped);
        }
        Fault::OrRespondExchanged if session.side == 1 => {
            (right.values0, right.values1) = (right.values1, right.values0);
        }
        Fault::OrRespondReadsEight if bad_beyond(&session.nonce, own.columns, 1) => {
            return refused(21, session);
        }
        Fault::OrRespondFirstSheet => {
            let first = asked.sheets[0];
            let number = Judge.prover_respond(first, Judge.prover_new(), 0, asked.witness).refusal;
            if [16, 17].contains(&number) {
                return refused(number, session);
            }
        }
        _ => {}
    }
    right
}

/// Puts the response of the known side to this number as its challenge into an
/// answer.
fn put_own(answer: &mut OrAnswer, own: &Header, session: &OrSession, asked: Asked, challenge: u32) {
    let values = match session.side {
        0 => &mut answer.values0,
        _ => &mut answer.values1,
    };
    *values = own_response(own, session, challenge, asked.witness);
}

/// The response of the known side to any number as its challenge.
fn own_response(own: &Header, session: &OrSession, challenge: u32, witness: &Places) -> Places {
    let mut response = [0; 8];
    let slots = session.nonce.iter().zip(witness);
    for (slot, (nonce, witness)) in response.iter_mut().zip(slots).take(own.columns as usize) {
        *slot = if own.kind == 1 {
            let product = u128::from(challenge) * u128::from(*witness);
            ((u128::from(*nonce) + product) % u128::from(own.order)) as u32
        } else {
            multiply(*nonce, power(*witness, challenge, own.modulus), own.modulus)
        };
    }
    response
}

/// Responding where the challenge or the witness is refused.
fn respond_early(fault: Fault, asked: Asked, session: OrSession, mut right: OrAnswer) -> OrAnswer {
    match (fault, right.refusal) {
        (Fault::OrRespondStateFirst, _) if session.phase != COMMITTED => refused(21, session),
        (Fault::OrRespondMoves, _) if session.phase == COMMITTED => {
            right.session.phase = ANSWERED;
            right
        }
        (Fault::OrRespondAnyWitness, 17) => {
            let (own, other) = own_and_other(session.side, asked.sheets);
            let restated = restated(own, asked.witness);
            let sheets = match session.side {
                0 => [&restated[..], other],
                _ => [other, &restated],
            };
            Asked { sheets, ..asked }.respond(session)
        }
        _ => right,
    }
}

/// The sheet with the witness's image as its statement.
fn restated(sheet: &[u8], witness: &Places) -> Vec<u8> {
    let rows = Judge.load(sheet).header.rows as usize;
    let image = Judge.prover_commit(sheet, Judge.prover_new(), witness).values;
    let mut bytes = sheet[..sheet.len() - 4 * rows].to_vec();
    for value in &image[..rows] {
        bytes.extend(value.to_be_bytes());
    }
    bytes
}

/// Responding where the session is refused.
fn respond_unfit(fault: Fault, asked: Asked, session: OrSession, mut right: OrAnswer) -> OrAnswer {
    let [one, two] = asked.headers();
    let (own, other) = own_and_other(session.side, [one, two]);
    let mut taken = session;
    match fault {
        Fault::OrRespondSideBeyond if session.side > 1 => taken.side = 1,
        Fault::OrRespondHeldNonce => {
            taken.nonce = session.nonce.map(|slot| slot % slot_bound(&own));
        }
        Fault::OrRespondHeldResponse => {
            taken.response = session.response.map(|slot| slot % slot_bound(&other));
        }
        Fault::OrRespondHeldChallenge if other.kind == 1 => taken.challenge %= other.order,
        Fault::OrRespondReadsRows => {
            taken.commitment0[one.rows as usize..].fill(0);
            taken.commitment1[two.rows as usize..].fill(0);
        }
        Fault::OrRespondOwnOnly | Fault::OrRespondOtherOnly => {
            let made = made(asked.sheets, &session);
            let own_only = fault == Fault::OrRespondOwnOnly;
            if own_only == (session.side == 0) {
                taken.commitment1 = made.values1;
            } else {
                taken.commitment0 = made.values0;
            }
        }
        Fault::OrRespondTwice if session.phase == ANSWERED => taken.phase = COMMITTED,
        Fault::OrRespondRefusedValues => {
            right.values0 = session.response;
            return right;
        }
        _ => return right,
    }
    let mut answer = asked.respond(taken);
    if answer.refusal != 0 {
        return right;
    }
    answer.session.commitment0 = session.commitment0;
    answer.session.commitment1 = session.commitment1;
    answer
}

/// What committing answers to the values that a session holds.
fn made([first, second]: [&[u8]; 2], session: &OrSession) -> OrAnswer {
    let (side, challenge) = (session.side, session.challenge);
    let new = Judge.or_prover_new();
    Judge.or_prover_commit(first, second, new, side, &session.nonce, challenge, &session.response)
}
