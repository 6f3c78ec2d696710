//! Peggy's session of the OR proof.

use super::{left, load_both};
use crate::bytes::first;
use crate::protocol::{are_slots, simulated, test_challenge, test_slots};
use crate::sessions::answers;
use crate::sheet::Sheet;

/// The phase of a session in which nothing was done yet.
pub const NEW: u32 = 0;
/// The phase of a session that holds two commitments and what made them.
pub const COMMITTED: u32 = 1;
/// The phase of a session whose one challenge was answered.
pub const ANSWERED: u32 = 2;
/// The phase of a session that was given up.
pub const DROPPED: u32 = 3;

/// Peggy's session of the OR proof.
#[derive(Clone, Debug, PartialEq, Eq)]
pub struct OrProver {
    /// How far the session has come. Any other number allows no call.
    pub phase: u32,
    /// The held nonce, of the side whose witness Peggy knows.
    pub nonce: [u32; 8],
    /// The held response of the side that she simulates.
    pub simulated_response: [u32; 8],
    /// The held commitments of side 0 and of side 1.
    pub commitments: [[u32; 8]; 2],
    /// The held challenge of the side that she simulates.
    pub simulated_challenge: u32,
    /// The side whose witness she knows.
    pub side: u32,
}

/// What Peggy answers to a challenge.
#[derive(Clone, Copy, Debug, PartialEq, Eq)]
pub struct OrAnswer {
    /// The challenge c0 of side 0.
    pub first_challenge: u32,
    /// The responses of side 0 and of side 1, with 0 beyond the columns in use.
    pub responses: [[u32; 8]; 2],
}

impl OrProver {
    /// Answers a new session, which holds zeros. Refuses nothing.
    pub fn new() -> OrProver {
        OrProver {
            phase: NEW,
            nonce: [0; 8],
            simulated_response: [0; 8],
            commitments: [[0; 8]; 2],
            simulated_challenge: 0,
            side: 0,
        }
    }

    /// The session in a last phase. It keeps the commitments in all eight
    /// places and nothing else.
    fn ended(&self, phase: u32) -> OrProver {
        OrProver { phase, commitments: self.commitments, ..OrProver::new() }
    }

    /// The commitments that the held values make: the nonce's image on Peggy's
    /// side and the simulated commitment on the other.
    fn made(&self, sheets: &[Sheet; 2]) -> [[u32; 8]; 2] {
        let (own, other) = places(self.side);
        let mut made = [[0; 8]; 2];
        made[own] = sheets[own].image(&self.nonce);
        let simulated_challenge = self.simulated_challenge;
        made[other] = simulated(&sheets[other], simulated_challenge, &self.simulated_response);
        made
    }

    /// Whether the held values fit the sheets and make the held commitments.
    fn fits(&self, sheets: &[Sheet; 2]) -> bool {
        // Decision: the commitments are compared in all eight places. Nonce
        // and response places beyond n are not read.
        let (own, other) = places(self.side);
        self.side <= 1
            && are_slots(&sheets[own], &self.nonce)
            && are_slots(&sheets[other], &self.simulated_response)
            && self.simulated_challenge < sheets[other].challenges
            && self.made(sheets) == self.commitments
    }
}

impl Default for OrProver {
    fn default() -> OrProver {
        OrProver::new()
    }
}

/// The places of Peggy's side and of the other side among two.
fn places(side: u32) -> (usize, usize) {
    // Decision: every side but 0 is 1.
    if side == 0 { (0, 1) } else { (1, 0) }
}

/// Takes Peggy's side, a nonce for it and a challenge and a response for the
/// other side, answers both commitments and leads from New to Committed. The
/// session then holds all of these, with 0 beyond the rows and columns in use.
///
/// Refuses with 2 to 11 for the sheets, the lowest number over both, and 26
/// when their counts K differ. Then with 15 for a simulated challenge of K or
/// more, 16 for a nonce or simulated response slot that is no domain slot of
/// its side's sheet and 21 when the session is not New.
pub fn commit(
    sheets: [&[u8]; 2],
    session: OrProver,
    side: u32,
    nonce: &[u32; 8],
    simulated_challenge: u32,
    simulated_response: &[u32; 8],
) -> (Result<[[u32; 8]; 2], u32>, OrProver) {
    let brought = OrProver {
        phase: COMMITTED,
        nonce: *nonce,
        simulated_response: *simulated_response,
        simulated_challenge,
        side,
        ..OrProver::new()
    };
    match committed(sheets, session.phase, &brought) {
        Ok(next) => (Ok(next.commitments), next),
        Err(number) => (Err(number), session),
    }
}

/// The session after committing to what is brought.
fn committed(sheets: [&[u8]; 2], phase: u32, brought: &OrProver) -> Result<OrProver, u32> {
    let sheets = load_both(sheets)?;
    let (own, other) = places(brought.side);
    test_challenge(&sheets[other], brought.simulated_challenge)?;
    test_slots(&sheets[own], &brought.nonce)?;
    test_slots(&sheets[other], &brought.simulated_response)?;
    if phase != NEW {
        return Err(21);
    }
    Ok(OrProver {
        nonce: first(&brought.nonce, sheets[own].n()),
        simulated_response: first(&brought.simulated_response, sheets[other].n()),
        commitments: brought.made(&sheets),
        side: own as u32,
        ..brought.clone()
    })
}

/// Takes the challenge c and a witness of Peggy's side, answers c0 and both
/// responses and leads from Committed to Answered. The held side, nonce and
/// simulated values become zeros and the commitments stay.
///
/// Refuses with 2 to 11 and 26 for the sheets, 15 for a c of K or more, 16 for
/// a witness slot that is no domain slot of the held side's sheet and 17 when
/// the witness's image is not that sheet's statement. Refuses with 21 when the
/// session is not Committed, when the held side is neither 0 nor 1, when a
/// held nonce or response slot is no domain slot of its side's sheet, when the
/// held challenge is K or more or when these do not make both held commitments
/// in all eight places.
pub fn respond(
    sheets: [&[u8]; 2],
    session: OrProver,
    challenge: u32,
    witness: &[u32; 8],
) -> (Result<OrAnswer, u32>, OrProver) {
    match answered(sheets, &session, challenge, witness) {
        Ok(answer) => (Ok(answer), session.ended(ANSWERED)),
        Err(number) => (Err(number), session),
    }
}

fn answered(
    sheets: [&[u8]; 2],
    session: &OrProver,
    challenge: u32,
    witness: &[u32; 8],
) -> Result<OrAnswer, u32> {
    let sheets = load_both(sheets)?;
    // Decision: in every phase the witness is tested by the held side's sheet.
    // A held side beyond 1 has the second sheet, and is refused by 21 only.
    let (own, other) = places(session.side);
    test_challenge(&sheets[own], challenge)?;
    test_slots(&sheets[own], witness)?;
    if sheets[own].image(witness) != sheets[own].statement {
        return Err(17);
    }
    if session.phase != COMMITTED || !session.fits(&sheets) {
        return Err(21);
    }
    let mut challenges = [session.simulated_challenge; 2];
    challenges[own] = left(&sheets, challenge, session.simulated_challenge);
    let mut responses = [[0; 8]; 2];
    responses[own] = answers(&sheets[own], &session.nonce, challenges[own], witness);
    responses[other] = first(&session.simulated_response, sheets[other].n());
    Ok(OrAnswer { first_challenge: challenges[0], responses })
}

/// Gives the session up, from New or Committed. The held side, nonce and
/// simulated values become zeros and the commitments stay.
///
/// Refuses with 21 in any other phase. It takes no sheet and tests no held
/// value.
pub fn drop_session(session: OrProver) -> (Result<(), u32>, OrProver) {
    match session.phase {
        NEW | COMMITTED => (Ok(()), session.ended(DROPPED)),
        _ => (Err(21), session),
    }
}
