//! Vic's session.

use crate::bytes::first;
use crate::protocol::{
    Verdict, are_elements, test_challenge, test_commitment, test_slots, verdict,
};
use crate::sheet::load;

/// How far Vic's session has come.
#[derive(Clone, Copy, Debug, PartialEq, Eq)]
pub enum VerifierPhase {
    /// No commitment was heard yet.
    Waiting,
    /// A commitment is held.
    Holding,
    /// A commitment and a challenge are held.
    Asked,
    /// The verdict was given.
    Judged,
}

/// Vic's session.
#[derive(Clone, Debug, PartialEq, Eq)]
pub struct Verifier {
    /// How far the session has come.
    pub phase: VerifierPhase,
    /// The held commitment, zeros before there is one.
    pub commitment: [u32; 8],
    /// The held challenge, 0 before there is one.
    pub challenge: u32,
}

impl Verifier {
    /// Answers a new session, which holds zeros. Refuses nothing.
    pub fn new() -> Verifier {
        Verifier { phase: VerifierPhase::Waiting, commitment: [0; 8], challenge: 0 }
    }
}

impl Default for Verifier {
    fn default() -> Verifier {
        Verifier::new()
    }
}

/// Takes the commitment and leads from Waiting to Holding. The session then
/// holds it, with 0 beyond the rows in use.
///
/// Refuses with 2 to 11 for the sheet, 14 for a commitment value that is no
/// group element and 21 when the session is not Waiting.
pub fn take_commitment(
    sheet: &[u8],
    session: Verifier,
    commitment: &[u32; 8],
) -> (Result<(), u32>, Verifier) {
    match holding(sheet, &session, commitment) {
        Ok(next) => (Ok(()), next),
        Err(number) => (Err(number), session),
    }
}

fn holding(sheet: &[u8], session: &Verifier, commitment: &[u32; 8]) -> Result<Verifier, u32> {
    let sheet = load(sheet)?;
    test_commitment(&sheet, commitment)?;
    if session.phase != VerifierPhase::Waiting {
        return Err(21);
    }
    // Decision: places beyond s "are not read", so they cannot be stored. The
    // session holds 0 there. The held challenge is left alone.
    Ok(Verifier {
        phase: VerifierPhase::Holding,
        commitment: first(commitment, sheet.s()),
        challenge: session.challenge,
    })
}

/// Takes the challenge and leads from Holding to Asked. The session then holds
/// it beside the commitment.
///
/// Refuses with 2 to 11 for the sheet, 15 for a challenge of K or more and 21
/// when the session is not Holding or a held commitment value is no group
/// element of this sheet.
pub fn take_challenge(
    sheet: &[u8],
    session: Verifier,
    challenge: u32,
) -> (Result<(), u32>, Verifier) {
    match asked(sheet, &session, challenge) {
        Ok(next) => (Ok(()), next),
        Err(number) => (Err(number), session),
    }
}

fn asked(sheet: &[u8], session: &Verifier, challenge: u32) -> Result<Verifier, u32> {
    let sheet = load(sheet)?;
    test_challenge(&sheet, challenge)?;
    // Decision: a held commitment's places beyond s are not read and stay as
    // they are. 01 has them read for Peggy only.
    if session.phase != VerifierPhase::Holding || !are_elements(&sheet, &session.commitment) {
        return Err(21);
    }
    Ok(Verifier { phase: VerifierPhase::Asked, commitment: session.commitment, challenge })
}

/// Takes the response, answers the verdict on the round and leads from Asked
/// to Judged, for an accepted and for a rejected round. No response is held.
///
/// Refuses with 2 to 11 for the sheet and 16 for a response slot that is no
/// domain slot. Refuses with 21 when the session is not Asked, when a held
/// commitment value is no group element of this sheet or when the held
/// challenge is K or more.
pub fn take_response(sheet: &[u8], session: Verifier, response: &[u32; 8]) -> (Verdict, Verifier) {
    match judged(sheet, &session, response) {
        // Decision: the call "answers the verdict", whichever it is. A rejected
        // round leads to Judged too. Both held values stay.
        Ok(verdict) => {
            let next = Verifier { phase: VerifierPhase::Judged, ..session };
            (verdict, next)
        }
        Err(number) => (Verdict::Refused(number), session),
    }
}

fn judged(sheet: &[u8], session: &Verifier, response: &[u32; 8]) -> Result<Verdict, u32> {
    let sheet = load(sheet)?;
    test_slots(&sheet, response)?;
    if session.phase != VerifierPhase::Asked
        || !are_elements(&sheet, &session.commitment)
        || session.challenge >= sheet.challenges
    {
        return Err(21);
    }
    Ok(verdict(&sheet, &session.commitment, session.challenge, response))
}
