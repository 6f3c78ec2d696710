//! Peggy's session.

use super::states::{NAMES, Saved};
use crate::arithmetic::{multiply, power, reduce};
use crate::bytes::first;
use crate::protocol::{are_slots, test_challenge, test_slots};
use crate::sheet::{Sheet, load};

/// How many answered commitments a session lists at most.
pub const MOST_ANSWERED: usize = 64;

/// How far Peggy's session has come.
#[derive(Clone, Copy, Debug, PartialEq, Eq)]
pub enum ProverPhase {
    /// Nothing was done yet.
    New,
    /// A nonce and its commitment are held.
    Committed,
    /// The one challenge was answered.
    Answered,
    /// The session was given up.
    Dropped,
}

/// Peggy's session. It may be made by hand, with any values.
///
/// Card 13: "The session record grows by those states and by a list of up to 64
/// answered commitments." Vic's session and that of the OR proof do not grow.
#[derive(Clone, Debug, PartialEq, Eq)]
pub struct Prover {
    /// How far the session has come.
    pub phase: ProverPhase,
    /// The held nonce, zeros when there is none.
    pub nonce: [u32; 8],
    /// The held commitment, zeros before there is one.
    pub commitment: [u32; 8],
    /// The states saved under the names 0 to 7, if they were saved.
    pub saved: [Option<Saved>; NAMES],
    /// The answered commitments, oldest first. Those at or beyond the count are
    /// not read.
    pub answered: [[u32; 8]; MOST_ANSWERED],
    /// How many answered commitments are listed.
    pub count: u64,
}

impl Prover {
    /// Answers a new session, which holds zeros, no saved state and an empty
    /// list. Refuses nothing.
    pub fn new() -> Prover {
        Prover {
            phase: ProverPhase::New,
            nonce: [0; 8],
            commitment: [0; 8],
            saved: [None; NAMES],
            answered: [[0; 8]; MOST_ANSWERED],
            count: 0,
        }
    }

    /// Whether the list holds the held commitment, "compared in all eight
    /// places".
    fn has_answered(&self) -> bool {
        // Decision: a list that counts more than 64 has 64 places all the same,
        // and all of them are read. The list names no sheet, so an equal
        // commitment that was answered on another sheet counts too.
        let used = self.count.min(MOST_ANSWERED as u64) as usize;
        self.answered[..used].contains(&self.commitment)
    }

    /// The session after it has answered. The list has room.
    fn after_answer(&self) -> Prover {
        // Decision: "sets the nonce to zeros" is about all eight places of the
        // held nonce. "Saved copies keep their nonce."
        let mut next = self.clone();
        next.phase = ProverPhase::Answered;
        next.nonce = [0; 8];
        // Decision: the list grows at its end, by the held commitment in all
        // eight places.
        next.answered[self.count as usize] = self.commitment;
        next.count = self.count + 1;
        next
    }
}

impl Default for Prover {
    fn default() -> Prover {
        Prover::new()
    }
}

/// Takes a nonce, answers its commitment and leads from New to Committed. The
/// session then holds both, with 0 beyond the columns and rows in use. The saved
/// states and the list stay.
///
/// Refuses with 2 to 11 for the sheet, 16 for a nonce slot that is no domain
/// slot and 21 when the session is not New. A commitment in the list may be
/// made again. Only responding refuses it.
pub fn commit(sheet: &[u8], session: Prover, nonce: &[u32; 8]) -> (Result<[u32; 8], u32>, Prover) {
    match committed(sheet, &session, nonce) {
        Ok(next) => (Ok(next.commitment), next),
        Err(number) => (Err(number), session),
    }
}

fn committed(sheet: &[u8], session: &Prover, nonce: &[u32; 8]) -> Result<Prover, u32> {
    let sheet = load(sheet)?;
    test_slots(&sheet, nonce)?;
    // Decision: 21 names held values for Committed only. In New they are not
    // tested, and committing writes over them.
    if session.phase != ProverPhase::New {
        return Err(21);
    }
    // Decision: nonce places beyond n "are not read", so they cannot be
    // stored. The session holds 0 there.
    Ok(Prover {
        phase: ProverPhase::Committed,
        nonce: first(nonce, sheet.n()),
        commitment: sheet.image(nonce),
        ..session.clone()
    })
}

/// Takes a challenge and a witness, answers the response and leads from
/// Committed to Answered. The held nonce becomes zeros, and the commitment
/// stays and is listed as answered. The saved states stay.
///
/// Refuses with 2 to 11 for the sheet, 15 for a challenge of K or more, 16 for
/// a witness slot that is no domain slot and 17 when the witness's image is not
/// the statement. Refuses with 21 when the session is not Committed, when a
/// held nonce slot is no domain slot, or when the held commitment is not the
/// held nonce's image in all eight places. Then with 32 when the held
/// commitment is in the list of answered ones and with 33 when that list has 64
/// or more.
pub fn respond(
    sheet: &[u8],
    session: Prover,
    challenge: u32,
    witness: &[u32; 8],
) -> (Result<[u32; 8], u32>, Prover) {
    match response(sheet, &session, challenge, witness) {
        Ok(response) => (Ok(response), session.after_answer()),
        Err(number) => (Err(number), session),
    }
}

fn response(
    sheet: &[u8],
    session: &Prover,
    challenge: u32,
    witness: &[u32; 8],
) -> Result<[u32; 8], u32> {
    let sheet = load(sheet)?;
    test_challenge(&sheet, challenge)?;
    test_slots(&sheet, witness)?;
    if sheet.image(witness) != sheet.statement {
        return Err(17);
    }
    // Decision: "the lowest number that applies" puts 15 to 17 before a state
    // that does not allow the call.
    if session.phase != ProverPhase::Committed || !fits(&sheet, session) {
        return Err(21);
    }
    if session.has_answered() {
        return Err(32);
    }
    if session.count >= MOST_ANSWERED as u64 {
        return Err(33);
    }
    Ok(answers(&sheet, &session.nonce, challenge, witness))
}

/// Whether the held nonce and commitment fit the sheet.
fn fits(sheet: &Sheet, session: &Prover) -> bool {
    // Decision: the commitment is compared in all eight places, but nonce
    // places beyond n are not read here either.
    are_slots(sheet, &session.nonce) && sheet.image(&session.nonce) == session.commitment
}

/// The response to a challenge, with 0 beyond the columns in use.
pub(crate) fn answers(
    sheet: &Sheet,
    nonce: &[u32; 8],
    challenge: u32,
    witness: &[u32; 8],
) -> [u32; 8] {
    let mut response = [0; 8];
    for (j, slot) in response.iter_mut().enumerate().take(sheet.n()) {
        *slot = answer(sheet, nonce[j], challenge, witness[j]);
    }
    response
}

/// One slot of the response: k + c · x mod q, or k · x^c mod m.
fn answer(sheet: &Sheet, nonce: u32, challenge: u32, witness: u32) -> u32 {
    if sheet.kind == 1 {
        let sum = i128::from(nonce) + i128::from(challenge) * i128::from(witness);
        reduce(sum, sheet.order)
    } else {
        let m = sheet.modulus;
        multiply(nonce, power(witness, u128::from(challenge), m), m)
    }
}

/// Gives the session up, from New or Committed. The held nonce becomes zeros,
/// and the commitment, the saved states and the list stay.
///
/// Refuses with 21 in any other state. It takes no sheet and tests no held
/// value.
pub fn drop_session(session: Prover) -> (Result<(), u32>, Prover) {
    match session.phase {
        // Decision: 01 names only the nonce here, so the commitment stays in all
        // eight places. All eight nonce places become 0. "Saved copies keep
        // their nonce."
        ProverPhase::New | ProverPhase::Committed => {
            let next = Prover { phase: ProverPhase::Dropped, nonce: [0; 8], ..session };
            (Ok(()), next)
        }
        ProverPhase::Answered | ProverPhase::Dropped => (Err(21), session),
    }
}
