//! Back to a named state: saving Peggy's session and returning to it.
//!
//! "Demonstrators want to return document 01's Peggy to one of eight saved
//! states (0 to 7) and go on differently." The list of answered commitments is
//! no part of a saved state. So no commitment gets two answers, also after a
//! return.

use super::prover::{Prover, ProverPhase};

/// How many names there are: 0 to 7.
pub const NAMES: usize = 8;

/// A saved state: "the state, nonce and commitment" of a session.
#[derive(Clone, Copy, Debug, PartialEq, Eq)]
pub struct Saved {
    /// How far the session had come.
    pub phase: ProverPhase,
    /// The nonce that it held. It stays here when the session's own is zeroed.
    pub nonce: [u32; 8],
    /// The commitment that it held.
    pub commitment: [u32; 8],
}

/// The place of a name, or 34 when it is outside 0 to 7.
fn place(name: u64) -> Result<usize, u32> {
    if name < NAMES as u64 { Ok(name as usize) } else { Err(34) }
}

/// Saves the session's state, nonce and commitment, in all eight places, under
/// a name from 0 to 7. What was saved under it before is replaced. It changes
/// nothing else. It works in every state, takes no sheet and tests no held
/// value.
///
/// Refuses with 34 for a name outside 0 to 7.
pub fn save(session: Prover, name: u64) -> (Result<(), u32>, Prover) {
    let place = match place(name) {
        Ok(place) => place,
        Err(number) => return (Err(number), session),
    };
    let state =
        Saved { phase: session.phase, nonce: session.nonce, commitment: session.commitment };
    let mut next = session;
    next.saved[place] = Some(state);
    (Ok(()), next)
}

/// Brings back the state, nonce and commitment that were saved under a name, in
/// all eight places, "and changes nothing else": the name keeps its saved state,
/// so do the others, and the list of answered commitments stays. It works in
/// every state, takes no sheet and tests no held value.
///
/// Refuses with 34 for a name outside 0 to 7 and for one never saved.
pub fn return_to(session: Prover, name: u64) -> (Result<(), u32>, Prover) {
    let state = match place(name) {
        Ok(place) => session.saved[place],
        Err(number) => return (Err(number), session),
    };
    // Decision: a saved state need not fit any sheet. It is brought back as it
    // is, and 21 tests it when the session responds.
    match state {
        Some(state) => {
            let next = Prover {
                phase: state.phase,
                nonce: state.nonce,
                commitment: state.commitment,
                ..session
            };
            (Ok(()), next)
        }
        None => (Err(34), session),
    }
}
