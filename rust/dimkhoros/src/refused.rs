//! What a refused call on a session hands back.

use crate::Refusal;
use core::error::Error;
use core::fmt;

/// A refused call on a session: the session exactly as it was given, and why the call was refused.
///
/// `?` turns it into a [`Refusal`] where a function answers one. The session is then gone, and a prover's nonce with it.
///
/// ```
/// use dimkhoros::{Prover, Refusal, Refused};
///
/// let dropped = Prover::new().drop_session().unwrap();
/// let Refused { session, refusal } = dropped.drop_session().unwrap_err();
/// assert_eq!(refusal, Refusal::Session);
/// assert_eq!(session.phase(), dimkhoros::ProverPhase::Dropped);
/// ```
#[derive(Debug)]
pub struct Refused<S> {
    /// The session, which no refused call changes.
    pub session: S,
    /// Why the call was refused.
    pub refusal: Refusal,
}

impl<S> Refused<S> {
    /// The session where an answer of the library refuses nothing, else the session with what is refused.
    pub(crate) fn check(session: S, refusal: u32) -> Result<S, Refused<S>> {
        match Refusal::of_answer(refusal) {
            None => Ok(session),
            Some(refusal) => Err(Refused { session, refusal }),
        }
    }
}

impl<S> From<Refused<S>> for Refusal {
    fn from(refused: Refused<S>) -> Refusal {
        refused.refusal
    }
}

impl<S> fmt::Display for Refused<S> {
    fn fmt(&self, f: &mut fmt::Formatter<'_>) -> fmt::Result {
        self.refusal.fmt(f)
    }
}

impl<S: fmt::Debug> Error for Refused<S> {}
