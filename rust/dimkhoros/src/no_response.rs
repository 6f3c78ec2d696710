//! What a call that stores before it answers hands back where it answers nothing.

use crate::{Prover, Refused};
use core::error::Error;
use core::fmt;

/// Why [`Prover::respond_after`] or [`OrProver::respond_after`] handed out no response, with the session to go on with.
///
/// ```
/// use dimkhoros::{NoResponse, Prover, ProverPhase, Refusal, places};
/// # use dimkhoros::{Instance, Patterns, Plan};
/// # let plan = Plan { pattern: 1, modulus: 23, order: 11, challenges: 11, values: &[2], statement: &[13] };
/// # let instance = Instance::from_pattern(&Patterns::shipped(), &plan)?;
///
/// let (peggy, _) = Prover::new().commit(&instance, &places([5]))?;
/// let full = peggy.respond_after(&instance, 3, &places([7]), |_| Err("the disk is full")).unwrap_err();
/// assert_eq!(full.to_string(), "the session is not stored: the disk is full");
/// let NoResponse::NotStored { session, error } = full else { unreachable!() };
/// assert_eq!((session.phase(), error), (ProverPhase::Answered, "the disk is full"));
/// # Ok::<(), Refusal>(())
/// ```
///
/// [`OrProver::respond_after`]: crate::OrProver::respond_after
#[derive(Debug)]
pub enum NoResponse<E, S = Prover> {
    /// The call was refused and nothing was stored. The session is as it was given.
    Refused(Refused<S>),
    /// The session was not stored, and the response is gone.
    NotStored {
        /// The session as it is after the response: it answers no challenge if no call returns.
        session: S,
        /// Why it was not stored.
        error: E,
    },
}

impl<E, S> From<Refused<S>> for NoResponse<E, S> {
    fn from(refused: Refused<S>) -> NoResponse<E, S> {
        NoResponse::Refused(refused)
    }
}

impl<E: fmt::Display, S> fmt::Display for NoResponse<E, S> {
    fn fmt(&self, f: &mut fmt::Formatter<'_>) -> fmt::Result {
        match self {
            NoResponse::Refused(refused) => refused.fmt(f),
            NoResponse::NotStored { error, .. } => write!(f, "the session is not stored: {error}"),
        }
    }
}

impl<E: fmt::Debug + fmt::Display, S: fmt::Debug> Error for NoResponse<E, S> {}
