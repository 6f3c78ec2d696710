//! What a stored session of Peggy's is found to be when it is reopened.

use crate::ProverPhase;
use core::fmt;

/// What [`Prover::reopen`](crate::Prover::reopen) and [`OrProver::reopen`](crate::OrProver::reopen) found: a session in one of
/// Peggy's phases, or bytes that are none.
///
/// ```
/// use dimkhoros::{Found, Prover};
///
/// let (_, found) = Prover::reopen(&Prover::new().to_stored());
/// assert_eq!(found, Found::New);
/// let (_, found) = Prover::reopen(&[]);
/// assert_eq!(found.to_string(), "the bytes are not a stored session, or they are damaged");
/// ```
#[derive(Clone, Copy, Debug, PartialEq, Eq, Hash)]
#[repr(u32)]
pub enum Found {
    /// 0: nothing had happened.
    New = 0,
    /// 1: it held a nonce, which may have been used. It is dropped: the session that is handed back has to be stored.
    Committed = 1,
    /// 2: a challenge was answered.
    Answered = 2,
    /// 3: it was given up.
    Dropped = 3,
    /// 4: the bytes are not a stored session. What is handed back is a new one, which has to be stored.
    Damaged = 4,
}

impl Found {
    /// The number, 0 to 4, that stands for it in C.
    ///
    /// ```
    /// assert_eq!(dimkhoros::Found::Damaged.number(), 4);
    /// ```
    pub const fn number(self) -> u32 {
        self as u32
    }

    /// What a session in this phase is found to be.
    pub(crate) const fn of(phase: ProverPhase) -> Found {
        match phase {
            ProverPhase::New => Found::New,
            ProverPhase::Committed => Found::Committed,
            ProverPhase::Answered => Found::Answered,
            ProverPhase::Dropped => Found::Dropped,
        }
    }
}

impl fmt::Display for Found {
    fn fmt(&self, f: &mut fmt::Formatter<'_>) -> fmt::Result {
        match self {
            Found::New => f.write_str("the session is new"),
            Found::Committed => f.write_str("the session was committed, and is dropped"),
            Found::Answered => f.write_str("the session has answered"),
            Found::Dropped => f.write_str("the session was dropped"),
            Found::Damaged => crate::Damaged.fmt(f),
        }
    }
}
