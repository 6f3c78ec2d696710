//! The sessions of Peggy, who proves, and of Vic, who judges.
//!
//! A call takes a session by value and hands it back beside the answer. A
//! refused call hands it back unchanged.

mod prover;
mod states;
mod verifier;

pub(crate) use prover::answers;
pub use prover::{MOST_ANSWERED, Prover, ProverPhase, commit, drop_session, respond};
pub use states::{NAMES, Saved, return_to, save};
pub use verifier::{Verifier, VerifierPhase, take_challenge, take_commitment, take_response};
