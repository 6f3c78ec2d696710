//! A plain judge for proofs of a preimage under a group homomorphism.
//!
//! Every call takes any bytes and any numbers. It ends in a result or in one
//! refusal, a number from 1 to 37. The earliest that applies is given, in the
//! order 23, 24, then 1 to 9, then 27, 29, 30, 10, 11, 26, 37, 35, 36, 12, 25,
//! then 13 to 16, then 28, 31, then 17 to 21, then 32, 33, 34 and 22. A refused
//! call changes neither a lent buffer nor a session nor a watch.
//!
//! The cards put 28 and 31 both after 16, and both 26 and 37, 35, 36 after 11.
//! No call can give numbers of two cards there, so nothing hangs on which of
//! the two stands first.
//!
//! Each sheet is handed in as bytes and is tested on every call.

#![forbid(unsafe_code)]

mod arithmetic;
mod bytes;
mod game;
// A module of its own name: its `check` stands beside the round file's.
pub mod ledger;
// A module of its own name: its `make` stands beside 01's maker.
pub mod linear;
mod marker;
// A module of its own name: its calls stand beside 01's calls on one sheet.
pub mod or_proof;
mod pattern;
// A module of its own name: its `make` stands beside 01's maker.
pub mod pattern_file;
mod protocol;
mod reason;
mod round_file;
mod sessions;
mod sheet;
mod team;
// A module of its own name: its `open` is about a watch only.
pub mod watch;

pub use game::game;
pub use marker::marker;
pub use pattern::make;
pub use pattern_file::Written;
pub use protocol::{Round, Rows, Verdict, extract, judge, simulate};
pub use reason::reason;
pub use round_file::{append, check, convert, count, empty, part, read, same_commitment};
pub use sessions::{
    MOST_ANSWERED, NAMES, Prover, ProverPhase, Saved, Verifier, VerifierPhase, commit,
    drop_session, respond, return_to, save, take_challenge, take_commitment, take_response,
};
pub use sheet::{Sheet, encode, load};
pub use team::{join_responses, multiply_commitments};
