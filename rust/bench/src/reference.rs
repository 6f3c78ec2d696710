//! The calls in Rust, with the library's tests in the same order, over an
//! arithmetic of which there are two versions. A refusal is the number of 01.
//! Rounds and places are the library's, since all are given the same inputs.
//!
//! No call is inlined into its caller, since no call of the library can be.

mod arithmetic;
mod game;
mod ledger;
mod linear;
mod marker;
mod rounds;
mod session;
mod sheet;
mod text;
mod watch;

pub use arithmetic::{Arithmetic, Idiomatic, Tuned, pow_mod};
pub use game::{game_by_map, game_in_turn};
pub use ledger::{Checked, ledger_check, ledger_write};
pub use linear::{Forms, linear};
pub use marker::mark;
pub use rounds::{Verdict, extract, judge, simulate};
pub use session::{Phase, Prover};
pub use sheet::{Header, Kind, Sheet, load};
pub use watch::Watch;
