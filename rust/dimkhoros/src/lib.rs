#![doc = include_str!("../README.md")]
#![no_std]
#![forbid(unsafe_code)]

mod entries;
mod forms;
mod found;
mod game;
mod instance;
mod ledger;
mod marker;
mod no_response;
mod or_prover;
mod pair;
mod pattern;
mod patterns;
mod places;
mod protocol;
mod prover;
mod reason;
mod refusal;
mod refused;
mod round_file;
mod rows;
mod stored;
mod stored_prover;
mod team;
mod verdict;
mod verifier;
mod watch;

/// The pieces in Rust of the page for course authors, which are run as tests.
#[cfg(doctest)]
#[doc = include_str!("../../../docs/AUTHORS.md")]
mod authors {}

pub use dimkhoros_sys::{
    Base, EMPTY_FILE, EXPONENT, Header, LONGEST_FILE, LONGEST_FILE_2, LONGEST_GAME,
    LONGEST_PATTERNS, LONGEST_REASON, LONGEST_SHEET, LONGEST_TEXT, Ledger as LedgerParts,
    Line as LineParts, Listed, MOST_ANSWERED, MOST_LINES, MOST_PATTERNS, MOST_PLAYERS,
    MOST_REMEMBERED, MOST_ROUNDS, Memory, OrRound, PLACES, Places, ROOT, Round, SAVED_STATES,
    SHIPPED_PATTERNS, Saved, Watch as WatchParts, version,
};
pub use entries::Entries;
pub use forms::{Forms, LinearPlan};
pub use found::Found;
pub use game::game;
pub use instance::{Instance, Values};
pub use ledger::{Checked, Ledger, Line, Product};
pub use marker::mark;
pub use no_response::NoResponse;
pub use or_prover::{OrProver, OrProverParts};
pub use pair::{OrVerdict, OrWitness, Pair, Side};
pub use pattern::{Pattern, Plan};
pub use patterns::{Layout, Patterns};
pub use places::places;
pub use prover::{Prover, ProverParts, ProverPhase};
pub use reason::reason;
pub use refusal::Refusal;
pub use refused::Refused;
pub use round_file::{RoundFile, RoundWriter};
pub use rows::{RowNumbers, Rows};
pub use stored::{Damaged, STORED_OR_PROVER, STORED_PROVER, STORED_VERIFIER};
pub use team::Team;
pub use verdict::Verdict;
pub use verifier::{Verifier, VerifierParts, VerifierPhase};
pub use watch::{Heard, Reuse, Watch};
