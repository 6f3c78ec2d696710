#![doc = include_str!("../README.md")]
#![no_std]

#[allow(unsafe_code)]
mod calls;
#[allow(unsafe_code)]
mod exports;
mod kinds;
pub mod phases;
mod sizes;
mod structs;

pub use calls::*;
pub use kinds::{EXPONENT, ROOT, lines};
pub use sizes::{
    EMPTY_FILE, ENTRIES, LONGEST_FILE, LONGEST_FILE_2, LONGEST_GAME, LONGEST_PATTERNS,
    LONGEST_REASON, LONGEST_SHEET, LONGEST_TEXT, MOST_ANSWERED, MOST_LINES, MOST_PATTERNS,
    MOST_PLAYERS, MOST_REMEMBERED, MOST_ROUNDS, PARTS, PLACES, Parts, Places, SAVED_STATES,
    SHIPPED_PATTERNS,
};
pub use structs::*;

/// The path of the archive that is linked, for tests that link it to programs in C.
pub const ARCHIVE: &str = env!("DIMKHOROS_ARCHIVE");
