//! The calls on a sheet, on the library and in both versions in Rust.

mod alike;
mod inputs;
mod library;
mod rust;

use crate::reference::{Idiomatic, Tuned};
use crate::table::{Case, Table};

pub use alike::judgement;
pub use inputs::{
    LARGE_MODULUS, LARGE_ORDER, Plan, SheetInputs, large_exponent, page_a, sheet_bytes,
};

/// The case of a call, which has one name on the library, in Rust and where the
/// answers are compared.
macro_rules! case {
    ($name:literal, $call:ident) => {
        Case {
            name: $name,
            calls: [library::$call, rust::$call::<Idiomatic>, rust::$call::<Tuned>],
            alike: &[alike::$call::<Idiomatic>, alike::$call::<Tuned>],
        }
    };
}

/// The calls on a sheet.
pub const TABLE: Table<SheetInputs, 3> = Table {
    title: "Sheets",
    on: "sheet",
    sides: ["library", "idiomatic", "tuned"],
    cases: &[
        case!("load", load),
        case!("judge", judge),
        case!("simulate", simulate),
        case!("extract", extract),
        case!("commit and respond", commit_and_respond),
        case!("mark 512 rounds", mark),
    ],
    count: inputs::SHEETS.len(),
    make: |i| inputs::SHEETS[i](),
    compared: inputs::compared,
};
