//! The OR proof, "I know one of the two", after Cramer, Damgård and
//! Schoenmakers.
//!
//! There are two sheets with one K, and so two sides, 0 and 1. Peggy holds a
//! witness of one side and simulates the other. The challenges c0 and c1 of
//! the two sides add up to the round's challenge c mod K.

mod rounds;
mod session;

pub use rounds::{OrRound, OrVerdict, OrWitness, extract, judge};
pub use session::{
    ANSWERED, COMMITTED, DROPPED, NEW, OrAnswer, OrProver, commit, drop_session, respond,
};

use crate::arithmetic::reduce;
use crate::sheet::{Sheet, load};

/// Both sheets, after the tests 2 to 11 of each and then 26.
fn load_both(sheets: [&[u8]; 2]) -> Result<[Sheet; 2], u32> {
    match sheets.map(load) {
        [Ok(first), Ok(second)] => {
            if first.challenges == second.challenges {
                Ok([first, second])
            } else {
                Err(26)
            }
        }
        // Decision: "the lowest number that applies" holds over both sheets,
        // so 3 in the second sheet comes before 4 in the first.
        [Err(first), Err(second)] => Err(first.min(second)),
        [Err(number), Ok(_)] | [Ok(_), Err(number)] => Err(number),
    }
}

/// What one side's challenge leaves of c for the other: (c − it) mod K.
///
/// Both sheets have the same K, so it is read from the first.
fn left(sheets: &[Sheet; 2], challenge: u32, taken: u32) -> u32 {
    let difference = i128::from(challenge) - i128::from(taken);
    reduce(difference, sheets[0].challenges)
}
