//! A run: case after case, in the judge and in the other library.

use std::fmt;

use crate::cases::Case;
use crate::library::Library::{self, Judge};
use crate::making;
use crate::outcome::Outcome;
use crate::tally::Tally;

/// A case in which the two outcomes differ.
#[derive(Debug)]
pub struct Difference {
    number: u64,
    case: Box<dyn Case>,
    judged: Outcome,
    other: Outcome,
}

/// Compares so many cases of this seed. Ends at the first difference.
pub fn run(seed: u64, count: u64, other: Library) -> Result<Tally, Box<Difference>> {
    let mut tally = Tally::default();
    for number in 0..count {
        let case = making::case(seed, number);
        let judged = case.run(Judge);
        let answered = case.run(other);
        if judged != answered {
            return Err(Box::new(Difference { number, case, judged, other: answered }));
        }
        tally.add(case.as_ref(), &judged);
    }
    Ok(tally)
}

impl fmt::Display for Difference {
    fn fmt(&self, out: &mut fmt::Formatter) -> fmt::Result {
        writeln!(out, "difference in case {}: {}", self.number, self.case)?;
        writeln!(out, "  judge:{}", self.judged)?;
        write!(out, "  other:{}", self.other)
    }
}
