//! Verdicts.

use crate::Rows;
use core::fmt;

/// What the verifier says of a round.
///
/// ```
/// use dimkhoros::{Rows, Verdict};
///
/// assert_eq!(Verdict::Accepted.to_string(), "accepted");
/// let rejected = |mask| Verdict::Rejected { rows: Rows::from_mask(mask) };
/// assert_eq!(rejected(1).to_string(), "rejected in row 0");
/// assert_eq!(rejected(0b1000_0101).to_string(), "rejected in rows 0 2 7");
/// ```
#[derive(Clone, Copy, Debug, PartialEq, Eq, Hash)]
#[must_use]
pub enum Verdict {
    /// The image of the response is the commitment times the statement to the challenge, in every row.
    Accepted,
    /// The two sides differ.
    Rejected {
        /// The rows, from 0, in which they differ, and no other. There is at least one.
        rows: Rows,
    },
}

impl Verdict {
    /// Whether the round is accepted.
    ///
    /// ```
    /// use dimkhoros::{Rows, Verdict};
    ///
    /// assert!(Verdict::Accepted.is_accepted());
    /// assert!(!Verdict::Rejected { rows: Rows::from_mask(2) }.is_accepted());
    /// ```
    pub fn is_accepted(self) -> bool {
        self == Verdict::Accepted
    }
}

impl fmt::Display for Verdict {
    fn fmt(&self, f: &mut fmt::Formatter<'_>) -> fmt::Result {
        match self {
            Verdict::Accepted => f.write_str("accepted"),
            Verdict::Rejected { rows } => write!(f, "rejected in {rows}"),
        }
    }
}
