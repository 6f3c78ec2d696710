//! How often a checked ledger is accepted and which line is rejected, and how many lines
//! ledgers have that are made.

use crate::library::{Checked, LedgerWritten};

/// What is counted of a ledger that is checked: accepted, or where the named line stands.
const FOUND: [&str; 4] = ["accepted", "rejects line 1", "2 to 62", "63"];

/// What is counted of a ledger that is made: how many lines it has.
const MADE: [&str; 4] = ["no line", "1", "2 to 63", "64"];

/// The counts.
#[derive(Default)]
pub struct Ledgers {
    found: [u64; FOUND.len()],
    made: [u64; MADE.len()],
}

impl Ledgers {
    /// Counts what a ledger that is not refused is found to be.
    pub fn add_checked(&mut self, checked: &Checked) {
        let place = match checked.line {
            _ if checked.accepted == 1 => 0,
            0 | 1 => 1,
            2..=62 => 2,
            _ => 3,
        };
        self.found[place] += u64::from(checked.refusal == 0);
    }

    /// Counts the lines of a ledger that is made.
    pub fn add_written(&mut self, written: &LedgerWritten) {
        let place = match written.ledger.count {
            0 => 0,
            1 => 1,
            2..=63 => 2,
            _ => 3,
        };
        self.made[place] += u64::from(written.refusal == 0);
    }

    /// Each thing that is counted, with its columns.
    pub fn rows(&self) -> Vec<(&'static str, Vec<(&'static str, u64)>)> {
        let found = FOUND.into_iter().zip(self.found).collect();
        let made = MADE.into_iter().zip(self.made).collect();
        vec![("a ledger is checked", found), ("a ledger is made of", made)]
    }
}
