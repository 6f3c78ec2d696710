//! What card 14 asks of ledgers: ledgers made by hand in both libraries, made ledgers of which
//! each number is changed, and random ones of each size.
//!
//! What a made ledger is to hold is worked out apart: the openings by this program's own
//! arithmetic, the sheets of products by the maker of sheets, and their rounds by Peggy's
//! session. What the checker is to say is what the judging call says of each round.

mod by_hand;
mod changed;
mod random;

use crate::library::Library::{self, Judge};
use crate::library::{Base, Checked, Entries, Ledger, LedgerWritten};
use crate::printing::{entries, ledger};

/// Tries the card and answers the line to print. An error says where it fails.
pub fn check(library: Library) -> Result<String, String> {
    let mut both = Both { library, calls: 0 };
    by_hand::check(&mut both)?;
    let by_hand = both.calls;
    let changed = changed::check(&mut both)?;
    let random = random::check(&mut both)?;
    Ok(format!(
        "card 14 holds on ledgers made by hand, {by_hand} calls, with each number changed, {changed}, \
         and on {random}; {} calls in all",
        both.calls
    ))
}

/// A library beside the judge, and how many calls on ledgers were made in either.
struct Both {
    library: Library,
    calls: u64,
}

impl Both {
    /// What both libraries say of a ledger.
    fn checked(&mut self, base: Base, held: &Ledger) -> Result<Checked, String> {
        self.calls += 1;
        let [answer, judged] = [self.library, Judge].map(|it| it.ledger_check(base, held));
        let what = format!("{answer:?} and not the judge's {judged:?}");
        if answer == judged { Ok(answer) } else { Err(of_ledger(&what, base, held)) }
    }

    /// What both libraries make.
    fn written(&mut self, base: Base, of: &Entries) -> Result<LedgerWritten, String> {
        self.calls += 1;
        let [answer, judged] = [self.library, Judge].map(|it| it.ledger_write(base, of));
        if answer == judged {
            return Ok(answer);
        }
        let [made, other] = [answer, judged].map(|it| (it.refusal, ledger(&it.ledger)));
        let what = format!("{made:?} is made and not the judge's {other:?}");
        Err(of_entries(&what, base, of))
    }

    /// The ledger is to be found so.
    fn expect(&mut self, base: Base, held: &Ledger, expected: Checked) -> Result<(), String> {
        match self.checked(base, held)? {
            answer if answer == expected => Ok(()),
            answer => {
                let what = format!("{answer:?} and not {expected:?}");
                Err(of_ledger(&what, base, held))
            }
        }
    }

    /// The entries are to be refused with this number, or to be taken if it is 0. Beside a
    /// refusal stands a ledger of zeros, and what is made is accepted.
    fn expect_made(&mut self, base: Base, of: &Entries, number: u32) -> Result<Ledger, String> {
        let LedgerWritten { ledger, refusal } = self.written(base, of)?;
        if refusal != number {
            let what = format!("{refusal} and not {number}");
            return Err(of_entries(&what, base, of));
        }
        match refusal {
            0 => self.expect(base, &ledger, ACCEPTED)?,
            _ if ledger == Ledger::default() => {}
            _ => return Err(of_entries("a refused call answers a ledger", base, of)),
        }
        Ok(ledger)
    }
}

/// What fails, and on which ledger.
fn of_ledger(what: &str, base: Base, held: &Ledger) -> String {
    format!("card 14 fails: {what} on {base:?} {}", ledger(held))
}

/// What fails, and on which entries.
fn of_entries(what: &str, base: Base, of: &Entries) -> String {
    format!("card 14 fails: {what} of {base:?} {}", entries(of))
}

/// The checker accepts.
const ACCEPTED: Checked = Checked { accepted: 1, line: 0, refusal: 0 };

/// The checker names this line.
fn rejected(line: u32) -> Checked {
    Checked { line, ..Checked::default() }
}

/// The checker refuses with this number.
fn refused(refusal: u32) -> Checked {
    Checked { refusal, ..Checked::default() }
}

#[cfg(test)]
mod tests;
