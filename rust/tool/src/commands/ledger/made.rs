//! The ledger of a text.

use super::text::{Given, Text};
use super::wrong;
use crate::command_line::failure::Outcome;
use dimkhoros::{Entries, Ledger, Line, MOST_LINES, Product, Refusal};

/// A value with its blinding number.
#[derive(Clone, Copy, Debug, PartialEq)]
pub struct Opening {
    /// The value.
    pub value: u32,
    /// The blinding number.
    pub blinding: u32,
}

/// A ledger that is not refused.
pub struct Made {
    /// The ledger.
    pub ledger: Ledger,
    /// Its lines.
    pub lines: Vec<Line>,
    /// The commitments of the lines.
    pub commitments: Vec<u32>,
    /// What the commitments open to, if the text says it.
    pub openings: Option<Vec<Opening>>,
}

impl Made {
    /// The ledger of a text, or what is wrong with one of its lines.
    pub fn of(text: &Text) -> Outcome<Made> {
        let ledger = ledger(text).map_err(|refusal| wrong::refused(text, refusal))?;
        let lines: Vec<Line> = ledger.lines().collect();
        let commitments = ledger.commitments().map_err(|refusal| wrong::refused(text, refusal))?;
        let commitments = commitments[..lines.len()].to_vec();
        Ok(Made { ledger, lines, commitments, openings: openings(text) })
    }

    /// The sheet and the round of a product.
    pub fn product(&self, line: usize) -> Outcome<Option<Product>> {
        Ok(self.ledger.product(line)?)
    }
}

/// The ledger of a text. Each number is asked of all lines before the next.
fn ledger(text: &Text) -> Result<Ledger, Refusal> {
    Ledger::from_lines(&text.base, &[])?.check().map(drop)?;
    if text.lines.len() > MOST_LINES {
        return Err(Refusal::LedgerSize);
    }
    let closed: Option<Vec<Line>> = text.lines.iter().map(|(_, given)| line(given)).collect();
    if let Some(lines) = closed {
        return Ledger::from_lines(&text.base, &lines);
    }
    let mut entries = Entries::new();
    for (_, given) in &text.lines {
        add(&mut entries, given)?;
    }
    Ledger::write(&text.base, &entries)
}

/// The line that is there already. A sum always is.
fn line(given: &Given) -> Option<Line> {
    match *given {
        Given::Sum { first, second } => Some(Line::Sum { first, second }),
        Given::Closed(line) => Some(line),
        Given::Commitment { .. } | Given::Product { .. } => None,
    }
}

/// Adds what a line is made of.
fn add(entries: &mut Entries, given: &Given) -> Result<usize, Refusal> {
    match *given {
        Given::Commitment { value, blinding } => entries.commitment(value, blinding),
        Given::Sum { first, second } => entries.sum(first, second),
        Given::Product { first, second, blinding, nonce, challenge } => {
            entries.product(first, second, blinding, nonce, challenge)
        }
        // The lines of a text are of one form.
        Given::Closed(_) => Err(Refusal::LineKind),
    }
}

/// What the lines of a ledger that is not refused open to: sums and products modulo q. None where a line is there already.
fn openings(text: &Text) -> Option<Vec<Opening>> {
    let order = u64::from(text.base.order);
    let below = |number: u64| (number % order) as u32;
    let mut found: Vec<Opening> = Vec::new();
    for (_, given) in &text.lines {
        let opening = match *given {
            Given::Commitment { value, blinding } => Opening { value, blinding },
            Given::Sum { first, second } => {
                let (first, second) = (found.get(first)?, found.get(second)?);
                Opening {
                    value: below(u64::from(first.value) + u64::from(second.value)),
                    blinding: below(u64::from(first.blinding) + u64::from(second.blinding)),
                }
            }
            Given::Product { first, second, blinding, .. } => {
                let (first, second) = (found.get(first)?, found.get(second)?);
                let value = below(u64::from(first.value) * u64::from(second.value));
                Opening { value, blinding }
            }
            Given::Closed(_) => return None,
        };
        found.push(opening);
    }
    Some(found)
}
