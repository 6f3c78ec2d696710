//! Calls that check and that make a ledger.

use std::fmt;

use crate::calls::Call;
use crate::cases::Case;
use crate::ledgers::places;
use crate::library::lines::PRODUCT;
use crate::library::{Base, Entries, Header, Ledger, Library, Places};
use crate::outcome::{Answer, Outcome};
use crate::printing::{entries, ledger};

/// What is checked, or what a ledger is made of.
#[derive(Debug)]
pub enum LedgerCall {
    Check(Box<Ledger>),
    Write(Box<Entries>),
}

/// A call on a ledger over this base.
#[derive(Debug)]
pub struct LedgerCase {
    pub base: Base,
    pub call: LedgerCall,
}

impl Case for LedgerCase {
    fn run(&self, library: Library) -> Outcome {
        match &self.call {
            LedgerCall::Check(ledger) => {
                let checked = library.ledger_check(self.base, ledger);
                Outcome::of(Call::LedgerCheck, Answer::LedgerChecked(checked))
            }
            LedgerCall::Write(entries) => {
                let written = Box::new(library.ledger_write(self.base, entries));
                Outcome::of(Call::LedgerWrite, Answer::LedgerWritten(written))
            }
        }
    }

    /// The fixed fields of the sheets of its products.
    fn header(&self) -> Option<Header> {
        Some(Header {
            kind: 1,
            modulus: self.base.modulus,
            order: self.base.order,
            challenges: self.base.challenges,
            rows: 2,
            columns: 3,
        })
    }

    /// The responses, or the nonces, of the products.
    fn slots(&self) -> Vec<Places> {
        let slots: Vec<(u32, [u32; 3])> = match &self.call {
            LedgerCall::Check(ledger) => {
                let lines = ledger.lines.iter().take(ledger.count as usize);
                lines.map(|line| (line.kind, line.response)).collect()
            }
            LedgerCall::Write(entries) => {
                let all = entries.entries.iter().take(entries.count as usize);
                all.map(|entry| (entry.kind, entry.nonce)).collect()
            }
        };
        let products = slots.iter().filter(|(kind, _)| *kind == PRODUCT);
        products.map(|(_, slots)| places(slots)).collect()
    }
}

impl fmt::Display for LedgerCase {
    fn fmt(&self, out: &mut fmt::Formatter) -> fmt::Result {
        let (call, held) = match &self.call {
            LedgerCall::Check(held) => (Call::LedgerCheck, ledger(held)),
            LedgerCall::Write(of) => (Call::LedgerWrite, entries(of)),
        };
        write!(out, "{}\n    {:?}\n    {held}", call.name(), self.base)
    }
}
