//! The two calls that read a sheet.

use std::fmt;

use crate::calls::Call;
use crate::cases::Case;
use crate::library::{Header, Library};
use crate::outcome::{Answer, Outcome};
use crate::printing::{hex, numbers};
use crate::sheets;

/// A call that reads a sheet.
#[derive(Debug)]
pub enum SheetCase {
    Load {
        sheet: Vec<u8>,
    },
    /// The 64 numbers are what stands in the array before the call.
    Entries {
        sheet: Vec<u8>,
        before: Box<[u32; 64]>,
    },
}

impl Case for SheetCase {
    fn run(&self, library: Library) -> Outcome {
        match self {
            SheetCase::Load { sheet } => {
                Outcome::of(Call::Load, Answer::Loaded(library.load(sheet)))
            }
            SheetCase::Entries { sheet, before } => {
                let mut entries = **before;
                let refusal = library.entries(sheet, &mut entries);
                let numbers = entries.to_vec();
                Outcome::of(Call::Entries, Answer::Entries { refusal, numbers })
            }
        }
    }

    fn header(&self) -> Option<Header> {
        match self {
            SheetCase::Load { sheet } | SheetCase::Entries { sheet, .. } => sheets::header(sheet),
        }
    }
}

impl fmt::Display for SheetCase {
    fn fmt(&self, out: &mut fmt::Formatter) -> fmt::Result {
        match self {
            SheetCase::Load { sheet } => {
                writeln!(out, "{}", Call::Load.name())?;
                write!(out, "    sheet {}", hex(sheet))
            }
            SheetCase::Entries { sheet, before } => {
                writeln!(out, "{}", Call::Entries.name())?;
                writeln!(out, "    sheet {}", hex(sheet))?;
                write!(out, "    array {}", numbers(&before[..]))
            }
        }
    }
}
