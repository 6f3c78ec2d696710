//! The calls that write into a lent buffer.

use std::fmt;

use crate::calls::Call;
use crate::cases::Case;
use crate::lent::Lent;
use crate::library::{Forms, Header, Library, Plan, Round, Written};
use crate::outcome::{Answer, Outcome};
use crate::printing::{hex, numbers};
use crate::sheets::{self, Sheet};

/// What is written.
#[derive(Debug)]
pub enum Writing {
    Encode { sheet: Box<Sheet> },
    Patterns,
    FromPattern { patterns: Vec<u8>, plan: Plan, values: Vec<u32>, statement: Vec<u32> },
    Linear { forms: Forms },
    Empty { version: u32 },
    Append { sheet: Vec<u8>, used: usize, round: Round },
    Convert { sheet: Vec<u8>, file: Vec<u8> },
}

/// A call that writes into a lent buffer.
#[derive(Debug)]
pub struct WriterCase {
    pub writing: Writing,
    pub lent: Lent,
}

impl Writing {
    fn call(&self) -> Call {
        match self {
            Writing::Encode { .. } => Call::Encode,
            Writing::Patterns => Call::Patterns,
            Writing::FromPattern { .. } => Call::FromPattern,
            Writing::Linear { .. } => Call::Linear,
            Writing::Empty { .. } => Call::Empty,
            Writing::Append { .. } => Call::Append,
            Writing::Convert { .. } => Call::Convert,
        }
    }

    fn write(&self, library: Library, buffer: &mut [u8]) -> Written {
        match self {
            Writing::Encode { sheet } => {
                library.encode(sheet.header, &sheet.entries, &sheet.statement, buffer)
            }
            Writing::Patterns => library.patterns(buffer),
            Writing::FromPattern { patterns, plan, values, statement } => {
                library.from_pattern(patterns, *plan, values, statement, buffer)
            }
            Writing::Linear { forms } => library.linear(forms, buffer),
            Writing::Empty { version } => library.empty(*version, buffer),
            Writing::Append { sheet, used, round } => library.append(sheet, buffer, *used, round),
            Writing::Convert { sheet, file } => library.convert(sheet, file, buffer),
        }
    }
}

impl Case for WriterCase {
    fn run(&self, library: Library) -> Outcome {
        let mut lent = self.lent.clone();
        let written = self.writing.write(library, lent.buffer());
        Outcome::with_memory(self.writing.call(), Answer::Written(written), lent.memory)
    }

    fn header(&self) -> Option<Header> {
        match &self.writing {
            Writing::Encode { sheet } => Some(sheet.header),
            Writing::FromPattern { plan, .. } => Some(plan.header()),
            Writing::Linear { forms } => Some(forms.header),
            Writing::Patterns | Writing::Empty { .. } => None,
            Writing::Append { sheet, .. } | Writing::Convert { sheet, .. } => sheets::header(sheet),
        }
    }
}

/// The inputs of a maker from linear forms, a line each.
fn show_forms(out: &mut fmt::Formatter, forms: &Forms) -> fmt::Result {
    writeln!(out, "    {:x?}", forms.header)?;
    writeln!(out, "    generators {}", numbers(&forms.generators))?;
    writeln!(out, "    coefficients {}", numbers(&forms.coefficients))?;
    writeln!(out, "    statement {}", numbers(&forms.statement))
}

impl fmt::Display for WriterCase {
    fn fmt(&self, out: &mut fmt::Formatter) -> fmt::Result {
        writeln!(out, "{}", self.writing.call().name())?;
        match &self.writing {
            Writing::Encode { sheet } => {
                writeln!(out, "    {:x?}", sheet.header)?;
                writeln!(out, "    entries {}", numbers(&sheet.entries))?;
                writeln!(out, "    statement {}", numbers(&sheet.statement))?;
            }
            Writing::FromPattern { patterns, plan, values, statement } => {
                writeln!(out, "    patterns {}", hex(patterns))?;
                writeln!(out, "    {plan:x?}")?;
                writeln!(out, "    values {}", numbers(values))?;
                writeln!(out, "    statement {}", numbers(statement))?;
            }
            Writing::Linear { forms } => show_forms(out, forms)?,
            Writing::Patterns => {}
            Writing::Empty { version } => writeln!(out, "    version {version:#x}")?,
            Writing::Append { sheet, used, round } => {
                writeln!(out, "    sheet {}", hex(sheet))?;
                writeln!(out, "    used {used:#x}")?;
                writeln!(out, "    {round:x?}")?;
            }
            Writing::Convert { sheet, file } => {
                writeln!(out, "    sheet {}", hex(sheet))?;
                writeln!(out, "    file {}", hex(file))?;
            }
        }
        write!(out, "{}", self.lent)
    }
}
