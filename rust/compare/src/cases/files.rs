//! The calls that read a round file, and the one that compares two of its rounds.

use std::fmt;

use crate::calls::Call;
use crate::cases::Case;
use crate::library::Header;
use crate::library::Library::{self, Judge};
use crate::outcome::{Answer, Outcome};
use crate::printing::hex;
use crate::sheets;

/// Which call it is. Counting takes no round number.
#[derive(Clone, Copy, Debug, PartialEq, Eq)]
pub enum FileCall {
    Count,
    Check,
    Part,
    Read,
}

/// A call on a sheet, a round file and a round number.
#[derive(Debug)]
pub struct FileCase {
    pub call: FileCall,
    pub sheet: Vec<u8>,
    pub file: Vec<u8>,
    pub number: usize,
}

/// A call that compares the commitments of two rounds of a file.
#[derive(Debug)]
pub struct SameCase {
    pub sheet: Vec<u8>,
    pub file: Vec<u8>,
    pub numbers: [usize; 2],
}

impl FileCase {
    fn call(&self) -> Call {
        match self.call {
            FileCall::Count => Call::Count,
            FileCall::Check => Call::Check,
            FileCall::Part => Call::Part,
            FileCall::Read => Call::Read,
        }
    }
}

impl Case for FileCase {
    fn run(&self, library: Library) -> Outcome {
        let (sheet, file, number) = (&self.sheet, &self.file, self.number);
        let answer = match self.call {
            FileCall::Count => Answer::Counted(library.count(sheet, file)),
            FileCall::Check => Answer::Checked(library.check(sheet, file, number)),
            FileCall::Part => Answer::Part(library.part(sheet, file, number)),
            FileCall::Read => Answer::Fetched(library.read(sheet, file, number)),
        };
        Outcome::of(self.call(), answer)
    }

    /// Parts come without a number, so that the judge checks the round.
    fn numbers(&self, judged: &Outcome) -> Vec<(Call, u32)> {
        let number = match self.call {
            FileCall::Part => Judge.check(&self.sheet, &self.file, self.number),
            _ => judged.answers[0].1.refusal(),
        };
        vec![(self.call(), number)]
    }

    fn header(&self) -> Option<Header> {
        sheets::header(&self.sheet)
    }
}

impl fmt::Display for FileCase {
    fn fmt(&self, out: &mut fmt::Formatter) -> fmt::Result {
        writeln!(out, "{}", self.call().name())?;
        writeln!(out, "    sheet {}", hex(&self.sheet))?;
        write!(out, "    file {}", hex(&self.file))?;
        if self.call != FileCall::Count {
            write!(out, "\n    number {:#x}", self.number)?;
        }
        Ok(())
    }
}

impl Case for SameCase {
    fn run(&self, library: Library) -> Outcome {
        let [i, j] = self.numbers;
        let compared = library.same_commitment(&self.sheet, &self.file, i, j);
        Outcome::of(Call::SameCommitment, Answer::Compared(compared))
    }

    fn header(&self) -> Option<Header> {
        sheets::header(&self.sheet)
    }
}

impl fmt::Display for SameCase {
    fn fmt(&self, out: &mut fmt::Formatter) -> fmt::Result {
        let [i, j] = self.numbers;
        writeln!(out, "{}", Call::SameCommitment.name())?;
        writeln!(out, "    sheet {}", hex(&self.sheet))?;
        writeln!(out, "    file {}", hex(&self.file))?;
        write!(out, "    numbers {i:#x} {j:#x}")
    }
}
