//! The calls on rounds.

use std::fmt;

use crate::calls::Call;
use crate::cases::Case;
use crate::library::{Header, Library, Places, Round};
use crate::outcome::{Answer, Outcome};
use crate::printing::{hex, numbers};
use crate::sheets;

/// What is asked about a sheet.
#[derive(Debug)]
pub enum RoundCall {
    Judge(Round),
    Simulate { challenge: u32, response: Places },
    Extract { first: Round, second: Round },
}

/// A call on a sheet and on rounds of it.
#[derive(Debug)]
pub struct RoundCase {
    pub sheet: Vec<u8>,
    pub call: RoundCall,
}

impl RoundCase {
    fn call(&self) -> Call {
        match self.call {
            RoundCall::Judge(_) => Call::Judge,
            RoundCall::Simulate { .. } => Call::Simulate,
            RoundCall::Extract { .. } => Call::Extract,
        }
    }
}

impl Case for RoundCase {
    fn run(&self, library: Library) -> Outcome {
        let sheet = &self.sheet;
        let answer = match &self.call {
            RoundCall::Judge(round) => Answer::Judged(library.judge(sheet, round)),
            RoundCall::Simulate { challenge, response } => {
                Answer::Computed(library.simulate(sheet, *challenge, response))
            }
            RoundCall::Extract { first, second } => {
                Answer::Computed(library.extract(sheet, first, second))
            }
        };
        Outcome::of(self.call(), answer)
    }

    fn header(&self) -> Option<Header> {
        sheets::header(&self.sheet)
    }

    fn slots(&self) -> Vec<Places> {
        match &self.call {
            RoundCall::Judge(round) => vec![round.response],
            RoundCall::Simulate { response, .. } => vec![*response],
            RoundCall::Extract { first, second } => vec![first.response, second.response],
        }
    }
}

impl fmt::Display for RoundCase {
    fn fmt(&self, out: &mut fmt::Formatter) -> fmt::Result {
        writeln!(out, "{}", self.call().name())?;
        writeln!(out, "    sheet {}", hex(&self.sheet))?;
        match &self.call {
            RoundCall::Judge(round) => write!(out, "    {round:x?}"),
            RoundCall::Simulate { challenge, response } => {
                writeln!(out, "    challenge {challenge:x}")?;
                write!(out, "    response {}", numbers(response))
            }
            RoundCall::Extract { first, second } => {
                writeln!(out, "    {first:x?}")?;
                write!(out, "    {second:x?}")
            }
        }
    }
}
