//! The calls on rounds of the OR proof.

use std::fmt;

use crate::calls::Call;
use crate::cases::Case;
use crate::library::{Header, Library, OrRound, Places};
use crate::outcome::{Answer, Outcome};
use crate::printing::hex;
use crate::sheets;

/// What is asked about two sheets.
#[derive(Debug)]
pub enum OrRoundCall {
    Judge(Box<OrRound>),
    Extract(Box<[OrRound; 2]>),
}

/// A call on two sheets and on rounds of them.
#[derive(Debug)]
pub struct OrRoundCase {
    pub sheets: [Vec<u8>; 2],
    pub call: OrRoundCall,
}

impl OrRoundCase {
    fn call(&self) -> Call {
        match self.call {
            OrRoundCall::Judge(_) => Call::OrJudge,
            OrRoundCall::Extract(_) => Call::OrExtract,
        }
    }

    /// The rounds that are brought.
    pub fn rounds(&self) -> &[OrRound] {
        match &self.call {
            OrRoundCall::Judge(round) => std::slice::from_ref(round),
            OrRoundCall::Extract(rounds) => &rounds[..],
        }
    }
}

impl Case for OrRoundCase {
    fn run(&self, library: Library) -> Outcome {
        let [first, second] = &self.sheets;
        let answer = match &self.call {
            OrRoundCall::Judge(round) => Answer::OrJudged(library.or_judge(first, second, round)),
            OrRoundCall::Extract(rounds) => {
                Answer::OrExtracted(library.or_extract(first, second, &rounds[0], &rounds[1]))
            }
        };
        Outcome::of(self.call(), answer)
    }

    fn header(&self) -> Option<Header> {
        sheets::header(&self.sheets[0])
    }

    fn slots(&self) -> Vec<Places> {
        self.rounds().iter().map(|round| round.response0).collect()
    }
}

impl fmt::Display for OrRoundCase {
    fn fmt(&self, out: &mut fmt::Formatter) -> fmt::Result {
        write!(out, "{}", self.call().name())?;
        for sheet in &self.sheets {
            write!(out, "\n    sheet {}", hex(sheet))?;
        }
        for round in self.rounds() {
            write!(out, "\n    {round:x?}")?;
        }
        Ok(())
    }
}
