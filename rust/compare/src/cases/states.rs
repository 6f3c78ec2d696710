//! Calls on Peggy's session that saves and returns, each on one of two sheets.

use std::fmt;

use crate::calls::Call;
use crate::cases::{Case, Sessions, Step};
use crate::library::{Header, Library, Places};
use crate::outcome::{Answer, Outcome};
use crate::printing::hex;
use crate::sheets;

/// A call, and which of the two sheets it is given.
#[derive(Clone, Copy, Debug, PartialEq, Eq)]
pub struct StateStep {
    pub side: usize,
    pub step: Step,
}

/// Calls from a new session on that each get the session that the last one handed
/// back.
#[derive(Debug)]
pub struct StateCase {
    pub sheets: [Vec<u8>; 2],
    pub steps: Vec<StateStep>,
}

impl Case for StateCase {
    fn run(&self, library: Library) -> Outcome {
        let mut sessions = Sessions::from(library.prover_new());
        let made = Answer::ProverNew(Box::new(sessions.prover));
        let mut answers = vec![(Call::ProverNew, made)];
        for StateStep { side, step } in &self.steps {
            let answer = step.take(library, &self.sheets[*side], &mut sessions);
            answers.push((step.call(), answer));
        }
        Outcome { answers, memory: Vec::new() }
    }

    fn header(&self) -> Option<Header> {
        sheets::header(&self.sheets[0])
    }

    fn slots(&self) -> Vec<Places> {
        let first = self.steps.iter().filter(|step| step.side == 0);
        first.filter_map(|step| step.step.slots()).collect()
    }
}

impl fmt::Display for StateCase {
    fn fmt(&self, out: &mut fmt::Formatter) -> fmt::Result {
        write!(out, "a session that saves and returns")?;
        for (side, sheet) in self.sheets.iter().enumerate() {
            write!(out, "\n    sheet {side} {}", hex(sheet))?;
        }
        for StateStep { side, step } in &self.steps {
            write!(out, "\n    on sheet {side} {step:x?}")?;
        }
        Ok(())
    }
}
