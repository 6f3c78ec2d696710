//! Calls on Peggy's session of the OR proof, one or several after each other.

use std::fmt;

use crate::calls::Call;
use crate::cases::Case;
use crate::library::{Header, Library, OrAnswer, OrSession, Places};
use crate::outcome::{Answer, Outcome};
use crate::printing::hex;
use crate::sheets;

/// A call with what it brings.
#[derive(Clone, Copy, Debug, PartialEq, Eq)]
pub enum OrStep {
    Commit { side: u32, nonce: Places, challenge: u32, response: Places },
    Respond { challenge: u32, witness: Places },
    Drop,
}

/// Calls that each get the session that the last one handed back.
#[derive(Debug)]
pub struct OrSessionCase {
    pub sheets: [Vec<u8>; 2],
    /// A session made by hand. Where there is none, the library makes a new one.
    pub made: Option<OrSession>,
    pub steps: Vec<OrStep>,
}

impl OrSessionCase {
    /// A case of one call on a session that is made by hand.
    pub fn one(sheets: [Vec<u8>; 2], made: OrSession, step: OrStep) -> OrSessionCase {
        OrSessionCase { sheets, made: Some(made), steps: vec![step] }
    }
}

impl OrStep {
    /// Which call it is.
    pub fn call(&self) -> Call {
        match self {
            OrStep::Commit { .. } => Call::OrProverCommit,
            OrStep::Respond { .. } => Call::OrProverRespond,
            OrStep::Drop => Call::OrProverDrop,
        }
    }

    fn take(&self, library: Library, sheets: &[Vec<u8>; 2], session: OrSession) -> OrAnswer {
        let [first, second] = sheets;
        match self {
            OrStep::Commit { side, nonce, challenge, response } => {
                library.or_prover_commit(first, second, session, *side, nonce, *challenge, response)
            }
            OrStep::Respond { challenge, witness } => {
                library.or_prover_respond(first, second, session, *challenge, witness)
            }
            OrStep::Drop => library.or_prover_drop(session),
        }
    }
}

impl Case for OrSessionCase {
    fn run(&self, library: Library) -> Outcome {
        let mut answers = Vec::new();
        let mut session = self.made.unwrap_or_else(|| {
            let session = library.or_prover_new();
            answers.push((Call::OrProverNew, Answer::OrProverNew(session)));
            session
        });
        for step in &self.steps {
            let answer = step.take(library, &self.sheets, session);
            session = answer.session;
            answers.push((step.call(), Answer::OrProver(answer)));
        }
        Outcome { answers, memory: Vec::new() }
    }

    fn header(&self) -> Option<Header> {
        sheets::header(&self.sheets[0])
    }
}

impl fmt::Display for OrSessionCase {
    fn fmt(&self, out: &mut fmt::Formatter) -> fmt::Result {
        let names: Vec<&str> = self.steps.iter().map(|step| step.call().name()).collect();
        write!(out, "{}", names.join(", "))?;
        for sheet in &self.sheets {
            write!(out, "\n    sheet {}", hex(sheet))?;
        }
        match &self.made {
            Some(made) => write!(out, "\n    {made:x?}")?,
            None => write!(out, "\n    a new session")?,
        }
        for step in &self.steps {
            write!(out, "\n    {step:x?}")?;
        }
        Ok(())
    }
}
