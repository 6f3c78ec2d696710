//! Calls on Peggy's and on Vic's session, one or several after each other.

use std::fmt;

use crate::calls::Call;
use crate::cases::Case;
use crate::library::{Header, Library, Places, ProverSession, VerifierSession};
use crate::outcome::{Answer, Outcome};
use crate::printing::{hex, prover};
use crate::sheets;

/// A session of each.
#[derive(Clone, Copy, Debug, Default, PartialEq, Eq)]
pub struct Sessions {
    pub prover: ProverSession,
    pub verifier: VerifierSession,
}

impl From<ProverSession> for Sessions {
    fn from(prover: ProverSession) -> Sessions {
        Sessions { prover, ..Sessions::default() }
    }
}

impl From<VerifierSession> for Sessions {
    fn from(verifier: VerifierSession) -> Sessions {
        Sessions { verifier, ..Sessions::default() }
    }
}

/// A call with what it brings: the first five are Peggy's, the others Vic's.
#[derive(Clone, Copy, Debug, PartialEq, Eq)]
pub enum Step {
    Commit { nonce: Places },
    Respond { challenge: u32, witness: Places },
    Drop,
    Save { name: u32 },
    Return { name: u32 },
    Commitment { commitment: Places },
    Challenge { challenge: u32 },
    Response { response: Places },
}

/// Calls that each get the session that the last one handed back.
#[derive(Debug)]
pub struct SessionCase {
    pub sheet: Vec<u8>,
    /// Sessions made by hand. Where there are none, the library makes new ones.
    pub made: Option<Sessions>,
    pub steps: Vec<Step>,
}

impl SessionCase {
    /// A case of one call on a session that is made by hand.
    pub fn one(sheet: Vec<u8>, made: impl Into<Sessions>, step: Step) -> Box<dyn Case> {
        Box::new(SessionCase { sheet, made: Some(made.into()), steps: vec![step] })
    }
}

impl Step {
    /// Which call it is.
    pub fn call(&self) -> Call {
        match self {
            Step::Commit { .. } => Call::ProverCommit,
            Step::Respond { .. } => Call::ProverRespond,
            Step::Drop => Call::ProverDrop,
            Step::Save { .. } => Call::ProverSave,
            Step::Return { .. } => Call::ProverReturn,
            Step::Commitment { .. } => Call::VerifierCommitment,
            Step::Challenge { .. } => Call::VerifierChallenge,
            Step::Response { .. } => Call::VerifierResponse,
        }
    }

    /// The slots that it brings.
    pub fn slots(&self) -> Option<Places> {
        match self {
            Step::Commit { nonce: slots }
            | Step::Respond { witness: slots, .. }
            | Step::Response { response: slots } => Some(*slots),
            Step::Drop | Step::Save { .. } | Step::Return { .. } => None,
            Step::Commitment { .. } | Step::Challenge { .. } => None,
        }
    }

    /// Makes the call. The session becomes the one that is handed back.
    pub fn take(&self, library: Library, sheet: &[u8], sessions: &mut Sessions) -> Answer {
        let Sessions { prover, verifier } = *sessions;
        let peggys = |answer| Answer::Prover(Box::new(answer));
        let answer = match self {
            Step::Commit { nonce } => peggys(library.prover_commit(sheet, prover, nonce)),
            Step::Respond { challenge, witness } => {
                peggys(library.prover_respond(sheet, prover, *challenge, witness))
            }
            Step::Drop => peggys(library.prover_drop(prover)),
            Step::Save { name } => peggys(library.prover_save(prover, *name)),
            Step::Return { name } => peggys(library.prover_return(prover, *name)),
            Step::Commitment { commitment } => {
                Answer::Verifier(library.verifier_commitment(sheet, verifier, commitment))
            }
            Step::Challenge { challenge } => {
                Answer::Verifier(library.verifier_challenge(sheet, verifier, *challenge))
            }
            Step::Response { response } => {
                Answer::VerifierJudged(library.verifier_response(sheet, verifier, response))
            }
        };
        match &answer {
            Answer::Prover(answer) => sessions.prover = answer.session,
            Answer::Verifier(answer) => sessions.verifier = answer.session,
            Answer::VerifierJudged(answer) => sessions.verifier = answer.session,
            _ => {}
        }
        answer
    }
}

impl Case for SessionCase {
    fn run(&self, library: Library) -> Outcome {
        let mut answers = Vec::new();
        let mut sessions = self.made.unwrap_or_else(|| {
            let (prover, verifier) = (library.prover_new(), library.verifier_new());
            answers.push((Call::ProverNew, Answer::ProverNew(Box::new(prover))));
            answers.push((Call::VerifierNew, Answer::VerifierNew(verifier)));
            Sessions { prover, verifier }
        });
        for step in &self.steps {
            let answer = step.take(library, &self.sheet, &mut sessions);
            answers.push((step.call(), answer));
        }
        Outcome { answers, memory: Vec::new() }
    }

    fn header(&self) -> Option<Header> {
        sheets::header(&self.sheet)
    }

    fn slots(&self) -> Vec<Places> {
        let slots = self.steps.iter().filter_map(Step::slots);
        slots.collect()
    }
}

impl fmt::Display for SessionCase {
    fn fmt(&self, out: &mut fmt::Formatter) -> fmt::Result {
        let names: Vec<&str> = self.steps.iter().map(|step| step.call().name()).collect();
        writeln!(out, "{}", names.join(", "))?;
        write!(out, "    sheet {}", hex(&self.sheet))?;
        match &self.made {
            Some(made) => {
                write!(out, "\n    {}\n    {:x?}", prover(&made.prover), made.verifier)?;
            }
            None => write!(out, "\n    new sessions")?,
        }
        for step in &self.steps {
            write!(out, "\n    {step:x?}")?;
        }
        Ok(())
    }
}
