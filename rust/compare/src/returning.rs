//! What card 13 asks of Peggy's session: sessions made by hand in both libraries, and
//! runs of 30 to 300 calls through one library alone.
//!
//! What a run's session is to hold is made without its memory: what was held at each save,
//! and the commitments that were answered. Committing, responding and dropping are asked of
//! a session that remembers nothing; a response that is given there is to be refused with
//! 32 if its commitment was answered, and with 33 if 64 were.

mod by_hand;

use std::collections::HashSet;

use crate::cases::{Sessions, StateStep, Step};
use crate::library::{
    Library, Listed, MOST_ANSWERED, Memory, Places, ProverAnswer, ProverSession, Round,
    SAVED_STATES, Saved,
};
use crate::making::{answers_to_the_last, state_calls};
use crate::outcome::Answer;
use crate::printing::hex;
use crate::random::Random;

/// How many runs there are of 30 to 300 calls, and up to the 64th answer and beyond.
const RUNS: u64 = 60;
const LONG_RUNS: u64 = 6;

/// How often something was met.
#[derive(Debug, Default)]
struct Met {
    calls: u64,
    returns: u64,
    answers: u64,
    /// Responses that are refused with 32, and those of them on the other sheet than the
    /// one on which the commitment was answered.
    listed: u64,
    elsewhere: u64,
    /// Responses that are refused with 33.
    full: u64,
}

/// Tries the card and answers the line to print. An error says where it fails.
pub fn check(library: Library) -> Result<String, String> {
    let by_hand = by_hand::check(library)?;
    let met = tried(library)?;
    Ok(format!(
        "card 13 holds on sessions made by hand, {by_hand} calls, and in {} runs, {} calls: of {} returns and \
         {} answers no commitment got two; {} got 32, {} of them on another sheet, and {} got 33",
        RUNS + LONG_RUNS,
        met.calls,
        met.returns,
        met.answers,
        met.listed,
        met.elsewhere,
        met.full
    ))
}

/// Tries the card in every run.
fn tried(library: Library) -> Result<Met, String> {
    let mut met = Met::default();
    for seed in 0..RUNS + LONG_RUNS {
        let mut random = Random::new(seed);
        let (sheets, steps) = if seed < RUNS {
            let calls = random.between(30, 300);
            state_calls(&mut random, calls)
        } else {
            answers_to_the_last(&mut random)
        };
        Run::new(library, &sheets).and_then(|mut run| run.take_all(&steps, &mut met)).map_err(
            |what| {
                let [first, second] = sheets.each_ref().map(|sheet| hex(sheet));
                format!("card 13 fails on sheets {first} and {second}: {what} in run {seed}")
            },
        )?;
    }
    Ok(met)
}

/// The phase, nonce and commitment that a session holds.
type Held = (u32, Places, Places);

/// A session, and what it is to be.
struct Run<'a> {
    library: Library,
    sheets: &'a [Vec<u8>; 2],
    sessions: Sessions,
    held: Held,
    saved: [Option<Held>; SAVED_STATES],
    answered: Vec<Places>,
    /// The commitments that were answered, with the sheet on which they were.
    given: HashSet<(usize, Places)>,
}

impl Run<'_> {
    fn new(library: Library, sheets: &[Vec<u8>; 2]) -> Result<Run<'_>, String> {
        let run = Run {
            library,
            sheets,
            sessions: Sessions::from(library.prover_new()),
            held: (0, [0; 8], [0; 8]),
            saved: [None; SAVED_STATES],
            answered: Vec::new(),
            given: HashSet::new(),
        };
        if run.sessions.prover == run.expected() {
            Ok(run)
        } else {
            Err("a new session holds something".to_string())
        }
    }

    /// A session that holds what this one is to hold and remembers nothing.
    fn plain(&self) -> ProverSession {
        let (phase, nonce, commitment) = self.held;
        ProverSession { nonce, commitment, phase, memory: Memory::default() }
    }

    /// The session as it is to be.
    fn expected(&self) -> ProverSession {
        let mut session = self.plain();
        let memory = &mut session.memory;
        memory.saved = self.saved.map(|held| {
            held.map_or(Saved::default(), |(phase, nonce, commitment)| Saved {
                nonce,
                commitment,
                phase,
                kept: 1,
            })
        });
        for (listed, commitment) in memory.answered.iter_mut().zip(&self.answered) {
            *listed = Listed { commitment: *commitment };
        }
        memory.count = self.answered.len() as u32;
        session
    }

    fn take_all(&mut self, steps: &[StateStep], met: &mut Met) -> Result<(), String> {
        for (number, step) in steps.iter().enumerate() {
            let taken = self.take(step, met);
            taken.map_err(|what| format!("{what} at call {number}"))?;
        }
        Ok(())
    }

    /// What a call is to answer, a number and values. What the session is to be becomes
    /// what it is to be after it.
    fn answer(&mut self, StateStep { side, step }: &StateStep) -> (u32, Places) {
        match step {
            Step::Save { name } => match self.saved.get_mut(*name as usize) {
                Some(saved) => *saved = Some(self.held),
                None => return (34, [0; 8]),
            },
            Step::Return { name } => match self.saved.get(*name as usize) {
                Some(Some(saved)) => self.held = *saved,
                _ => return (34, [0; 8]),
            },
            _ => return self.answer_plain(*side, step),
        }
        (0, [0; 8])
    }

    /// What one of 01's calls is to answer.
    fn answer_plain(&mut self, side: usize, step: &Step) -> (u32, Places) {
        let mut plain = Sessions::from(self.plain());
        let answer = made(step, self.library, &self.sheets[side], &mut plain);
        let responds = matches!(step, Step::Respond { .. }) && answer.refusal == 0;
        if responds && self.answered.contains(&self.held.2) {
            return (32, [0; 8]);
        }
        if responds && self.answered.len() >= MOST_ANSWERED {
            return (33, [0; 8]);
        }
        if responds {
            self.answered.push(self.held.2);
        }
        if answer.refusal == 0 {
            let next = plain.prover;
            self.held = (next.phase, next.nonce, next.commitment);
        }
        (answer.refusal, answer.values)
    }

    /// Makes a call. An error says what is not as it is to be.
    fn take(&mut self, step: &StateStep, met: &mut Met) -> Result<(), &'static str> {
        let before = self.sessions.prover;
        let expected = self.answer(step);
        let sheet = &self.sheets[step.side];
        let answer = made(&step.step, self.library, sheet, &mut self.sessions);
        met.calls += 1;
        self.count(step, &answer, &before, met);
        match () {
            _ if (answer.refusal, answer.values) != expected => Err("another answer"),
            _ if answer.refusal != 0 && answer.session != before => {
                Err("a refused call changes the session")
            }
            _ if answer.session != self.expected() => Err("another session is handed back"),
            _ => self.is_new_answer(step, &answer, &before),
        }
    }

    /// Counts what a call came to.
    fn count(
        &self,
        step: &StateStep,
        answer: &ProverAnswer,
        before: &ProverSession,
        met: &mut Met,
    ) {
        let there = (step.side, before.commitment);
        match (&step.step, answer.refusal) {
            (Step::Return { .. }, 0) => met.returns += 1,
            (Step::Respond { .. }, 0) => met.answers += 1,
            (_, 32) => {
                met.listed += 1;
                met.elsewhere += u64::from(!self.given.contains(&there));
            }
            (_, 33) => met.full += 1,
            _ => {}
        }
    }

    /// An answer is to be that of an accepted round, and no commitment gets two.
    fn is_new_answer(
        &mut self,
        StateStep { side, step }: &StateStep,
        answer: &ProverAnswer,
        before: &ProverSession,
    ) -> Result<(), &'static str> {
        let (Step::Respond { challenge, .. }, 0) = (step, answer.refusal) else {
            return Ok(());
        };
        let round =
            Round { commitment: before.commitment, challenge: *challenge, response: answer.values };
        let judged = self.library.judge(&self.sheets[*side], &round);
        let other = self.given.contains(&(1 - side, before.commitment));
        match () {
            _ if judged.accepted != 1 => Err("what is answered is not accepted"),
            _ if other || !self.given.insert((*side, before.commitment)) => {
                Err("a commitment gets two answers")
            }
            _ => Ok(()),
        }
    }
}

/// What a call on Peggy's session answers.
fn made(step: &Step, library: Library, sheet: &[u8], sessions: &mut Sessions) -> ProverAnswer {
    match step.take(library, sheet, sessions) {
        Answer::Prover(answer) => *answer,
        _ => ProverAnswer::default(),
    }
}

#[cfg(test)]
mod tests {
    use super::*;
    use crate::faults::FAULTS;
    use crate::library::Library::{Faulty, Judge};

    #[test]
    fn the_judge_meets_the_card_and_all_is_met() {
        let met = tried(Judge).unwrap();
        let counts = [met.returns, met.answers, met.listed, met.elsewhere];
        assert!(counts.iter().all(|times| *times > 50), "{met:?}");
        assert!(met.full > 20, "{met:?}");
        assert!(by_hand::check(Judge).is_ok());
    }

    /// Faults that show only in a session made by hand.
    const NOT_IN_RUNS: [&str; 12] = [
        "listed-seven",
        "listed-behind",
        "listed-count-above",
        "full-above",
        "full-cut",
        "save-flag-kept",
        "save-phase-kept",
        "save-held-phase",
        "return-flag-one",
        "return-mends-flag",
        "return-mends-phase",
        "return-phase-kept",
    ];

    #[test]
    fn impostors_do_not_meet_card_thirteen() {
        let first = FAULTS.iter().position(|it| it.name == "new-saved").unwrap();
        let last = FAULTS.iter().position(|it| it.name == "return-values").unwrap();
        let faults = &FAULTS[first..=last];
        let meets = |holds: fn(Library) -> bool| -> Vec<&str> {
            let met = faults.iter().filter(|it| holds(Faulty(it.fault)));
            met.map(|planted| planted.name).collect()
        };
        assert_eq!(meets(|library| check(library).is_ok()), [""; 0]);
        assert_eq!(meets(|library| tried(library).is_ok()), NOT_IN_RUNS);
    }
}
