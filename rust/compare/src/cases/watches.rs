//! Rounds that are given to a watch, one by one.

use std::fmt;

use crate::calls::Call;
use crate::cases::Case;
use crate::library::{Header, Library, Places, Round, Watch};
use crate::outcome::{Answer, Outcome};
use crate::printing::{hex, watch};
use crate::sheets;

/// Where the first watch comes from.
#[derive(Debug)]
pub enum Start {
    /// It is opened on these bytes.
    Opened(Vec<u8>),
    /// It is made by hand.
    Made(Box<Watch>),
}

/// A round, and the sheet that is handed in with it.
#[derive(Clone, Debug)]
pub struct WatchStep {
    pub sheet: Vec<u8>,
    pub round: Round,
}

/// Rounds that are each given to the watch that the last call handed back.
#[derive(Debug)]
pub struct WatchCase {
    pub start: Start,
    pub steps: Vec<WatchStep>,
}

impl WatchCase {
    /// The bytes that the calls are handed, in their order.
    fn sheets(&self) -> impl Iterator<Item = &Vec<u8>> {
        let opened = match &self.start {
            Start::Opened(sheet) => Some(sheet),
            Start::Made(_) => None,
        };
        let steps = self.steps.iter().map(|step| &step.sheet);
        opened.into_iter().chain(steps)
    }
}

impl Case for WatchCase {
    fn run(&self, library: Library) -> Outcome {
        let mut answers = Vec::with_capacity(1 + self.steps.len());
        let mut held = match &self.start {
            Start::Opened(sheet) => {
                let opened = library.watch_open(sheet);
                answers.push((Call::WatchOpen, Answer::Opened(Box::new(opened))));
                opened.watch
            }
            Start::Made(made) => **made,
        };
        for WatchStep { sheet, round } in &self.steps {
            let answer = Box::new(library.watch_round(sheet, &held, round));
            held = answer.watch;
            answers.push((Call::WatchRound, Answer::Watched(answer)));
        }
        Outcome { answers, memory: Vec::new() }
    }

    /// Calls that are handed different sheets have no fixed fields together.
    fn header(&self) -> Option<Header> {
        let mut sheets = self.sheets();
        let first = sheets.next()?;
        if sheets.all(|other| other == first) { sheets::header(first) } else { None }
    }

    fn slots(&self) -> Vec<Places> {
        let steps = self.steps.iter();
        steps.map(|step| step.round.response).collect()
    }
}

impl fmt::Display for WatchCase {
    fn fmt(&self, out: &mut fmt::Formatter) -> fmt::Result {
        match &self.start {
            Start::Opened(sheet) => write!(out, "a watch opened on {}", hex(sheet))?,
            Start::Made(made) => write!(out, "a watch made by hand\n    {}", watch(made))?,
        }
        for WatchStep { sheet, round } in &self.steps {
            write!(out, "\n    sheet {}\n    {round:x?}", hex(sheet))?;
        }
        Ok(())
    }
}
