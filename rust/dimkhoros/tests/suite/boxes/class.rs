//! The class: it plays Vic, asks Peggy as many challenges as it can, and reads what it can off the wire and off her file.

use super::courses::{Course, Folder};
use super::programs::{PATIENCE, Running};
use dimkhoros::{Instance, PLACES, Places, Prover, ProverPhase, Round, Verdict};
use std::collections::BTreeSet;
use std::fs;
use std::io::{BufRead, BufReader, Write};
use std::os::unix::net::UnixStream;
use std::path::{Path, PathBuf};

/// The witness that two of these rounds give away.
pub fn extracted(sheet: &Instance, rounds: &[Round]) -> Option<Places> {
    let pairs = rounds.iter().flat_map(|first| rounds.iter().map(move |second| (first, second)));
    pairs.filter_map(|(first, second)| sheet.extract(first, second).ok()).next()
}

/// These numbers, with zeros behind them.
pub fn in_places(numbers: &[u32]) -> Places {
    let mut places = [0; PLACES];
    places[..numbers.len()].copy_from_slice(numbers);
    places
}

/// The word and the numbers of a line.
pub fn read_line(line: &str) -> (&str, Vec<u32>) {
    let mut parts = line.split(' ');
    let word = parts.next().unwrap();
    (word, parts.map(|number| number.parse().unwrap()).collect())
}

/// How a Peggy is brought to an end.
#[derive(Clone, Copy)]
pub enum Until {
    /// At the point of this number.
    Point(u32),
    /// By closing her wire, once she has answered this many times.
    Answers(usize),
}

/// Lines that are not to be answered, T standing for the commitment that Peggy has just sent. A clumsy class asks the challenge 1,
/// so that an answer to one of these is told from an answer to that.
pub const WRONG_LINES: [&str; 18] = [
    "",
    "challenge",
    "challenge T",
    "challenge 2 T",
    "challenge T 2 2",
    "challenge  T 2",
    "challenge T 2 ",
    "challenge T +2",
    "challenge T -2",
    "challenge T 0x2",
    "challenge T 00000000002",
    "challenge T 4294967296",
    "challenge T 65536",
    "challenge T 2\0",
    "challenge T 2\0 2",
    "Challenge T 2",
    "response T 2 2",
    "ready 2",
];

/// How a class plays.
#[derive(Clone, Copy, Debug, PartialEq)]
pub enum Manner {
    /// It asks one challenge whenever it hears a commitment.
    Calm,
    /// It asks on every commitment that it ever heard whenever it hears one, and for another after each response.
    Greedy,
    /// It asks one challenge, and before it sends lines that are none.
    Clumsy,
    /// It is greedy, and puts back a copy of Peggy's file, from when she was committed, each time that she has ended.
    PutsBack,
}

pub struct Class<'a> {
    course: &'a Course,
    peggy: PathBuf,
    manner: Manner,
    pub folder: Folder,
    /// The class's end of the wire, none once it is closed.
    to_peggy: Option<UnixStream>,
    /// Peggy's end of the wire. It stays open, so that the lines that one Peggy did not hear wait for the next.
    peggys_end: UnixStream,
    /// Peggy's file when she was last heard to commit.
    copy: Vec<u8>,
    /// The words that any Peggy sent, and the commitments, in the order in which they were heard first.
    pub words: Vec<String>,
    pub commitments: Vec<Places>,
    /// Every challenge, with the commitment that it named.
    asked: Vec<(Places, u32)>,
    /// The rounds of all responses.
    pub rounds: Vec<Round>,
    /// The witness, where the wire and the file of a Peggy who has ended give it away.
    pub read_off_file: Option<Places>,
}

impl Class<'_> {
    /// A class before a Peggy that never ran.
    pub fn new<'a>(course: &'a Course, peggy: &Path, manner: Manner) -> Class<'a> {
        let (to_peggy, peggys_end) = UnixStream::pair().unwrap();
        Class {
            course,
            peggy: peggy.to_path_buf(),
            manner,
            folder: course.folder(),
            to_peggy: Some(to_peggy),
            peggys_end,
            copy: Vec::new(),
            words: Vec::new(),
            commitments: Vec::new(),
            asked: Vec::new(),
            rounds: Vec::new(),
            read_off_file: None,
        }
    }

    /// Runs a Peggy until she ends, and answers her exit code.
    pub fn run_peggy(&mut self, until: Until) -> Option<i32> {
        let (dies_at, last) = match until {
            Until::Point(number) => (Some(number), None),
            Until::Answers(count) => (None, Some(self.rounds.len() + count)),
        };
        let (ours, theirs) = UnixStream::pair().unwrap();
        ours.set_read_timeout(Some(PATIENCE)).unwrap();
        let ends = (self.peggys_end.try_clone().unwrap(), theirs);
        let mut peggy = Running::start(&self.peggy, &self.folder, None, ends, dies_at);
        for line in BufReader::new(ours).lines() {
            self.hear(&line.expect("Peggy says nothing"));
            if last == Some(self.rounds.len()) {
                self.to_peggy = None;
            }
        }
        let status = peggy.wait();
        self.look_at_files();
        status.code()
    }

    /// Sends a line to Peggy, who may hear it or not.
    pub fn tell(&self, line: &str) {
        if let Some(mut wire) = self.to_peggy.as_ref() {
            wire.write_all(format!("{line}\n").as_bytes()).unwrap();
        }
    }

    /// A commitment as lines have it.
    fn named(&self, commitment: &Places) -> String {
        let numbers = commitment[..self.course.rows()].iter().map(u32::to_string);
        numbers.collect::<Vec<String>>().join(" ")
    }

    /// Asks a challenge on a commitment that was never asked before on any.
    fn ask(&mut self, commitment: Places) {
        let challenge = 1 + self.asked.len() as u32;
        self.tell(&format!("challenge {} {challenge}", self.named(&commitment)));
        self.asked.push((commitment, challenge));
    }

    /// Sends the lines that are not to be answered, and one that is too long.
    fn tell_wrong_lines(&self, commitment: &Places) {
        let named = self.named(commitment);
        for line in WRONG_LINES {
            self.tell(&line.replace('T', &named));
        }
        self.tell(&format!("challenge {named} {}2", "0".repeat(1000)));
    }

    /// Hears a line and says what there is to say to it.
    fn hear(&mut self, line: &str) {
        let (word, numbers) = read_line(line);
        let (commitment, response) = numbers.split_at(self.course.rows());
        let commitment = in_places(commitment);
        self.words.push(word.to_string());
        match word {
            "commitment" => self.take_commitment(commitment),
            "response" => self.take_response(commitment, in_places(response)),
            _ => panic!("Peggy sends {line}"),
        }
        if word == "response" && matches!(self.manner, Manner::Greedy | Manner::PutsBack) {
            self.tell("ready");
        }
    }

    /// Asks on a commitment.
    fn take_commitment(&mut self, commitment: Places) {
        self.copy = fs::read(self.folder.join("session.bin")).unwrap();
        if !self.commitments.contains(&commitment) {
            self.commitments.push(commitment);
        }
        match self.manner {
            Manner::Calm => self.ask(commitment),
            Manner::Clumsy => {
                self.tell_wrong_lines(&commitment);
                self.ask(commitment);
            }
            Manner::Greedy | Manner::PutsBack => {
                self.commitments.clone().into_iter().for_each(|commitment| self.ask(commitment));
            }
        }
    }

    /// Finds the challenge that a response answers.
    fn take_response(&mut self, commitment: Places, response: Places) {
        let asked = self.asked.iter().filter(|(named, _)| *named == commitment);
        let rounds = asked.map(|&(_, challenge)| Round { commitment, challenge, response });
        let is_accepted = |round: &Round| self.course.sheet.judge(round) == Ok(Verdict::Accepted);
        let accepted: Vec<Round> = rounds.filter(is_accepted).collect();
        assert_eq!(accepted.len(), 1, "a response has to answer one challenge");
        self.rounds.extend(accepted);
    }

    /// Looks at what a Peggy who has ended left in her folder. A nonce that stands there is the response to challenge 0.
    fn look_at_files(&mut self) {
        for file in ["session.bin", "session.new"] {
            let bytes = fs::read(self.folder.join(file)).unwrap_or_default();
            let Ok(session) = Prover::from_stored_with_nonce(&bytes) else { continue };
            let parts = session.into_parts();
            if parts.phase == ProverPhase::Committed {
                let (commitment, response) = (parts.commitment, parts.nonce);
                let mut rounds = self.rounds.clone();
                rounds.push(Round { commitment, challenge: 0, response });
                self.read_off_file = self.read_off_file.or(extracted(&self.course.sheet, &rounds));
            }
        }
        if self.manner == Manner::PutsBack && !self.copy.is_empty() {
            fs::write(self.folder.join("session.bin"), &self.copy).unwrap();
        }
    }

    /// The witness, where the lines that were heard give it away.
    pub fn read_off_wire(&self) -> Option<Places> {
        extracted(&self.course.sheet, &self.rounds)
    }

    /// Whether some commitment was answered more than once.
    pub fn heard_two_answers(&self) -> bool {
        let mut answered = BTreeSet::new();
        !self.rounds.iter().all(|round| answered.insert(round.commitment))
    }
}
