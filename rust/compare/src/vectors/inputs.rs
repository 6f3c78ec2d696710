//! The inputs on a line of the vectors: words NAME=VALUE, each of which is to
//! be taken once.

use std::iter::repeat_n;
use std::str::FromStr;

use super::bytes;
use crate::ledgers::{entry_of, line_of};
use crate::library::phases::{prover, verifier};
use crate::library::{
    Base, Entries, Forms, Header, LONGEST_SHEET, Ledger, Listed, MOST_ANSWERED, MOST_LINES,
    MOST_REMEMBERED, Memory, OrRound, OrSession, Places, ProverSession, Round, Saved,
    VerifierSession, Watch,
};

/// What stands in places that no call may read.
pub const UNREAD: u32 = 99;

/// The names of a session's phases, with their numbers.
pub type Phases = [(&'static str, u32); 4];

pub const PROVER_PHASES: Phases = [
    ("new", prover::NEW),
    ("committed", prover::COMMITTED),
    ("answered", prover::ANSWERED),
    ("dropped", prover::DROPPED),
];

pub const VERIFIER_PHASES: Phases = [
    ("waiting", verifier::WAITING),
    ("holding", verifier::HOLDING),
    ("asked", verifier::ASKED),
    ("judged", verifier::JUDGED),
];

/// Inputs by name, in the order of the line.
pub struct Inputs<'a>(Vec<(&'a str, &'a str)>);

impl<'a> Inputs<'a> {
    pub fn read(words: &'a str) -> Result<Inputs<'a>, String> {
        let pair =
            |word: &'a str| word.split_once('=').ok_or_else(|| format!("{word} has no value"));
        let pairs: Result<Vec<_>, _> = words.split_whitespace().map(pair).collect();
        Ok(Inputs(pairs?))
    }

    /// Every input has been taken.
    pub fn end(&self) -> Result<(), String> {
        match self.0.first() {
            None => Ok(()),
            Some((name, _)) => Err(format!("{name} is no input of this call")),
        }
    }

    /// Takes the value of this name.
    fn value(&mut self, name: &str) -> Result<&'a str, String> {
        let place = self.0.iter().position(|(found, _)| *found == name);
        let place = place.ok_or_else(|| format!("{name} is missing"))?;
        Ok(self.0.remove(place).1)
    }

    pub fn number<T: FromStr>(&mut self, name: &str) -> Result<T, String> {
        number(self.value(name)?)
    }

    pub fn bytes(&mut self, name: &str) -> Result<Vec<u8>, String> {
        bytes::read(self.value(name)?)
    }

    /// Whether there is an input of this name that is not taken yet.
    fn has(&self, name: &str) -> bool {
        self.0.iter().any(|(found, _)| *found == name)
    }

    pub fn list(&mut self, name: &str) -> Result<Vec<u32>, String> {
        numbers(self.value(name)?)
    }

    /// Eight places: a list, and in the places behind it this number.
    fn places(&mut self, name: &str, beyond: u32) -> Result<Places, String> {
        let mut places = [beyond; 8];
        fill(&mut places, &self.list(name)?)?;
        Ok(places)
    }

    /// The values that a call is handed.
    pub fn brought(&mut self, name: &str) -> Result<Places, String> {
        self.places(name, UNREAD)
    }

    /// 64 numbers, given row by row with a slash between rows.
    pub fn table(&mut self, name: &str) -> Result<[u32; 64], String> {
        let mut table = [UNREAD; 64];
        let rows = self.value(name)?.split('/');
        for (place, row) in rows.enumerate() {
            let places = table.chunks_mut(8).nth(place).ok_or("there are over eight rows")?;
            fill(places, &numbers(row)?)?;
        }
        Ok(table)
    }

    pub fn header(&mut self) -> Result<Header, String> {
        let kind = self.number("kind")?;
        self.header_of(kind)
    }

    /// The fixed fields of a sheet of this kind.
    fn header_of(&mut self, kind: u32) -> Result<Header, String> {
        Ok(Header {
            kind,
            modulus: self.number("m")?,
            order: self.number("l")?,
            challenges: self.number("K")?,
            rows: self.number("s")?,
            columns: self.number("n")?,
        })
    }

    /// What the maker of sheets from linear forms takes. The coefficients of one row and
    /// generator have a slash behind them, and `-` is none.
    pub fn forms(&mut self) -> Result<Forms, String> {
        let mut forms = Forms {
            header: self.header_of(1)?,
            generators: self.list("generators")?,
            coefficients: Vec::new(),
            statement: self.list("z")?,
        };
        for form in self.value("coefficients")?.split('/') {
            forms.coefficients.extend(numbers(form)?);
        }
        Ok(forms)
    }

    /// The round of t, c and r, or of t2, c2 and r2.
    pub fn round(&mut self, behind: &str) -> Result<Round, String> {
        Ok(Round {
            commitment: self.brought(&format!("t{behind}"))?,
            challenge: self.number(&format!("c{behind}"))?,
            response: self.brought(&format!("r{behind}"))?,
        })
    }

    /// The round of t0, t1, c, c0, r0 and r1, or of t0_2 and so on.
    pub fn or_round(&mut self, behind: &str) -> Result<OrRound, String> {
        let name = |name: &str| format!("{name}{behind}");
        Ok(OrRound {
            commitment0: self.brought(&name("t0"))?,
            commitment1: self.brought(&name("t1"))?,
            response0: self.brought(&name("r0"))?,
            response1: self.brought(&name("r1"))?,
            challenge: self.number(&name("c"))?,
            challenge0: self.number(&name("c0"))?,
        })
    }

    fn phase(&mut self, phases: Phases) -> Result<u32, String> {
        phase(phases, self.value("phase")?)
    }

    pub fn prover(&mut self) -> Result<ProverSession, String> {
        Ok(ProverSession {
            phase: self.phase(PROVER_PHASES)?,
            nonce: self.places("nonce", 0)?,
            commitment: self.places("commitment", 0)?,
            memory: self.memory()?,
        })
    }

    /// What Peggy's session remembers. The list's count is that of the commitments on the
    /// line if it does not say otherwise.
    fn memory(&mut self) -> Result<Memory, String> {
        let mut memory = Memory::default();
        if self.has("saved") {
            for piece in self.value("saved")?.split('/') {
                let (name, state) = saved(piece)?;
                let place = memory.saved.get_mut(name);
                *place.ok_or_else(|| format!("{name} is no name"))? = state;
            }
        }
        if self.has("listed") {
            let listed = listed(self.value("listed")?)?;
            fill(&mut memory.answered, &listed)?;
            memory.count = listed.len() as u32;
        }
        if self.has("count") {
            memory.count = self.number("count")?;
        }
        Ok(memory)
    }

    pub fn or_prover(&mut self) -> Result<OrSession, String> {
        Ok(OrSession {
            nonce: self.places("nonce", 0)?,
            response: self.places("response", 0)?,
            commitment0: self.places("commitment0", 0)?,
            commitment1: self.places("commitment1", 0)?,
            challenge: self.number("challenge")?,
            side: self.number("side")?,
            phase: self.phase(PROVER_PHASES)?,
        })
    }

    pub fn verifier(&mut self) -> Result<VerifierSession, String> {
        Ok(VerifierSession {
            phase: self.phase(VERIFIER_PHASES)?,
            commitment: self.places("commitment", 0)?,
            challenge: self.number("challenge")?,
        })
    }

    /// A watch, which holds this sheet and its length if the line does not say
    /// otherwise.
    pub fn watch(&mut self, sheet: &[u8]) -> Result<Watch, String> {
        let mut watch = Watch {
            rounds: [Round::default(); MOST_REMEMBERED],
            sheet: [0; LONGEST_SHEET],
            length: sheet.len() as u32,
            count: self.number("count")?,
        };
        if self.has("length") {
            watch.length = self.number("length")?;
        }
        let held = if self.has("held") { self.bytes("held")? } else { sheet.to_vec() };
        fill(&mut watch.sheet, &held)?;
        fill(&mut watch.rounds, &rounds(self.value("rounds")?)?)?;
        Ok(watch)
    }

    /// What the lines of a ledger share.
    pub fn base(&mut self) -> Result<Base, String> {
        Ok(Base {
            g: self.number("g")?,
            h: self.number("h")?,
            modulus: self.number("m")?,
            order: self.number("l")?,
            challenges: self.number("K")?,
        })
    }

    /// The lists of this name, and how many they are if the line does not say otherwise.
    fn counted<const N: usize>(
        &mut self,
        name: &str,
    ) -> Result<([[u32; N]; MOST_LINES], u32), String> {
        let (found, mut all) = (lists(self.value(name)?)?, [[0; N]; MOST_LINES]);
        fill(&mut all, &found)?;
        let count = if self.has("count") { self.number("count")? } else { found.len() as u32 };
        Ok((all, count))
    }

    pub fn ledger(&mut self) -> Result<Ledger, String> {
        let (lines, count) = self.counted("lines")?;
        Ok(Ledger { lines: lines.map(line_of), count })
    }

    /// What a ledger is made of.
    pub fn entries(&mut self) -> Result<Entries, String> {
        let (entries, count) = self.counted("entries")?;
        Ok(Entries { entries: entries.map(entry_of), count })
    }
}

/// A phase by name, or any number.
fn phase(phases: Phases, word: &str) -> Result<u32, String> {
    match phases.iter().find(|(name, _)| *name == word) {
        Some((_, number)) => Ok(*number),
        None => word.parse().map_err(|_| format!("{word} is no phase")),
    }
}

/// A state with its name: name, phase, nonce and commitment with colons between them, and
/// the flag if it is not 1.
fn saved(text: &str) -> Result<(usize, Saved), String> {
    let parts: Vec<&str> = text.split(':').collect();
    let (name, held, kept) = match parts[..] {
        [name, phase, nonce, commitment] => (name, [phase, nonce, commitment], 1),
        [name, phase, nonce, commitment, kept] => (name, [phase, nonce, commitment], number(kept)?),
        _ => return Err(format!("{text} is no saved state")),
    };
    let mut saved = Saved { phase: phase(PROVER_PHASES, held[0])?, kept, ..Saved::default() };
    fill(&mut saved.nonce, &numbers(held[1])?)?;
    fill(&mut saved.commitment, &numbers(held[2])?)?;
    Ok((number(name)?, saved))
}

/// Listed commitments, with a slash between them. So many times the same is one with its
/// count.
fn listed(text: &str) -> Result<Vec<Listed>, String> {
    let mut all = Vec::new();
    for piece in text.split('/') {
        let (values, count) = piece.split_once('*').unwrap_or((piece, "1"));
        let mut listed = Listed::default();
        fill(&mut listed.commitment, &numbers(values)?)?;
        let count = number::<usize>(count)?.min(MOST_ANSWERED + 1);
        all.extend(repeat_n(listed, count));
    }
    Ok(all)
}

/// The rounds that a watch remembers: t:c:r, with a slash between them. So many times
/// the same is one with its count, and `-` is none.
fn rounds(text: &str) -> Result<Vec<Round>, String> {
    let mut rounds = Vec::new();
    for piece in text.split('/').filter(|_| text != "-") {
        let (round, count) = piece.split_once('*').unwrap_or((piece, "1"));
        let parts: Vec<&str> = round.split(':').collect();
        let [t, c, r] = parts[..] else {
            return Err(format!("{piece} is no round"));
        };
        let mut round = Round { challenge: number(c)?, ..Round::default() };
        fill(&mut round.commitment, &numbers(t)?)?;
        fill(&mut round.response, &numbers(r)?)?;
        let count = number::<usize>(count)?.min(MOST_REMEMBERED + 1);
        rounds.extend(repeat_n(round, count));
    }
    Ok(rounds)
}

/// Lists of numbers, which go on with zeros, with a slash between them. So many times the
/// same is one with its count, and `-` is none.
fn lists<const N: usize>(text: &str) -> Result<Vec<[u32; N]>, String> {
    let mut lists = Vec::new();
    for piece in text.split('/').filter(|_| text != "-") {
        let (values, count) = piece.split_once('*').unwrap_or((piece, "1"));
        let mut list = [0; N];
        fill(&mut list, &numbers(values)?)?;
        let count = number::<usize>(count)?.min(MOST_LINES + 1);
        lists.extend(repeat_n(list, count));
    }
    Ok(lists)
}

fn number<T: FromStr>(word: &str) -> Result<T, String> {
    word.parse().map_err(|_| format!("{word} is no number"))
}

/// A list of numbers, in which `-` is none.
fn numbers(text: &str) -> Result<Vec<u32>, String> {
    if text == "-" {
        return Ok(Vec::new());
    }
    text.split(',').map(number).collect()
}

/// Puts a list at the start of some places.
fn fill<T: Copy>(places: &mut [T], list: &[T]) -> Result<(), String> {
    let start = places.get_mut(..list.len());
    start.ok_or("a list is too long")?.copy_from_slice(list);
    Ok(())
}
