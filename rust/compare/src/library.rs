//! The libraries that are compared, and their calls.

use crate::faults::{self, Fault};
use crate::{judged, proved};

pub use dimkhoros_sys::{
    Base, Checked, Compared, Computed, Counted, Entries, Entry, Fetched, Header, Judgement,
    LONGEST_FILE, LONGEST_FILE_2, LONGEST_GAME, LONGEST_REASON, LONGEST_SHEET, LONGEST_TEXT,
    Ledger, LedgerWritten, Line, Listed, Loaded, MOST_ANSWERED, MOST_LINES, MOST_PLAYERS,
    MOST_REMEMBERED, MOST_ROUNDS, Memory, Opened, OrAnswer, OrExtracted, OrJudgement, OrRound,
    OrSession, PARTS, PLACES, Part, Parts, Places, ProverAnswer, ProverSession, Round,
    SAVED_STATES, SHIPPED_PATTERNS, Saved, VerifierAnswer, VerifierJudgement, VerifierSession,
    Watch, WatchAnswer, Written, lines, phases,
};

/// The numbers that the sheet maker takes. The pattern number 0 is that of root
/// sheets.
#[derive(Clone, Copy, Debug, Default, PartialEq, Eq)]
pub struct Plan {
    pub number: u32,
    pub modulus: u32,
    pub order: u32,
    pub challenges: u32,
}

impl Plan {
    /// The fixed fields, with one row and one column.
    pub fn header(&self) -> Header {
        Header {
            kind: if self.number == 0 { 2 } else { 1 },
            modulus: self.modulus,
            order: self.order,
            challenges: self.challenges,
            rows: 1,
            columns: 1,
        }
    }
}

/// What the maker of sheets from linear forms takes, but for the buffer. The header's
/// kind is 1, and no call is told it.
#[derive(Clone, Debug, PartialEq, Eq)]
pub struct Forms {
    pub header: Header,
    pub generators: Vec<u32>,
    /// By row, then generator, then column.
    pub coefficients: Vec<u32>,
    pub statement: Vec<u32>,
}

/// A library that answers the calls.
#[derive(Clone, Copy, Debug, PartialEq, Eq)]
pub enum Library {
    Proved,
    Judge,
    /// The judge with a planted fault.
    Faulty(Fault),
}

/// Makes a method for each call, which goes to the function of its name in the
/// library's module.
macro_rules! calls {
    ($($name:ident($($argument:ident: $type:ty),*) -> $answer:ty;)*) => {
        #[allow(clippy::wrong_self_convention, reason = "from_pattern is the name of a call")]
        #[allow(clippy::too_many_arguments, reason = "the calls take these")]
        impl Library {
            $(pub fn $name(self, $($argument: $type),*) -> $answer {
                match self {
                    Library::Proved => proved::$name($($argument),*),
                    Library::Judge => judged::$name($($argument),*),
                    Library::Faulty(fault) => faults::$name(fault, $($argument),*),
                }
            })*
        }
    };
}

// Entries are 64 numbers: row i, column j at place 8 i + j. The marker's text,
// the reason's line and the game's text are put at the start of `text`, and their
// length is answered.
calls! {
    load(sheet: &[u8]) -> Loaded;
    entries(sheet: &[u8], entries: &mut [u32; 64]) -> u32;
    encode(header: Header, entries: &[u32; 64], statement: &Places, buffer: &mut [u8]) -> Written;
    patterns(buffer: &mut [u8]) -> Written;
    from_pattern(
        patterns: &[u8], plan: Plan, values: &[u32], statement: &[u32], buffer: &mut [u8]
    ) -> Written;
    linear(forms: &Forms, buffer: &mut [u8]) -> Written;

    count(sheet: &[u8], file: &[u8]) -> Counted;
    check(sheet: &[u8], file: &[u8], number: usize) -> u32;
    part(sheet: &[u8], file: &[u8], number: usize) -> Part;
    read(sheet: &[u8], file: &[u8], number: usize) -> Fetched;
    same_commitment(sheet: &[u8], file: &[u8], i: usize, j: usize) -> Compared;
    empty(version: u32, buffer: &mut [u8]) -> Written;
    append(sheet: &[u8], buffer: &mut [u8], used: usize, round: &Round) -> Written;
    convert(sheet: &[u8], file: &[u8], buffer: &mut [u8]) -> Written;

    judge(sheet: &[u8], round: &Round) -> Judgement;
    simulate(sheet: &[u8], challenge: u32, response: &Places) -> Computed;
    extract(sheet: &[u8], first: &Round, second: &Round) -> Computed;

    or_judge(first: &[u8], second: &[u8], round: &OrRound) -> OrJudgement;
    or_extract(first: &[u8], second: &[u8], a: &OrRound, b: &OrRound) -> OrExtracted;

    team_commitment(sheet: &[u8], count: u32, images: &Parts, commitments: &Parts) -> Computed;
    team_response(sheet: &[u8], count: u32, images: &Parts, responses: &Parts) -> Computed;

    watch_open(sheet: &[u8]) -> Opened;
    watch_round(sheet: &[u8], watch: &Watch, round: &Round) -> WatchAnswer;

    ledger_check(base: Base, ledger: &Ledger) -> Checked;
    ledger_write(base: Base, entries: &Entries) -> LedgerWritten;

    prover_new() -> ProverSession;
    prover_commit(sheet: &[u8], session: ProverSession, nonce: &Places) -> ProverAnswer;
    prover_respond(
        sheet: &[u8], session: ProverSession, challenge: u32, witness: &Places
    ) -> ProverAnswer;
    prover_drop(session: ProverSession) -> ProverAnswer;
    prover_save(session: ProverSession, name: u32) -> ProverAnswer;
    prover_return(session: ProverSession, name: u32) -> ProverAnswer;

    verifier_new() -> VerifierSession;
    verifier_commitment(
        sheet: &[u8], session: VerifierSession, commitment: &Places
    ) -> VerifierAnswer;
    verifier_challenge(sheet: &[u8], session: VerifierSession, challenge: u32) -> VerifierAnswer;
    verifier_response(
        sheet: &[u8], session: VerifierSession, response: &Places
    ) -> VerifierJudgement;

    or_prover_new() -> OrSession;
    or_prover_commit(
        first: &[u8], second: &[u8], session: OrSession, side: u32, nonce: &Places,
        challenge: u32, response: &Places
    ) -> OrAnswer;
    or_prover_respond(
        first: &[u8], second: &[u8], session: OrSession, challenge: u32, witness: &Places
    ) -> OrAnswer;
    or_prover_drop(session: OrSession) -> OrAnswer;

    mark(sheet: &[u8], file: &[u8], level: &[u8], text: &mut [u8; LONGEST_TEXT]) -> usize;
    reason(sheet: &[u8], file: &[u8], text: &mut [u8; LONGEST_REASON]) -> usize;
    game(sheet: &[u8], file: &[u8], text: &mut [u8; LONGEST_GAME]) -> usize;
}
