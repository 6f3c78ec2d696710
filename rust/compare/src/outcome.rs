//! What a case comes to: the answers of its calls and the memory it was lent.

use crate::calls::Call;
use crate::library::{
    Checked, Compared, Computed, Counted, Fetched, Judgement, LedgerWritten, Loaded, Opened,
    OrAnswer, OrExtracted, OrJudgement, OrSession, Part, ProverAnswer, ProverSession,
    VerifierAnswer, VerifierJudgement, VerifierSession, WatchAnswer, Written,
};

/// What a call answers.
#[derive(Clone, Debug, PartialEq, Eq)]
pub enum Answer {
    Loaded(Loaded),
    /// The answered number, and the numbers in the lent array.
    Entries {
        refusal: u32,
        numbers: Vec<u32>,
    },
    Written(Written),
    Counted(Counted),
    Checked(u32),
    Part(Part),
    Fetched(Fetched),
    Compared(Compared),
    Judged(Judgement),
    Computed(Computed),
    OrJudged(OrJudgement),
    OrExtracted(OrExtracted),
    Opened(Box<Opened>),
    Watched(Box<WatchAnswer>),
    LedgerChecked(Checked),
    LedgerWritten(Box<LedgerWritten>),
    ProverNew(Box<ProverSession>),
    Prover(Box<ProverAnswer>),
    VerifierNew(VerifierSession),
    Verifier(VerifierAnswer),
    VerifierJudged(VerifierJudgement),
    OrProverNew(OrSession),
    OrProver(OrAnswer),
    /// The answered length, and the text of that length in the lent bytes.
    Told {
        length: usize,
        text: String,
    },
}

/// What a round that is not refused comes to: accepted, or the masks of the rows of
/// side 0 and of side 1 in which it is rejected. A round of one sheet has side 0.
#[derive(Clone, Copy, Debug, PartialEq, Eq)]
pub enum Verdict {
    Accepted,
    Rejected([u32; 2]),
}

/// The answer of each call of a case, and the memory around and in the lent
/// buffer after it.
#[derive(Clone, Debug, PartialEq, Eq)]
pub struct Outcome {
    pub answers: Vec<(Call, Answer)>,
    pub memory: Vec<u8>,
}

impl Answer {
    /// The refusal's number, 0 for none and for an answer that has none.
    pub fn refusal(&self) -> u32 {
        match self {
            Answer::Loaded(loaded) => loaded.refusal,
            Answer::Written(written) => written.refusal,
            Answer::Counted(counted) => counted.refusal,
            Answer::Checked(number) => *number,
            Answer::Entries { refusal, .. } => *refusal,
            Answer::Fetched(fetched) => fetched.refusal,
            Answer::Compared(compared) => compared.refusal,
            Answer::Judged(judgement) => judgement.refusal,
            Answer::Computed(computed) => computed.refusal,
            Answer::OrJudged(judgement) => judgement.refusal,
            Answer::OrExtracted(extracted) => extracted.refusal,
            Answer::Opened(opened) => opened.refusal,
            Answer::Watched(answer) => answer.verdict.refusal,
            Answer::LedgerChecked(checked) => checked.refusal,
            Answer::LedgerWritten(written) => written.refusal,
            Answer::Prover(answer) => answer.refusal,
            Answer::Verifier(answer) => answer.refusal,
            Answer::VerifierJudged(answer) => answer.verdict.refusal,
            Answer::OrProver(answer) => answer.refusal,
            Answer::Told { text, .. } => refusal_in(text),
            Answer::Part(_)
            | Answer::ProverNew(_)
            | Answer::VerifierNew(_)
            | Answer::OrProverNew(_) => 0,
        }
    }

    /// The verdicts of an answer: one where it has one and is not refused, and one
    /// for each such round of a marker's text.
    pub fn verdicts(&self) -> Vec<Verdict> {
        let (accepted, rows) = match self {
            Answer::Judged(verdict) => (verdict.accepted, [verdict.rows, 0]),
            Answer::VerifierJudged(answer) => (answer.verdict.accepted, [answer.verdict.rows, 0]),
            Answer::Watched(answer) => (answer.verdict.accepted, [answer.verdict.rows, 0]),
            Answer::OrJudged(verdict) => (verdict.accepted, [verdict.rows0, verdict.rows1]),
            Answer::Told { text, .. } => return text.lines().filter_map(verdict_in).collect(),
            _ => return Vec::new(),
        };
        let verdict = match accepted {
            1 => Verdict::Accepted,
            _ => Verdict::Rejected(rows),
        };
        (self.refusal() == 0).then_some(verdict).into_iter().collect()
    }
}

/// The first number in a text that a sheet, a file, a level or a round is
/// refused with, 0 where there is none.
fn refusal_in(text: &str) -> u32 {
    let words: Vec<&str> = text.split_whitespace().collect();
    let refused = |word: &str| ["sheet", "file", "level", "refused"].contains(&word);
    let found = words.windows(2).find(|pair| refused(pair[0]));
    found.and_then(|pair| pair[1].parse().ok()).unwrap_or(0)
}

/// The verdict that a reason's line begins with, or that stands behind the number
/// of a round in a marker's line.
fn verdict_in(line: &str) -> Option<Verdict> {
    let words: Vec<&str> = line.split_whitespace().collect();
    let rejected = |rows: &mut dyn Iterator<Item = &&str>| {
        let rows = rows.filter_map(|row| row.parse::<u32>().ok());
        Some(Verdict::Rejected([rows.map(|row| 1 << row).sum(), 0]))
    };
    match &words[..] {
        ["accepted"] | [_, "accepted"] => Some(Verdict::Accepted),
        ["rejected", told @ ..] => rejected(&mut told.iter().step_by(3)),
        [_, "rejected", rows @ ..] => rejected(&mut rows.iter()),
        _ => None,
    }
}

impl Outcome {
    /// The outcome of one call that is lent nothing.
    pub fn of(call: Call, answer: Answer) -> Outcome {
        Outcome::with_memory(call, answer, Vec::new())
    }

    /// The outcome of one call, with the memory after it.
    pub fn with_memory(call: Call, answer: Answer, memory: Vec<u8>) -> Outcome {
        Outcome { answers: vec![(call, answer)], memory }
    }
}

#[cfg(test)]
mod tests {
    use super::*;

    #[test]
    fn a_text_has_the_number_of_its_first_refusal() {
        assert_eq!(refusal_in("sheet 8\n"), 8);
        assert_eq!(refusal_in("file 12\n"), 12);
        assert_eq!(refusal_in("level 25\n"), 25);
        assert_eq!(refusal_in("rounds 0\nfail\n"), 0);
        assert_eq!(refusal_in("rounds 1\n0 rejected 0 7\nfail\n"), 0);
        let text = "rounds 3\n0 accepted\n1 refused 14\n2 refused 15\nfail\n";
        assert_eq!(refusal_in(text), 14);
        assert_eq!(refusal_in("refused 10 24\n"), 10);
        assert_eq!(refusal_in("refused 9 length 400\n"), 9);
        assert_eq!(refusal_in("rejected 7 4 2\n"), 0);
    }

    #[test]
    fn a_reasons_line_has_a_verdict_and_so_has_a_round_of_a_markers_text() {
        let verdicts = |text: &str| {
            let (length, text) = (text.len(), text.to_string());
            Answer::Told { length, text }.verdicts()
        };
        let rejected = |rows| Verdict::Rejected([rows, 0]);
        assert_eq!(verdicts("accepted\n"), [Verdict::Accepted]);
        assert_eq!(verdicts("rejected 7 4 2\n"), [rejected(128)]);
        assert_eq!(verdicts("rejected 0 16 4 2 16 4\n"), [rejected(5)]);
        assert_eq!(verdicts("refused 14 7\n"), []);
        let text = "rounds 3\n0 accepted\n1 rejected 0 2 7\n2 refused 14\nfail\n";
        assert_eq!(verdicts(text), [Verdict::Accepted, rejected(133)]);
        assert_eq!(verdicts("level 25\n"), []);
    }
}
