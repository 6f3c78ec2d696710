//! The answers of calls as the vectors have them: `refused N`, or the answer's
//! values. A refused call that changed anything, or answered a value beside its
//! number, is told apart.

use super::Given;
use super::bytes;
use super::inputs::{Inputs, Phases, UNREAD, VERIFIER_PHASES};
use super::ledger_answers;
use super::or_answers;
use super::prover_answers::prover;
use crate::calls::Call;
use crate::lent::{self, AROUND};
use crate::library::{
    Compared, Computed, Counted, Fetched, Judgement, LONGEST_REASON, LONGEST_TEXT, Library, Loaded,
    Plan, VerifierSession, Written,
};

/// A refusal, or the answer of a call that is carried out. `clean` says that a
/// refused call has left all as it was and has zeros beside its number.
pub fn told(refusal: u32, clean: bool, answer: impl FnOnce() -> String) -> String {
    match (refusal, clean) {
        (0, _) => answer(),
        (number, true) => format!("refused {number}"),
        (number, false) => format!("refused {number} and changed"),
    }
}

/// The values of these places that are in use, and those behind them up to the
/// last that is not 0.
pub fn list(places: &[u32], used: usize) -> String {
    let last = places.iter().rposition(|value| *value != 0);
    let shown = used.max(last.map_or(1, |last| last + 1)).min(places.len());
    let words: Vec<String> = places[..shown].iter().map(u32::to_string).collect();
    words.join(",")
}

/// The name of a phase, or its number where it has none.
pub fn phase(phases: Phases, number: u32) -> String {
    let named = phases.iter().find(|(_, of)| *of == number);
    named.map_or(number.to_string(), |(name, _)| name.to_string())
}

/// What Vic's session holds.
fn verifier(session: &VerifierSession) -> String {
    let (commitment, challenge) = (list(&session.commitment, 1), session.challenge);
    let phase = phase(VERIFIER_PHASES, session.phase);
    format!("phase={phase} commitment={commitment} challenge={challenge}")
}

/// The rows of a mask, rising.
pub fn rows(mask: u32) -> Vec<String> {
    let rows = (0..u32::BITS).filter(|row| mask >> row & 1 == 1);
    rows.map(|row| row.to_string()).collect()
}

/// A verdict in words.
pub fn verdict(judgement: Judgement) -> String {
    let mut words = rows(judgement.rows);
    words.insert(
        0,
        match judgement.accepted {
            1 => "accepted".to_string(),
            _ => "rejected".to_string(),
        },
    );
    words.join(" ")
}

/// A buffer that a call was lent, and what it answered.
fn written(answer: Written, before: &[u8], after: &[u8]) -> String {
    told(answer.refusal, answer.length == 0 && before == after, || {
        format!("length={} buffer={}", answer.length, bytes::text(after))
    })
}

/// The maker of sheets from linear forms, which is given no sheet and no file.
fn linear(library: Library, inputs: &mut Inputs) -> Result<String, String> {
    let (before, forms) = (inputs.bytes("buffer")?, inputs.forms()?);
    let mut after = before.clone();
    let answer = library.linear(&forms, &mut after);
    Ok(written(answer, &before, &after))
}

/// The rows s and the columns n of a sheet, as its bytes have them.
pub fn sizes(sheet: &[u8]) -> (usize, usize) {
    let byte = |place: usize| sheet.get(place).map_or(0, |byte| usize::from(*byte).min(8));
    (byte(18), byte(19))
}

impl Given {
    /// The rows and the columns of the sheet.
    pub fn sizes(&self) -> (usize, usize) {
        sizes(&self.sheet)
    }

    /// What the library answers to a call.
    pub fn answer(
        &self,
        library: Library,
        call: Call,
        inputs: &mut Inputs,
    ) -> Result<String, String> {
        match call {
            Call::Load => Ok(self.load(library)),
            Call::Entries => Ok(self.entries(library)),
            Call::Encode | Call::FromPattern => self.sheet_writer(library, call, inputs),
            Call::Linear => linear(library, inputs),
            Call::Count | Call::Check | Call::Part | Call::Read => {
                self.reader(library, call, inputs)
            }
            Call::SameCommitment => self.same_commitment(library, inputs),
            Call::Patterns | Call::Empty | Call::Append | Call::Convert => {
                self.file_writer(library, call, inputs)
            }
            Call::Judge | Call::Simulate | Call::Extract => self.round(library, call, inputs),
            Call::ProverNew => Ok(prover(&library.prover_new())),
            Call::ProverCommit | Call::ProverRespond | Call::ProverDrop => {
                self.prover_step(library, call, inputs)
            }
            Call::ProverSave | Call::ProverReturn => self.prover_step(library, call, inputs),
            Call::VerifierNew => Ok(verifier(&library.verifier_new())),
            Call::VerifierCommitment | Call::VerifierChallenge | Call::VerifierResponse => {
                self.verifier_step(library, call, inputs)
            }
            Call::OrJudge | Call::OrExtract => self.or_round(library, call, inputs),
            Call::TeamCommitment | Call::TeamResponse => self.team(library, call, inputs),
            Call::WatchOpen => Ok(self.watch_open(library)),
            Call::WatchRound => self.watch_round(library, inputs),
            Call::LedgerCheck | Call::LedgerWrite => ledger_answers::answer(library, call, inputs),
            Call::OrProverNew => Ok(or_answers::session(&library.or_prover_new())),
            Call::OrProverCommit | Call::OrProverRespond | Call::OrProverDrop => {
                self.or_prover_step(library, call, inputs)
            }
            Call::Mark => Ok(self.mark(library, &inputs.bytes("level")?)),
            Call::Reason => Ok(self.reason(library)),
            Call::Game => Ok(self.game(library)),
        }
    }

    fn load(&self, library: Library) -> String {
        let loaded = library.load(&self.sheet);
        let Loaded { header, statement, refusal } = loaded;
        let clean = loaded == Loaded { refusal, ..Loaded::default() };
        told(refusal, clean, || {
            let z = list(&statement, self.sizes().0);
            let (kind, m, l, k) = (header.kind, header.modulus, header.order, header.challenges);
            let (s, n) = (header.rows, header.columns);
            format!("kind={kind} m={m} l={l} K={k} s={s} n={n} z={z}")
        })
    }

    /// The rows of a table have a slash between them. Places outside the sheet's
    /// rows and columns are shown where one of them is not 0.
    fn entries(&self, library: Library) -> String {
        let mut entries = [UNREAD; 64];
        let refusal = library.entries(&self.sheet, &mut entries);
        told(refusal, entries == [UNREAD; 64], || {
            let (s, n) = self.sizes();
            let outside = |place: usize| place / 8 >= s || place % 8 >= n;
            let all = (0..64).any(|place| outside(place) && entries[place] != 0);
            let (s, n) = if all { (8, 8) } else { (s, n) };
            let rows = entries.chunks(8).take(s).map(|row| list(&row[..n], n));
            format!("entries={}", rows.collect::<Vec<_>>().join("/"))
        })
    }

    fn reader(&self, library: Library, call: Call, inputs: &mut Inputs) -> Result<String, String> {
        let (sheet, file) = (&self.sheet, &self.file);
        if call == Call::Count {
            let Counted { count, refusal } = library.count(sheet, file);
            return Ok(told(refusal, count == 0, || format!("count={count}")));
        }
        let round = inputs.number("round")?;
        if call == Call::Check {
            return Ok(told(library.check(sheet, file, round), true, || "0".to_string()));
        }
        if call == Call::Part {
            let part = library.part(sheet, file, round);
            return Ok(format!("offset={} length={}", part.offset, part.length));
        }
        let fetched = library.read(sheet, file, round);
        let Fetched { round, refusal } = fetched;
        let clean = fetched == Fetched { refusal, ..Fetched::default() };
        let (s, n) = self.sizes();
        Ok(told(refusal, clean, || {
            let (t, r) = (list(&round.commitment, s), list(&round.response, n));
            format!("t={t} c={} r={r}", round.challenge)
        }))
    }

    fn same_commitment(&self, library: Library, inputs: &mut Inputs) -> Result<String, String> {
        let (i, j) = (inputs.number("i")?, inputs.number("j")?);
        let Compared { same, refusal } = library.same_commitment(&self.sheet, &self.file, i, j);
        Ok(told(refusal, same == 0, || format!("same={same}")))
    }

    /// The second writer of sheets, and the maker from patterns.
    fn sheet_writer(
        &self,
        library: Library,
        call: Call,
        inputs: &mut Inputs,
    ) -> Result<String, String> {
        let before = inputs.bytes("buffer")?;
        let mut after = before.clone();
        let answer = if call == Call::Encode {
            let (header, entries) = (inputs.header()?, inputs.table("entries")?);
            library.encode(header, &entries, &inputs.brought("z")?, &mut after)
        } else {
            let plan = Plan {
                number: inputs.number("pattern")?,
                modulus: inputs.number("m")?,
                order: inputs.number("l")?,
                challenges: inputs.number("K")?,
            };
            let (values, statement) = (inputs.list("values")?, inputs.list("z")?);
            library.from_pattern(&self.patterns, plan, &values, &statement, &mut after)
        };
        Ok(written(answer, &before, &after))
    }

    fn file_writer(
        &self,
        library: Library,
        call: Call,
        inputs: &mut Inputs,
    ) -> Result<String, String> {
        let before = inputs.bytes("buffer")?;
        let mut after = before.clone();
        let answer = match call {
            Call::Patterns => library.patterns(&mut after),
            Call::Empty => library.empty(inputs.number("version")?, &mut after),
            Call::Convert => library.convert(&self.sheet, &self.file, &mut after),
            _ => {
                let (used, round) = (inputs.number("used")?, inputs.round("")?);
                library.append(&self.sheet, &mut after, used, &round)
            }
        };
        Ok(written(answer, &before, &after))
    }

    fn round(&self, library: Library, call: Call, inputs: &mut Inputs) -> Result<String, String> {
        let (s, n) = self.sizes();
        if call == Call::Judge {
            let judged = library.judge(&self.sheet, &inputs.round("")?);
            let clean = judged.accepted == 0 && judged.rows == 0;
            return Ok(told(judged.refusal, clean, || verdict(judged)));
        }
        let (computed, name, used) = if call == Call::Simulate {
            let (challenge, response) = (inputs.number("c")?, inputs.brought("r")?);
            (library.simulate(&self.sheet, challenge, &response), "t", s)
        } else {
            let (first, second) = (inputs.round("")?, inputs.round("2")?);
            (library.extract(&self.sheet, &first, &second), "x", n)
        };
        let Computed { values, refusal } = computed;
        Ok(told(refusal, values == [0; 8], || format!("{name}={}", list(&values, used))))
    }

    fn verifier_step(
        &self,
        library: Library,
        call: Call,
        inputs: &mut Inputs,
    ) -> Result<String, String> {
        let given = inputs.verifier()?;
        if call == Call::VerifierResponse {
            let answer = library.verifier_response(&self.sheet, given, &inputs.brought("r")?);
            let judged = answer.verdict;
            let clean = answer.session == given && judged.accepted == 0 && judged.rows == 0;
            return Ok(told(judged.refusal, clean, || {
                format!("{} {}", verdict(judged), verifier(&answer.session))
            }));
        }
        let answer = if call == Call::VerifierCommitment {
            library.verifier_commitment(&self.sheet, given, &inputs.brought("t")?)
        } else {
            library.verifier_challenge(&self.sheet, given, inputs.number("c")?)
        };
        let clean = answer.session == given;
        Ok(told(answer.refusal, clean, || verifier(&answer.session)))
    }

    fn mark(&self, library: Library, level: &[u8]) -> String {
        let mut text = [0xee; LONGEST_TEXT];
        let length = library.mark(&self.sheet, &self.file, level, &mut text);
        written_text(&text, length)
    }

    fn reason(&self, library: Library) -> String {
        let mut text = [0xee; LONGEST_REASON];
        let length = library.reason(&self.sheet, &self.file, &mut text);
        written_text(&text, length)
    }

    fn game(&self, library: Library) -> String {
        let (length, memory) = lent::for_game(|text| library.game(&self.sheet, &self.file, text));
        written_text(&memory[AROUND..], length)
    }
}

/// A text of this length in a buffer that held `ee` in every byte. A line's end
/// is written `\n`. Bytes behind the text that are changed are told of.
fn written_text(buffer: &[u8], length: usize) -> String {
    let (text, behind) = buffer.split_at(length);
    let shown = String::from_utf8_lossy(text).replace('\n', "\\n");
    if behind.iter().all(|byte| *byte == 0xee) { shown } else { format!("{shown} and changed") }
}
