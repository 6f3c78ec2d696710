//! Inputs and outcomes as text. Bytes and the numbers of a case are in hex, those
//! of an answer are decimal.

use std::fmt::{self, Write};

use crate::lent::Lent;
use crate::outcome::{Answer, Outcome};

pub use crate::vectors::{entries, ledger, prover, watch};

/// Bytes in hex.
pub fn hex(bytes: &[u8]) -> String {
    bytes.iter().fold(String::new(), |mut text, byte| {
        let _ = write!(text, "{byte:02x}");
        text
    })
}

/// 32-bit numbers in hex, with a space between them.
pub fn numbers(values: &[u32]) -> String {
    let words: Vec<String> = values.iter().map(|value| format!("{value:x}")).collect();
    words.join(" ")
}

impl fmt::Display for Lent {
    fn fmt(&self, out: &mut fmt::Formatter) -> fmt::Result {
        let (from, to) = (self.from, self.to);
        write!(out, "    lent {from}..{to} of memory {}", hex(&self.memory))
    }
}

/// An answer with its fields. A watch, a ledger and Peggy's session are in the words of
/// the vectors.
fn shown(answer: &Answer) -> String {
    match answer {
        Answer::Opened(opened) => format!("refusal: {} {}", opened.refusal, watch(&opened.watch)),
        Answer::Watched(answer) => {
            let (verdict, back, witness) = (answer.verdict, answer.back, answer.witness);
            let watch = watch(&answer.watch);
            format!("{verdict:?} back: {back} witness: {witness:?} {watch}")
        }
        Answer::LedgerWritten(written) => {
            format!("refusal: {} {}", written.refusal, ledger(&written.ledger))
        }
        Answer::ProverNew(session) => prover(session),
        Answer::Prover(answer) => {
            let (refusal, values) = (answer.refusal, answer.values);
            let session = prover(&answer.session);
            format!("refusal: {refusal} values: {values:?} {session}")
        }
        _ => format!("{answer:?}"),
    }
}

impl fmt::Display for Outcome {
    fn fmt(&self, out: &mut fmt::Formatter) -> fmt::Result {
        for (call, answer) in &self.answers {
            write!(out, "\n    {}: {}", call.name(), shown(answer))?;
        }
        if !self.memory.is_empty() {
            write!(out, "\n    memory {}", hex(&self.memory))?;
        }
        Ok(())
    }
}
