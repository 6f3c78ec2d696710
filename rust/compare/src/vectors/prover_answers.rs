//! Peggy's session, and the answers of the calls on it, as the vectors have them.

use super::Given;
use super::answers::{list, phase, told};
use super::inputs::{Inputs, PROVER_PHASES};
use crate::calls::Call;
use crate::library::{Library, Listed, MOST_ANSWERED, Memory, ProverAnswer, ProverSession, Saved};

/// A saved state under its name: phase, nonce and commitment, and the flag if it is not
/// 1.
fn state(name: usize, state: &Saved) -> String {
    let (nonce, commitment) = (list(&state.nonce, 1), list(&state.commitment, 1));
    let phase = phase(PROVER_PHASES, state.phase);
    let flag = match state.kept {
        1 => String::new(),
        flag => format!(":{flag}"),
    };
    format!("{name}:{phase}:{nonce}:{commitment}{flag}")
}

/// The states that are not zeros, each under its name.
fn saved(memory: &Memory) -> Option<String> {
    let states = memory.saved.iter().enumerate();
    let shown = states.filter(|(_, saved)| **saved != Saved::default());
    let shown: Vec<String> = shown.map(|(name, saved)| state(name, saved)).collect();
    (!shown.is_empty()).then(|| format!("saved={}", shown.join("/")))
}

/// The listed commitments that are counted, and those behind them up to the last that is
/// not zeros. Equal ones that follow each other are one with a count. The list's own count
/// follows if it is not as many.
fn listed(memory: &Memory) -> Option<String> {
    let zeros = |listed: &Listed| *listed == Listed::default();
    let last = memory.answered.iter().rposition(|listed| !zeros(listed));
    let counted = (memory.count as usize).min(MOST_ANSWERED);
    let shown = &memory.answered[..last.map_or(0, |last| last + 1).max(counted)];
    let pieces = shown.chunk_by(|a, b| a == b).map(|run| {
        let commitment = list(&run[0].commitment, 1);
        match run.len() {
            1 => commitment,
            count => format!("{commitment}*{count}"),
        }
    });
    let mut words = format!("listed={}", pieces.collect::<Vec<_>>().join("/"));
    if memory.count as usize != shown.len() {
        words += &format!(" count={}", memory.count);
    }
    (!shown.is_empty()).then_some(words)
}

/// What Peggy's session holds, and what it remembers, if it does.
pub fn prover(session: &ProverSession) -> String {
    let (nonce, commitment) = (list(&session.nonce, 1), list(&session.commitment, 1));
    let phase = phase(PROVER_PHASES, session.phase);
    let held = format!("phase={phase} nonce={nonce} commitment={commitment}");
    let remembered = [saved(&session.memory), listed(&session.memory)];
    let words = [Some(held)].into_iter().chain(remembered);
    words.flatten().collect::<Vec<_>>().join(" ")
}

impl Given {
    pub fn prover_step(
        &self,
        library: Library,
        call: Call,
        inputs: &mut Inputs,
    ) -> Result<String, String> {
        let (s, n) = self.sizes();
        let given = inputs.prover()?;
        let (answer, name, used) = match call {
            Call::ProverCommit => {
                let nonce = inputs.brought("k")?;
                (library.prover_commit(&self.sheet, given, &nonce), "t", s)
            }
            Call::ProverRespond => {
                let (challenge, witness) = (inputs.number("c")?, inputs.brought("x")?);
                let answer = library.prover_respond(&self.sheet, given, challenge, &witness);
                (answer, "r", n)
            }
            Call::ProverSave => (library.prover_save(given, inputs.number("name")?), "", 0),
            Call::ProverReturn => (library.prover_return(given, inputs.number("name")?), "", 0),
            _ => (library.prover_drop(given), "", 0),
        };
        let ProverAnswer { session, values, refusal } = answer;
        let clean = session == given && values == [0; 8];
        Ok(told(refusal, clean, || match (name, values) {
            ("", [0, 0, 0, 0, 0, 0, 0, 0]) => prover(&session),
            _ => format!("{name}={} {}", list(&values, used), prover(&session)),
        }))
    }
}
