//! Sessions and their answers, as the judge and as the library have them.
//!
//! The judge knows no phase but the four. Any other number becomes its last
//! phase, which allows no call but saving and returning. Where the call is refused,
//! the session comes back as it was given, that number included.

use judge::{Prover, ProverPhase, Verifier, VerifierPhase};

use crate::library::phases::{prover, verifier};
use crate::library::{
    Listed, Memory, Places, ProverAnswer, ProverSession, Saved, VerifierAnswer, VerifierSession,
};

/// A phase of Peggy's for the judge.
fn phase(number: u32) -> ProverPhase {
    match number {
        prover::NEW => ProverPhase::New,
        prover::COMMITTED => ProverPhase::Committed,
        prover::ANSWERED => ProverPhase::Answered,
        _ => ProverPhase::Dropped,
    }
}

/// A phase of Peggy's from the judge.
fn phase_number(phase: ProverPhase) -> u32 {
    match phase {
        ProverPhase::New => prover::NEW,
        ProverPhase::Committed => prover::COMMITTED,
        ProverPhase::Answered => prover::ANSWERED,
        ProverPhase::Dropped => prover::DROPPED,
    }
}

/// A saved state for the judge, none if nothing was saved.
fn state(saved: &Saved) -> Option<judge::Saved> {
    let state = judge::Saved {
        phase: phase(saved.phase),
        nonce: saved.nonce,
        commitment: saved.commitment,
    };
    (saved.kept != 0).then_some(state)
}

/// A saved state from the judge.
fn saved(state: Option<judge::Saved>) -> Saved {
    state.map_or(Saved::default(), |state| Saved {
        nonce: state.nonce,
        commitment: state.commitment,
        phase: phase_number(state.phase),
        kept: 1,
    })
}

/// What the judge's session remembers after a call that was given this. A saved state
/// that is to the judge what it was keeps its numbers.
fn memory(given: &Memory, session: &Prover) -> Memory {
    let mut memory = Memory {
        saved: given.saved,
        answered: session.answered.map(|commitment| Listed { commitment }),
        count: session.count as u32,
    };
    for (before, after) in memory.saved.iter_mut().zip(session.saved) {
        if state(before) != after {
            *before = saved(after);
        }
    }
    memory
}

/// Peggy's session for the judge.
pub fn prover(session: &ProverSession) -> Prover {
    let memory = &session.memory;
    Prover {
        phase: phase(session.phase),
        nonce: session.nonce,
        commitment: session.commitment,
        saved: memory.saved.each_ref().map(state),
        answered: memory.answered.map(|listed| listed.commitment),
        count: memory.count.into(),
    }
}

/// Peggy's session from the judge, after a call that was given the first one.
pub fn prover_session(given: &ProverSession, session: Prover) -> ProverSession {
    ProverSession {
        phase: phase_number(session.phase),
        nonce: session.nonce,
        commitment: session.commitment,
        memory: memory(&given.memory, &session),
    }
}

/// The answer of a call on Peggy's session.
pub fn prover_answer(
    given: ProverSession,
    (result, session): (Result<Places, u32>, Prover),
) -> ProverAnswer {
    match result {
        Ok(values) => ProverAnswer { refusal: 0, session: prover_session(&given, session), values },
        Err(refusal) => ProverAnswer { refusal, session: given, values: [0; 8] },
    }
}

/// Vic's session for the judge.
pub fn verifier(session: &VerifierSession) -> Verifier {
    Verifier {
        phase: match session.phase {
            verifier::WAITING => VerifierPhase::Waiting,
            verifier::HOLDING => VerifierPhase::Holding,
            verifier::ASKED => VerifierPhase::Asked,
            _ => VerifierPhase::Judged,
        },
        commitment: session.commitment,
        challenge: session.challenge,
    }
}

/// Vic's session from the judge.
pub fn verifier_session(session: Verifier) -> VerifierSession {
    VerifierSession {
        phase: match session.phase {
            VerifierPhase::Waiting => verifier::WAITING,
            VerifierPhase::Holding => verifier::HOLDING,
            VerifierPhase::Asked => verifier::ASKED,
            VerifierPhase::Judged => verifier::JUDGED,
        },
        commitment: session.commitment,
        challenge: session.challenge,
    }
}

/// The answer of Vic's commitment and challenge calls.
pub fn verifier_answer(
    given: VerifierSession,
    (result, session): (Result<(), u32>, Verifier),
) -> VerifierAnswer {
    match result {
        Ok(()) => VerifierAnswer { refusal: 0, session: verifier_session(session) },
        Err(refusal) => VerifierAnswer { refusal, session: given },
    }
}

#[cfg(test)]
mod tests {
    use super::*;

    /// A memory with numbers in every place.
    fn any_memory(phase: u32) -> Memory {
        let mut memory = Memory { count: u32::MAX - phase, ..Memory::default() };
        for (name, kept) in [0, 1, 2, u32::MAX].into_iter().cycle().take(8).enumerate() {
            let number = name as u32 + 10;
            memory.saved[name] = Saved {
                nonce: [number; 8],
                commitment: [number + 10; 8],
                phase: phase.wrapping_add(number % 2),
                kept,
            };
        }
        for (place, listed) in memory.answered.iter_mut().enumerate() {
            listed.commitment = [place as u32; 8];
        }
        memory
    }

    #[test]
    fn the_four_phases_come_back_and_others_become_the_last() {
        for (phase, back) in [(0, 0), (1, 1), (2, 2), (3, 3), (4, 3), (u32::MAX, 3)] {
            let peggy = ProverSession {
                phase,
                nonce: [1, 2, 3, 4, 5, 6, 7, 8],
                commitment: [9; 8],
                memory: any_memory(phase),
            };
            let vic = VerifierSession { phase, commitment: [1, 2, 3, 4, 5, 6, 7, 8], challenge: 9 };
            let (peggy_back, vic_back) =
                (prover_session(&peggy, prover(&peggy)), verifier_session(verifier(&vic)));
            let expected = ProverSession { phase: back, ..peggy };
            assert_eq!(peggy_back, expected);
            assert_eq!(vic_back, VerifierSession { phase: back, ..vic });
        }
    }
}
