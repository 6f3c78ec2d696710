//! The stored form of Peggy's session: its state, the saved states, the answered commitments and their count.

use crate::stored::{self, LAST_PHASE};
use crate::{Damaged, STORED_PROVER};
use dimkhoros_sys::{MOST_ANSWERED, Memory, ProverSession, Saved};

/// What the stored form begins with: its mark and its version.
const START: &[u8; 5] = b"PRV\0\x02";

/// How many numbers it has.
const NUMBERS: usize = (STORED_PROVER - 11) / 4;

/// The numbers of a session in the order of the stored form.
fn numbers(session: &mut ProverSession) -> impl Iterator<Item = &mut u32> {
    let ProverSession { nonce, commitment, phase, memory } = session;
    let Memory { saved, answered, count } = memory;
    let saved = saved.iter_mut().flat_map(|Saved { nonce, commitment, phase, kept }| {
        nonce.iter_mut().chain(commitment).chain([phase, kept])
    });
    let answered = answered.iter_mut().flat_map(|listed| &mut listed.commitment);
    nonce.iter_mut().chain(commitment).chain([phase]).chain(saved).chain(answered).chain([count])
}

/// Whether calls can have made what a session has for its phases, flags and count.
fn is_made(session: &ProverSession) -> bool {
    let Memory { saved, count, .. } = &session.memory;
    session.phase <= LAST_PHASE
        && *count as usize <= MOST_ANSWERED
        && saved.iter().all(|saved| saved.phase <= LAST_PHASE && saved.kept <= 1)
}

/// The stored form of a session.
pub(crate) fn write(mut session: ProverSession) -> [u8; STORED_PROVER] {
    let mut values = [0; NUMBERS];
    for (value, number) in values.iter_mut().zip(numbers(&mut session)) {
        *value = *number;
    }
    stored::write(START, &values)
}

/// The session of which these bytes are the stored form.
pub(crate) fn read(bytes: &[u8]) -> Result<ProverSession, Damaged> {
    let values = stored::read::<STORED_PROVER, NUMBERS>(START, bytes)?;
    let mut session = ProverSession::default();
    for (number, value) in numbers(&mut session).zip(values) {
        *number = value;
    }
    if is_made(&session) { Ok(session) } else { Err(Damaged) }
}
