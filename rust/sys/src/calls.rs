//! A safe function for each export. All unsafe calls stand here.
//!
//! The exports take any bytes and any numbers, so what they ask of a caller is what the types below give. For each call:
//!
//! - A slice crosses as its pointer and length, and the library reads or writes nothing outside it. It uses no pointer of an
//!   empty slice, so that a dangling one does no harm.
//! - An array crosses as the pointer to its 8 or 64 numbers or its 14,864 or 201 bytes.
//! - What is written to is borrowed as `&mut`, so it shares no byte with the rest, and all borrows live through the call.
//! - The structs have the layout of C, and any bits are values of their fields.

use crate::exports::*;
use crate::{
    Base, Checked, Compared, Computed, Counted, ENTRIES, Entries, Fetched, Header, Judgement,
    LONGEST_GAME, LONGEST_REASON, LONGEST_TEXT, Ledger, LedgerWritten, Loaded, Opened, OrAnswer,
    OrExtracted, OrJudgement, OrRound, OrSession, Part, Parts, Places, ProverAnswer, ProverSession,
    Round, VerifierAnswer, VerifierJudgement, VerifierSession, Watch, WatchAnswer, Written,
};

/// The version of the archive that is linked, 10000 * major + 100 * minor + patch.
///
/// ```
/// assert_eq!(dimkhoros_sys::version(), 200); // 0.2.0
/// ```
#[inline]
pub fn version() -> u32 {
    // SAFETY: the call takes nothing.
    unsafe { dimkhoros_version() }
}

/// Loads a sheet: answers its fixed fields and its statement.
#[inline]
pub fn load(sheet: &[u8]) -> Loaded {
    // SAFETY: the slice is given by its pointer and length.
    unsafe { dimkhoros_load(sheet.as_ptr(), sheet.len()) }
}

/// Sets the array to the entries of a sheet, and answers 0. Where the sheet is refused, the array keeps its numbers, and the
/// refusal is answered.
#[inline]
pub fn entries(sheet: &[u8], entries: &mut [u32; ENTRIES]) -> u32 {
    // SAFETY: the slice is given by its pointer and length, and `entries` has the 64 numbers that are written.
    unsafe { dimkhoros_entries(sheet.as_ptr(), sheet.len(), entries.as_mut_ptr()) }
}

/// Writes the sheet of these values to the start of a buffer.
#[inline]
pub fn encode(
    header: Header,
    entries: &[u32; ENTRIES],
    statement: &Places,
    buffer: &mut [u8],
) -> Written {
    let (pointer, length) = (buffer.as_mut_ptr(), buffer.len());
    // SAFETY: the slice is given by its pointer and length; `entries` has 64 numbers and `statement` 8.
    unsafe { dimkhoros_encode(header, entries.as_ptr(), statement.as_ptr(), pointer, length) }
}

/// Writes the shipped pattern file to the start of a buffer.
#[inline]
pub fn patterns(buffer: &mut [u8]) -> Written {
    // SAFETY: the slice is given by its pointer and length.
    unsafe { dimkhoros_patterns(buffer.as_mut_ptr(), buffer.len()) }
}

/// Writes the sheet of a pattern of a pattern file to the start of a buffer. Number 0 asks for a root sheet.
#[inline]
#[allow(clippy::too_many_arguments, reason = "the export takes these")]
pub fn from_pattern(
    patterns: &[u8],
    number: u32,
    modulus: u32,
    order: u32,
    challenges: u32,
    values: &[u32],
    statement: &[u32],
    buffer: &mut [u8],
) -> Written {
    // SAFETY: the slices are given by their pointers and lengths.
    unsafe {
        dimkhoros_from_pattern(
            patterns.as_ptr(),
            patterns.len(),
            number,
            modulus,
            order,
            challenges,
            values.as_ptr(),
            values.len(),
            statement.as_ptr(),
            statement.len(),
            buffer.as_mut_ptr(),
            buffer.len(),
        )
    }
}

/// Writes the sheet of linear forms over generators to the start of a buffer. The coefficients stand by row, then generator, then
/// column.
#[inline]
#[allow(clippy::too_many_arguments, reason = "the export takes these")]
pub fn linear(
    modulus: u32,
    order: u32,
    challenges: u32,
    rows: u32,
    columns: u32,
    generators: &[u32],
    coefficients: &[u32],
    statement: &[u32],
    buffer: &mut [u8],
) -> Written {
    // SAFETY: the slices are given by their pointers and lengths.
    unsafe {
        dimkhoros_linear(
            modulus,
            order,
            challenges,
            rows,
            columns,
            generators.as_ptr(),
            generators.len(),
            coefficients.as_ptr(),
            coefficients.len(),
            statement.as_ptr(),
            statement.len(),
            buffer.as_mut_ptr(),
            buffer.len(),
        )
    }
}

/// Answers how many rounds a file has.
#[inline]
pub fn count(sheet: &[u8], file: &[u8]) -> Counted {
    // SAFETY: the slices are given by their pointers and lengths.
    unsafe { dimkhoros_count(sheet.as_ptr(), sheet.len(), file.as_ptr(), file.len()) }
}

/// Answers the refusal of the round of this number, from 0, in a file.
#[inline]
pub fn check(sheet: &[u8], file: &[u8], number: usize) -> u32 {
    // SAFETY: the slices are given by their pointers and lengths.
    unsafe { dimkhoros_check(sheet.as_ptr(), sheet.len(), file.as_ptr(), file.len(), number) }
}

/// Answers where the round of this number stands in a file.
#[inline]
pub fn part(sheet: &[u8], file: &[u8], number: usize) -> Part {
    // SAFETY: the slices are given by their pointers and lengths.
    unsafe { dimkhoros_part(sheet.as_ptr(), sheet.len(), file.as_ptr(), file.len(), number) }
}

/// Answers the values of the round of this number as they stand in a file.
#[inline]
pub fn read(sheet: &[u8], file: &[u8], number: usize) -> Fetched {
    // SAFETY: the slices are given by their pointers and lengths.
    unsafe { dimkhoros_read(sheet.as_ptr(), sheet.len(), file.as_ptr(), file.len(), number) }
}

/// Answers whether the rounds of these two numbers in a file have the same commitment.
#[inline]
pub fn same_commitment(sheet: &[u8], file: &[u8], i: usize, j: usize) -> Compared {
    let (pointer, length) = (sheet.as_ptr(), sheet.len());
    // SAFETY: the slices are given by their pointers and lengths.
    unsafe { dimkhoros_same_commitment(pointer, length, file.as_ptr(), file.len(), i, j) }
}

/// Writes a file of this version, 1 or 2, without rounds to the start of a buffer.
#[inline]
pub fn empty(version: u32, buffer: &mut [u8]) -> Written {
    // SAFETY: the slice is given by its pointer and length.
    unsafe { dimkhoros_empty(version, buffer.as_mut_ptr(), buffer.len()) }
}

/// Adds a round to the file in the first `used` bytes of a buffer.
#[inline]
pub fn append(sheet: &[u8], buffer: &mut [u8], used: usize, round: &Round) -> Written {
    let (pointer, length) = (buffer.as_mut_ptr(), buffer.len());
    // SAFETY: the slices are given by their pointers and lengths. `used` may be any number.
    unsafe { dimkhoros_append(sheet.as_ptr(), sheet.len(), pointer, length, used, *round) }
}

/// Writes the rounds of a file in its other version to the start of a buffer.
#[inline]
pub fn convert(sheet: &[u8], file: &[u8], buffer: &mut [u8]) -> Written {
    // SAFETY: the slices are given by their pointers and lengths.
    unsafe {
        dimkhoros_convert(
            sheet.as_ptr(),
            sheet.len(),
            file.as_ptr(),
            file.len(),
            buffer.as_mut_ptr(),
            buffer.len(),
        )
    }
}

/// Answers Vic's verdict on a round.
#[inline]
pub fn judge(sheet: &[u8], round: &Round) -> Judgement {
    // SAFETY: the slice is given by its pointer and length.
    unsafe { dimkhoros_judge(sheet.as_ptr(), sheet.len(), *round) }
}

/// Answers the commitment with which Vic accepts this challenge and response.
#[inline]
pub fn simulate(sheet: &[u8], challenge: u32, response: &Places) -> Computed {
    // SAFETY: the slice is given by its pointer and length, and `response` has 8 numbers.
    unsafe { dimkhoros_simulate(sheet.as_ptr(), sheet.len(), challenge, response.as_ptr()) }
}

/// Answers the witness that two accepted rounds give away.
#[inline]
pub fn extract(sheet: &[u8], first: &Round, second: &Round) -> Computed {
    // SAFETY: the slice is given by its pointer and length.
    unsafe { dimkhoros_extract(sheet.as_ptr(), sheet.len(), *first, *second) }
}

/// Answers the verdict on a round of the OR proof of two sheets.
#[inline]
pub fn or_judge(first: &[u8], second: &[u8], round: &OrRound) -> OrJudgement {
    let (pointer, length) = (first.as_ptr(), first.len());
    // SAFETY: the slices are given by their pointers and lengths.
    unsafe { dimkhoros_or_judge(pointer, length, second.as_ptr(), second.len(), *round) }
}

/// Answers the witness of one of two sheets that two accepted rounds of the OR proof give away, and its side.
#[inline]
pub fn or_extract(first: &[u8], second: &[u8], a: &OrRound, b: &OrRound) -> OrExtracted {
    let (pointer, length) = (first.as_ptr(), first.len());
    // SAFETY: the slices are given by their pointers and lengths.
    unsafe { dimkhoros_or_extract(pointer, length, second.as_ptr(), second.len(), *a, *b) }
}

/// Answers the commitments of a team's players multiplied, given the players' images.
#[inline]
pub fn team_commitment(sheet: &[u8], count: u32, images: &Parts, commitments: &Parts) -> Computed {
    let (pointer, length) = (sheet.as_ptr(), sheet.len());
    // SAFETY: the slice is given by its pointer and length; `images` and `commitments` have 64 numbers each. `count` may be
    // any number.
    unsafe {
        dimkhoros_team_commitment(pointer, length, count, images.as_ptr(), commitments.as_ptr())
    }
}

/// Answers the responses of a team's players joined, given the players' images.
#[inline]
pub fn team_response(sheet: &[u8], count: u32, images: &Parts, responses: &Parts) -> Computed {
    let (pointer, length) = (sheet.as_ptr(), sheet.len());
    // SAFETY: the slice is given by its pointer and length; `images` and `responses` have 64 numbers each. `count` may be any
    // number.
    unsafe { dimkhoros_team_response(pointer, length, count, images.as_ptr(), responses.as_ptr()) }
}

/// Opens a watch on a sheet.
#[inline]
pub fn watch_open(sheet: &[u8]) -> Opened {
    // SAFETY: the slice is given by its pointer and length.
    unsafe { dimkhoros_watch_open(sheet.as_ptr(), sheet.len()) }
}

/// Gives a watch a round, and answers the verdict on it and, for an accepted one, the nearest reuse that the watch remembers.
#[inline]
pub fn watch_round(sheet: &[u8], watch: &Watch, round: &Round) -> WatchAnswer {
    // SAFETY: the slice is given by its pointer and length.
    unsafe { dimkhoros_watch_round(sheet.as_ptr(), sheet.len(), *watch, *round) }
}

/// Checks a ledger: accepted, or the first product whose round is rejected.
#[inline]
pub fn ledger_check(base: Base, ledger: &Ledger) -> Checked {
    // SAFETY: the call takes structs of numbers alone.
    unsafe { dimkhoros_ledger_check(base, *ledger) }
}

/// Makes the ledger of these entries.
#[inline]
pub fn ledger_write(base: Base, entries: &Entries) -> LedgerWritten {
    // SAFETY: the call takes structs of numbers alone.
    unsafe { dimkhoros_ledger_write(base, *entries) }
}

/// Writes the marker's text on a sheet, a round file and a level file to the start of `text`, and answers its length.
#[inline]
pub fn mark(sheet: &[u8], file: &[u8], level: &[u8], text: &mut [u8; LONGEST_TEXT]) -> usize {
    // SAFETY: the slices are given by their pointers and lengths, and `text` has the bytes that may be written.
    unsafe {
        dimkhoros_mark(
            sheet.as_ptr(),
            sheet.len(),
            file.as_ptr(),
            file.len(),
            level.as_ptr(),
            level.len(),
            text.as_mut_ptr(),
        )
    }
}

/// Writes the reason's line on a sheet, a round file or its round 0 to the start of `text`, and answers its length.
#[inline]
pub fn reason(sheet: &[u8], file: &[u8], text: &mut [u8; LONGEST_REASON]) -> usize {
    let (pointer, length) = (sheet.as_ptr(), sheet.len());
    // SAFETY: the slices are given by their pointers and lengths, and `text` has the bytes that may be written.
    unsafe { dimkhoros_reason(pointer, length, file.as_ptr(), file.len(), text.as_mut_ptr()) }
}

/// Writes the game's text on the commitment of a round file's round 0 to the start of `text`, and answers its length.
#[inline]
pub fn game(sheet: &[u8], file: &[u8], text: &mut [u8; LONGEST_GAME]) -> usize {
    let (pointer, length) = (sheet.as_ptr(), sheet.len());
    // SAFETY: the slices are given by their pointers and lengths, and `text` has the bytes that may be written.
    unsafe { dimkhoros_game(pointer, length, file.as_ptr(), file.len(), text.as_mut_ptr()) }
}

/// A new session of Peggy's, with zeros.
#[inline]
pub fn prover_new() -> ProverSession {
    // SAFETY: the call takes nothing.
    unsafe { dimkhoros_prover_new() }
}

/// Commits Peggy's new session to a nonce, and answers the commitment.
#[inline]
pub fn prover_commit(sheet: &[u8], session: ProverSession, nonce: &Places) -> ProverAnswer {
    // SAFETY: the slice is given by its pointer and length, and `nonce` has 8 numbers.
    unsafe { dimkhoros_prover_commit(sheet.as_ptr(), sheet.len(), Handed(session), nonce.as_ptr()) }
}

/// Answers the response of Peggy's committed session to a challenge, by a witness.
#[inline]
pub fn prover_respond(
    sheet: &[u8],
    session: ProverSession,
    challenge: u32,
    witness: &Places,
) -> ProverAnswer {
    let (pointer, length) = (sheet.as_ptr(), sheet.len());
    // SAFETY: the slice is given by its pointer and length, and `witness` has 8 numbers.
    unsafe {
        dimkhoros_prover_respond(pointer, length, Handed(session), challenge, witness.as_ptr())
    }
}

/// Gives up a session of Peggy's.
#[inline]
pub fn prover_drop(session: ProverSession) -> ProverAnswer {
    // SAFETY: the call takes a struct of numbers alone.
    unsafe { dimkhoros_prover_drop(Handed(session)) }
}

/// Saves the state, nonce and commitment of Peggy's session under a name, 0 to 7.
#[inline]
pub fn prover_save(session: ProverSession, name: u32) -> ProverAnswer {
    // SAFETY: the call takes a struct of numbers and a number alone.
    unsafe { dimkhoros_prover_save(Handed(session), name) }
}

/// Brings back the state, nonce and commitment that were saved under a name.
#[inline]
pub fn prover_return(session: ProverSession, name: u32) -> ProverAnswer {
    // SAFETY: the call takes a struct of numbers and a number alone.
    unsafe { dimkhoros_prover_return(Handed(session), name) }
}

/// A new session of Vic's, with zeros.
#[inline]
pub fn verifier_new() -> VerifierSession {
    // SAFETY: the call takes nothing.
    unsafe { dimkhoros_verifier_new() }
}

/// Brings the commitment to Vic's waiting session.
#[inline]
pub fn verifier_commitment(
    sheet: &[u8],
    session: VerifierSession,
    commitment: &Places,
) -> VerifierAnswer {
    let (pointer, length) = (sheet.as_ptr(), sheet.len());
    // SAFETY: the slice is given by its pointer and length, and `commitment` has 8 numbers.
    unsafe { dimkhoros_verifier_commitment(pointer, length, session, commitment.as_ptr()) }
}

/// Brings the challenge to a session of Vic's that holds a commitment.
#[inline]
pub fn verifier_challenge(
    sheet: &[u8],
    session: VerifierSession,
    challenge: u32,
) -> VerifierAnswer {
    // SAFETY: the slice is given by its pointer and length.
    unsafe { dimkhoros_verifier_challenge(sheet.as_ptr(), sheet.len(), session, challenge) }
}

/// Brings the response to a session of Vic's that has asked, and answers the verdict.
#[inline]
pub fn verifier_response(
    sheet: &[u8],
    session: VerifierSession,
    response: &Places,
) -> VerifierJudgement {
    let (pointer, length) = (sheet.as_ptr(), sheet.len());
    // SAFETY: the slice is given by its pointer and length, and `response` has 8 numbers.
    unsafe { dimkhoros_verifier_response(pointer, length, session, response.as_ptr()) }
}

/// A new session of Peggy's of the OR proof, with zeros.
#[inline]
pub fn or_prover_new() -> OrSession {
    // SAFETY: the call takes nothing.
    unsafe { dimkhoros_or_prover_new() }
}

/// Commits Peggy's new session of the OR proof: to a nonce of the side that she knows, 0, or 1 for any other number, and to a
/// simulated challenge and response of the other. Answers both commitments.
#[inline]
pub fn or_prover_commit(
    first: &[u8],
    second: &[u8],
    session: OrSession,
    side: u32,
    nonce: &Places,
    challenge: u32,
    response: &Places,
) -> OrAnswer {
    // SAFETY: the slices are given by their pointers and lengths; `nonce` and `response` have 8 numbers each.
    unsafe {
        dimkhoros_or_prover_commit(
            first.as_ptr(),
            first.len(),
            second.as_ptr(),
            second.len(),
            session,
            side,
            nonce.as_ptr(),
            challenge,
            response.as_ptr(),
        )
    }
}

/// Answers both responses of Peggy's committed session of the OR proof to a challenge, and side 0's challenge, by a witness of
/// the side that the session holds.
#[inline]
pub fn or_prover_respond(
    first: &[u8],
    second: &[u8],
    session: OrSession,
    challenge: u32,
    witness: &Places,
) -> OrAnswer {
    // SAFETY: the slices are given by their pointers and lengths, and `witness` has 8 numbers.
    unsafe {
        dimkhoros_or_prover_respond(
            first.as_ptr(),
            first.len(),
            second.as_ptr(),
            second.len(),
            session,
            challenge,
            witness.as_ptr(),
        )
    }
}

/// Gives up a session of Peggy's of the OR proof.
#[inline]
pub fn or_prover_drop(session: OrSession) -> OrAnswer {
    // SAFETY: the call takes a struct of numbers alone.
    unsafe { dimkhoros_or_prover_drop(session) }
}
