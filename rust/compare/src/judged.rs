//! The judge, behind the calls of the library.

mod ledgers;
mod or_proof;
mod sessions;
mod teams;
mod values;
mod watches;

use judge::{linear, pattern_file};

use crate::library::{
    Compared, Computed, Counted, Fetched, Forms, Header, Judgement, LONGEST_GAME, LONGEST_REASON,
    LONGEST_TEXT, Loaded, Part, Places, Plan, ProverAnswer, ProverSession, Round, Saved,
    VerifierAnswer, VerifierJudgement, VerifierSession, Written,
};
use sessions::{
    prover, prover_answer, prover_session, verifier, verifier_answer, verifier_session,
};
use values::{computed, judgement, loaded, round, written};

pub use ledgers::{ledger_check, ledger_write};
pub use or_proof::{
    or_extract, or_judge, or_prover_commit, or_prover_drop, or_prover_new, or_prover_respond,
};
pub use teams::{team_commitment, team_response};
pub use watches::{watch_open, watch_round};

pub fn load(sheet: &[u8]) -> Loaded {
    loaded(judge::load(sheet))
}

pub fn entries(sheet: &[u8], entries: &mut [u32; 64]) -> u32 {
    match judge::load(sheet) {
        Ok(sheet) => {
            entries.copy_from_slice(sheet.entries.as_flattened());
            0
        }
        Err(number) => number,
    }
}

pub fn encode(
    header: Header,
    entries: &[u32; 64],
    statement: &Places,
    buffer: &mut [u8],
) -> Written {
    let sheet = values::sheet(header, entries, statement);
    written(judge::encode(&sheet, buffer))
}

pub fn patterns(buffer: &mut [u8]) -> Written {
    written(pattern_file::shipped(buffer))
}

pub fn from_pattern(
    patterns: &[u8],
    plan: Plan,
    values: &[u32],
    statement: &[u32],
    buffer: &mut [u8],
) -> Written {
    let (number, m, q, k) = (plan.number, plan.modulus, plan.order, plan.challenges);
    let made = pattern_file::make(patterns, number, m, q, k, values, statement, buffer);
    written(made)
}

pub fn linear(forms: &Forms, buffer: &mut [u8]) -> Written {
    let header = forms.header;
    written(linear::make(
        header.modulus,
        header.order,
        header.challenges,
        header.rows,
        header.columns,
        &forms.generators,
        &forms.coefficients,
        &forms.statement,
        buffer,
    ))
}

pub fn count(sheet: &[u8], file: &[u8]) -> Counted {
    match judge::count(sheet, file) {
        Ok(count) => Counted { refusal: 0, count },
        Err(refusal) => Counted { refusal, count: 0 },
    }
}

pub fn check(sheet: &[u8], file: &[u8], number: usize) -> u32 {
    judge::check(sheet, file, number as u64)
}

pub fn part(sheet: &[u8], file: &[u8], number: usize) -> Part {
    let part = judge::part(sheet, file, number as u64);
    if part.is_empty() {
        return Part::default();
    }
    Part { offset: part.as_ptr() as usize - file.as_ptr() as usize, length: part.len() }
}

pub fn read(sheet: &[u8], file: &[u8], number: usize) -> Fetched {
    match judge::read(sheet, file, number as u64) {
        Ok(round) => Fetched {
            refusal: 0,
            round: Round {
                commitment: round.commitment,
                challenge: round.challenge,
                response: round.response,
            },
        },
        Err(refusal) => Fetched { refusal, ..Fetched::default() },
    }
}

pub fn same_commitment(sheet: &[u8], file: &[u8], i: usize, j: usize) -> Compared {
    match judge::same_commitment(sheet, file, i as u64, j as u64) {
        Ok(same) => Compared { refusal: 0, same: same.into() },
        Err(refusal) => Compared { refusal, same: 0 },
    }
}

pub fn empty(version: u32, buffer: &mut [u8]) -> Written {
    written(judge::empty(version.into(), buffer))
}

pub fn append(sheet: &[u8], buffer: &mut [u8], used: usize, added: &Round) -> Written {
    let appended = judge::append(sheet, buffer, used as u64, &round(added));
    written(appended.map(|length| length as usize))
}

pub fn convert(sheet: &[u8], file: &[u8], buffer: &mut [u8]) -> Written {
    written(judge::convert(sheet, file, buffer))
}

pub fn judge(sheet: &[u8], judged: &Round) -> Judgement {
    judgement(judge::judge(sheet, &round(judged)))
}

pub fn simulate(sheet: &[u8], challenge: u32, response: &Places) -> Computed {
    computed(judge::simulate(sheet, challenge, response))
}

pub fn extract(sheet: &[u8], first: &Round, second: &Round) -> Computed {
    computed(judge::extract(sheet, &round(first), &round(second)))
}

pub fn prover_new() -> ProverSession {
    prover_session(&ProverSession::default(), judge::Prover::new())
}

pub fn prover_commit(sheet: &[u8], given: ProverSession, nonce: &Places) -> ProverAnswer {
    prover_answer(given, judge::commit(sheet, prover(&given), nonce))
}

pub fn prover_respond(
    sheet: &[u8],
    given: ProverSession,
    challenge: u32,
    witness: &Places,
) -> ProverAnswer {
    let answer = judge::respond(sheet, prover(&given), challenge, witness);
    prover_answer(given, answer)
}

pub fn prover_drop(given: ProverSession) -> ProverAnswer {
    let (result, next) = judge::drop_session(prover(&given));
    prover_answer(given, (result.map(|()| [0; 8]), next))
}

/// All numbers of the saved state are the judge's, also if it saves what was saved
/// there: saving writes 1 beside it.
pub fn prover_save(given: ProverSession, name: u32) -> ProverAnswer {
    let (result, next) = judge::save(prover(&given), name.into());
    let mut cleared = given;
    if let (Ok(()), Some(state)) = (result, cleared.memory.saved.get_mut(name as usize)) {
        *state = Saved::default();
    }
    prover_answer(cleared, (result.map(|()| [0; 8]), next))
}

pub fn prover_return(given: ProverSession, name: u32) -> ProverAnswer {
    let (result, next) = judge::return_to(prover(&given), name.into());
    prover_answer(given, (result.map(|()| [0; 8]), next))
}

pub fn verifier_new() -> VerifierSession {
    verifier_session(judge::Verifier::new())
}

pub fn verifier_commitment(
    sheet: &[u8],
    given: VerifierSession,
    commitment: &Places,
) -> VerifierAnswer {
    let answer = judge::take_commitment(sheet, verifier(&given), commitment);
    verifier_answer(given, answer)
}

pub fn verifier_challenge(sheet: &[u8], given: VerifierSession, challenge: u32) -> VerifierAnswer {
    let answer = judge::take_challenge(sheet, verifier(&given), challenge);
    verifier_answer(given, answer)
}

pub fn verifier_response(
    sheet: &[u8],
    given: VerifierSession,
    response: &Places,
) -> VerifierJudgement {
    let (verdict, next) = judge::take_response(sheet, verifier(&given), response);
    let verdict = judgement(verdict);
    let session = if verdict.refusal == 0 { verifier_session(next) } else { given };
    VerifierJudgement { verdict, session }
}

pub fn mark(sheet: &[u8], file: &[u8], level: &[u8], text: &mut [u8; LONGEST_TEXT]) -> usize {
    let marked = judge::marker(sheet, file, level);
    text[..marked.len()].copy_from_slice(marked.as_bytes());
    marked.len()
}

pub fn reason(sheet: &[u8], file: &[u8], text: &mut [u8; LONGEST_REASON]) -> usize {
    let line = judge::reason(sheet, file);
    text[..line.len()].copy_from_slice(line.as_bytes());
    line.len()
}

pub fn game(sheet: &[u8], file: &[u8], text: &mut [u8; LONGEST_GAME]) -> usize {
    let played = judge::game(sheet, file);
    text[..played.len()].copy_from_slice(played.as_bytes());
    played.len()
}
