//! Whether the library and a version in Rust answer a call alike.

use dimkhoros_sys::{
    self as proved, Computed, EXPONENT, Header, Judgement, LONGEST_TEXT, Loaded, Places,
    ProverSession, ROOT,
};

use super::inputs::SheetInputs;
use crate::reference::{self, Arithmetic, Kind, Prover, Sheet, Verdict};

pub fn load<A: Arithmetic>(inputs: &mut SheetInputs) -> bool {
    proved::load(&inputs.sheet) == loaded(&reference::load::<A>(&inputs.sheet))
}

pub fn judge<A: Arithmetic>(inputs: &mut SheetInputs) -> bool {
    let SheetInputs { sheet, first, .. } = inputs;
    proved::judge(sheet, first) == judgement(&reference::judge::<A>(sheet, first))
}

pub fn simulate<A: Arithmetic>(inputs: &mut SheetInputs) -> bool {
    let (c, r) = (inputs.first.challenge, &inputs.first.response);
    result(&proved::simulate(&inputs.sheet, c, r)) == reference::simulate::<A>(&inputs.sheet, c, r)
}

pub fn extract<A: Arithmetic>(inputs: &mut SheetInputs) -> bool {
    let SheetInputs { sheet, first, second, .. } = inputs;
    result(&proved::extract(sheet, first, second)) == reference::extract::<A>(sheet, first, second)
}

pub fn commit_and_respond<A: Arithmetic>(inputs: &mut SheetInputs) -> bool {
    let SheetInputs { sheet, nonce, witness, first, .. } = inputs;
    let mut session = Prover::new();
    let committed = proved::prover_commit(sheet, proved::prover_new(), nonce);
    let answered = proved::prover_respond(sheet, committed.session, first.challenge, witness);
    values(committed.refusal, committed.values) == session.commit::<A>(sheet, nonce)
        && committed.session == handed(&session)
        && values(answered.refusal, answered.values)
            == session.respond::<A>(sheet, first.challenge, witness)
        && answered.session == handed(&session)
}

pub fn mark<A: Arithmetic>(inputs: &mut SheetInputs) -> bool {
    let mut text = [0; LONGEST_TEXT];
    inputs.text.fill(0);
    let SheetInputs { sheet, file, level, text: proved_text, .. } = inputs;
    let length = proved::mark(sheet, file, level, proved_text);
    length == reference::mark::<A>(sheet, file, level, &mut text) && **proved_text == text
}

/// What the library has to answer where loading in Rust gives this.
fn loaded<A>(answer: &Result<Sheet<A>, u32>) -> Loaded {
    match answer {
        Ok(sheet) => Loaded {
            refusal: 0,
            header: Header {
                kind: match sheet.kind {
                    Kind::Exponent => EXPONENT,
                    Kind::Root => ROOT,
                },
                modulus: sheet.modulus,
                order: sheet.order,
                challenges: sheet.challenges,
                rows: sheet.rows as u32,
                columns: sheet.columns as u32,
            },
            statement: sheet.statement,
        },
        &Err(refusal) => Loaded { refusal, ..Loaded::default() },
    }
}

/// What the library has to answer where judging in Rust gives this.
pub fn judgement(answer: &Result<Verdict, u32>) -> Judgement {
    let (refusal, accepted, rows) = match *answer {
        Ok(Verdict::Accepted) => (0, 1, 0),
        Ok(Verdict::Rejected(rows)) => (0, 0, rows),
        Err(refusal) => (refusal, 0, 0),
    };
    Judgement { refusal, accepted, rows }
}

/// The session that the library has to hand back where Rust has this one.
fn handed(session: &Prover) -> ProverSession {
    ProverSession {
        phase: session.phase as u32,
        nonce: session.nonce,
        commitment: session.commitment,
        memory: session.memory,
    }
}

/// The library's answer as Rust gives it.
fn result(answer: &Computed) -> Result<Places, u32> {
    values(answer.refusal, answer.values)
}

/// Values, or the number of a refusal.
fn values(refusal: u32, values: Places) -> Result<Places, u32> {
    match refusal {
        0 => Ok(values),
        number => Err(number),
    }
}
