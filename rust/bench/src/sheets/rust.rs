//! Each call in Rust, as it is timed.

use std::hint::black_box;

use super::inputs::SheetInputs;
use crate::reference::{self, Arithmetic, Prover};

pub fn load<A: Arithmetic>(inputs: &mut SheetInputs) {
    let answer = reference::load::<A>(black_box(&inputs.sheet));
    black_box(&answer);
}

pub fn judge<A: Arithmetic>(inputs: &mut SheetInputs) {
    let answer = reference::judge::<A>(black_box(&inputs.sheet), black_box(&inputs.first));
    black_box(&answer);
}

pub fn simulate<A: Arithmetic>(inputs: &mut SheetInputs) {
    let (c, r) = black_box((inputs.first.challenge, &inputs.first.response));
    let answer = reference::simulate::<A>(black_box(&inputs.sheet), c, r);
    black_box(&answer);
}

pub fn extract<A: Arithmetic>(inputs: &mut SheetInputs) {
    let (first, second) = black_box((&inputs.first, &inputs.second));
    let answer = reference::extract::<A>(black_box(&inputs.sheet), first, second);
    black_box(&answer);
}

pub fn commit_and_respond<A: Arithmetic>(inputs: &mut SheetInputs) {
    let SheetInputs { sheet, nonce, witness, first, .. } = black_box(inputs);
    let mut session = Prover::new();
    let commitment = session.commit::<A>(sheet, nonce);
    let response = session.respond::<A>(sheet, first.challenge, witness);
    black_box((&commitment, &response, &session));
}

pub fn mark<A: Arithmetic>(inputs: &mut SheetInputs) {
    let SheetInputs { sheet, file, level, text, .. } = black_box(inputs);
    black_box(reference::mark::<A>(sheet, file, level, text));
}
