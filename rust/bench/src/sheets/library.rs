//! Each call on the library, as it is timed.

use std::hint::black_box;

use dimkhoros_sys as proved;

use super::inputs::SheetInputs;

pub fn load(inputs: &mut SheetInputs) {
    let answer = proved::load(black_box(&inputs.sheet));
    black_box(&answer);
}

pub fn judge(inputs: &mut SheetInputs) {
    let answer = proved::judge(black_box(&inputs.sheet), black_box(&inputs.first));
    black_box(&answer);
}

pub fn simulate(inputs: &mut SheetInputs) {
    let (c, r) = black_box((inputs.first.challenge, &inputs.first.response));
    let answer = proved::simulate(black_box(&inputs.sheet), c, r);
    black_box(&answer);
}

pub fn extract(inputs: &mut SheetInputs) {
    let (first, second) = black_box((&inputs.first, &inputs.second));
    let answer = proved::extract(black_box(&inputs.sheet), first, second);
    black_box(&answer);
}

pub fn commit_and_respond(inputs: &mut SheetInputs) {
    let SheetInputs { sheet, nonce, witness, first, .. } = black_box(inputs);
    let session = proved::prover_new();
    let committed = proved::prover_commit(sheet, session, nonce);
    let answered = proved::prover_respond(sheet, committed.session, first.challenge, witness);
    black_box((&committed.values, &answered));
}

pub fn mark(inputs: &mut SheetInputs) {
    let SheetInputs { sheet, file, level, text, .. } = black_box(inputs);
    black_box(proved::mark(sheet, file, level, text));
}
