//! Runs of Peggy's session of the OR proof, from new ones on.

use crate::calls::Call;
use crate::cases::{Case, OrSessionCase, OrStep};
use crate::instance::Instance;
use crate::making::brought::{fill_unread, spoil_slots, wrong_challenge};
use crate::making::or_prover::{Held, places, sheets};
use crate::making::pairs::PairInputs;
use crate::pair::Pair;
use crate::random::Random;

/// A case of a run, honest or with some changes.
pub fn run(random: &mut Random) -> Box<dyn Case> {
    let side = random.between(0, 1);
    let inputs = PairInputs::of_call(random, Call::OrProverRespond, sheets(side));
    let pair = &inputs.pair;
    let mut steps = honest(random, pair, side);
    if !random.once_in(3) {
        for _ in 0..random.between(1, 3) {
            change(random, pair, side, &mut steps);
        }
    }
    let sheets = if random.once_in(10) {
        inputs.bytes(random)
    } else {
        pair.instances.each_ref().map(|instance| instance.sheet.bytes())
    };
    Box::new(OrSessionCase { sheets, made: None, steps })
}

/// The two calls of an honest run.
fn honest(random: &mut Random, pair: &Pair, side: u32) -> Vec<OrStep> {
    let instance = &pair.instances[places(side).0];
    let mut witness = instance.witness.unwrap_or_default();
    fill_unread(random, &mut witness, instance.columns());
    let challenge = instance.challenge(random);
    let commit = Held::any(random, pair, side).commit(random, pair);
    vec![commit, OrStep::Respond { challenge, witness }]
}

/// Changes the calls: one twice, one left out, both in the other order, a drop
/// between them, or one with another value that a right one may follow.
fn change(random: &mut Random, pair: &Pair, side: u32, steps: &mut Vec<OrStep>) {
    let place = random.below(steps.len());
    let Some(step) = steps.get(place).copied() else {
        return;
    };
    match random.below(6) {
        0 => steps.insert(place, step),
        1 => {
            steps.remove(place);
        }
        2 => steps.reverse(),
        3 => steps.insert(place, OrStep::Drop),
        4 => steps.push(step),
        _ => steps.insert(place, changed(random, &pair.instances[places(side).0], step)),
    }
}

/// The call with another value, which is mostly a wrong one.
fn changed(random: &mut Random, instance: &Instance, mut step: OrStep) -> OrStep {
    match &mut step {
        OrStep::Commit { nonce: slots, .. } | OrStep::Respond { witness: slots, .. }
            if random.once_in(2) =>
        {
            spoil_slots(random, instance, slots);
        }
        OrStep::Commit { challenge, .. } | OrStep::Respond { challenge, .. } => {
            *challenge = wrong_challenge(random, instance);
        }
        OrStep::Drop => {}
    }
    step
}
