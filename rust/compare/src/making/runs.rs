//! Whole runs of both sessions, from new ones on.

use crate::calls::Call;
use crate::cases::{Case, SessionCase, Step};
use crate::instance::Instance;
use crate::making::brought::{
    change_slot, fill_unread, spoil_commitment, spoil_slots, wrong_challenge,
};
use crate::making::inputs::Inputs;
use crate::random::Random;

/// A case of a run of both, honest or with some changes.
pub fn run(random: &mut Random) -> Box<dyn Case> {
    let inputs = Inputs::known(random, Call::ProverRespond);
    let instance = &inputs.instance;
    let mut steps = honest(random, instance);
    if random.once_in(5) {
        steps.extend(honest(random, instance));
    }
    if !random.once_in(3) {
        for _ in 0..random.between(1, 3) {
            change(random, instance, &mut steps);
        }
    }
    let sheet = if random.once_in(10) { inputs.bytes(random) } else { instance.sheet.bytes() };
    Box::new(SessionCase { sheet, made: None, steps })
}

/// The five calls of an honest run, with any numbers in places not to be read.
fn honest(random: &mut Random, instance: &Instance) -> Vec<Step> {
    let mut nonce = instance.slots(random);
    let mut witness = instance.witness.unwrap_or_default();
    let challenge = instance.challenge(random);
    let mut commitment = instance.sheet.image(&nonce);
    let mut response = instance.response(&nonce, challenge, &witness);
    fill_unread(random, &mut commitment, instance.rows());
    for slots in [&mut nonce, &mut witness, &mut response] {
        fill_unread(random, slots, instance.columns());
    }
    vec![
        Step::Commit { nonce },
        Step::Commitment { commitment },
        Step::Challenge { challenge },
        Step::Respond { challenge, witness },
        Step::Response { response },
    ]
}

/// Changes the calls: one twice, one left out, two in the other order, one
/// with another value, or one that a right one follows. Or Peggy drops.
fn change(random: &mut Random, instance: &Instance, steps: &mut Vec<Step>) {
    let (place, count) = (random.below(steps.len()), steps.len());
    let Some(step) = steps.get(place).copied() else {
        return;
    };
    match random.below(7) {
        0 => steps.insert(place, step),
        1 => {
            steps.remove(place);
        }
        2 => steps.swap(place, (place + 1) % count),
        3 => steps.insert(place, Step::Drop),
        4 => steps[place] = changed(random, instance, step),
        5 => steps.push(step),
        _ => steps.insert(place, changed(random, instance, step)),
    }
}

/// The call with another value, which is mostly a wrong one.
fn changed(random: &mut Random, instance: &Instance, mut step: Step) -> Step {
    match &mut step {
        Step::Commit { nonce: slots }
        | Step::Respond { witness: slots, .. }
        | Step::Response { response: slots } => {
            if random.once_in(2) {
                spoil_slots(random, instance, slots);
            } else {
                change_slot(random, instance, slots);
            }
        }
        Step::Commitment { commitment } if random.once_in(2) => {
            spoil_commitment(random, instance, commitment);
        }
        Step::Commitment { commitment } => *commitment = instance.elements(random),
        Step::Challenge { challenge } if random.once_in(2) => {
            *challenge = wrong_challenge(random, instance);
        }
        Step::Challenge { challenge } => {
            *challenge = instance.challenge(random);
        }
        Step::Drop | Step::Save { .. } | Step::Return { .. } => {}
    }
    step
}
