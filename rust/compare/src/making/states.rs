//! Cases of saving Peggy's session and of returning, with sessions made by hand.

use crate::calls::Call;
use crate::cases::{Case, SessionCase, Sessions, Step};
use crate::instance::Instance;
use crate::library::ProverSession;
use crate::making::inputs::Inputs;
use crate::making::memories::{name, no_name, saved};
use crate::making::phases::any_phase;
use crate::making::prover::any_held;
use crate::random::Random;

/// A case of saving, in any phase, often over what was saved. Now and then it is
/// followed by a return to the name and another call.
pub fn save(random: &mut Random) -> Box<dyn Case> {
    let inputs = inputs(random, Call::ProverSave);
    let mut session = any_held(random, &inputs.instance);
    session.phase = any_phase(random);
    let name = if inputs.faults.is_empty() { name(random) } else { no_name(random) };
    let mut steps = vec![Step::Save { name }];
    if random.once_in(3) {
        steps.push(Step::Return { name });
        steps.push(next(random, &inputs.instance, name));
    }
    made(&inputs, session, steps)
}

/// A case of returning, from any phase to any. Half of them are followed by another
/// call.
pub fn return_to(random: &mut Random) -> Box<dyn Case> {
    let inputs = inputs(random, Call::ProverReturn);
    let mut session = any_held(random, &inputs.instance);
    session.phase = any_phase(random);
    let right = name(random);
    let state = &mut session.memory.saved[right as usize];
    *state = saved(random, &inputs.instance);
    let mut name = right;
    if !inputs.faults.is_empty() {
        match random.below(3) {
            0 => state.kept = 0,
            1 => *state = Default::default(),
            _ => name = no_name(random),
        }
    }
    let mut steps = vec![Step::Return { name }];
    if random.once_in(2) {
        steps.push(next(random, &inputs.instance, name));
    }
    made(&inputs, session, steps)
}

/// A sheet whose witness is known, and the faults of a call that takes none.
fn inputs(random: &mut Random, call: Call) -> Inputs {
    let mut inputs = Inputs::known(random, call);
    inputs.faults.retain(|fault| call.others().contains(fault));
    inputs
}

/// Any of the five calls, which is right on this sheet.
fn next(random: &mut Random, instance: &Instance, name: u32) -> Step {
    match random.below(6) {
        0 => Step::Commit { nonce: instance.slots(random) },
        1 => Step::Drop,
        2 => Step::Save { name },
        3 => Step::Return { name },
        _ => Step::Respond {
            challenge: instance.challenge(random),
            witness: instance.witness.unwrap_or_default(),
        },
    }
}

fn made(inputs: &Inputs, session: ProverSession, steps: Vec<Step>) -> Box<dyn Case> {
    Box::new(SessionCase {
        sheet: inputs.instance.sheet.bytes(),
        made: Some(Sessions::from(session)),
        steps,
    })
}
