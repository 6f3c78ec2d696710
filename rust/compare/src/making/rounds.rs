//! Cases of judging, simulating and extracting.

use crate::calls::Call;
use crate::cases::{Case, RoundCall, RoundCase};
use crate::instance::Instance;
use crate::library::{Places, Round};
use crate::making::brought::{
    change, change_rows, change_slot, fill_round, fill_unread, round, spoil_round, spoil_slots,
    wrong_challenge,
};
use crate::making::inputs::Inputs;
use crate::random::Random;

/// A case of judging.
pub fn judge(random: &mut Random) -> Box<dyn Case> {
    let inputs = Inputs::of_call(random, Call::Judge);
    let instance = &inputs.instance;
    let mut judged = round(random, instance);
    for fault in &inputs.faults {
        spoil_round(random, instance, &mut judged, *fault);
    }
    fill_round(random, instance, &mut judged);
    Box::new(RoundCase { sheet: inputs.bytes(random), call: RoundCall::Judge(judged) })
}

/// A case of simulating.
pub fn simulate(random: &mut Random) -> Box<dyn Case> {
    let inputs = Inputs::of_call(random, Call::Simulate);
    let instance = &inputs.instance;
    let mut challenge = instance.challenge(random);
    let mut response = instance.slots(random);
    for fault in &inputs.faults {
        match fault {
            15 => challenge = wrong_challenge(random, instance),
            16 => spoil_slots(random, instance, &mut response),
            _ => {}
        }
    }
    fill_unread(random, &mut response, instance.columns());
    Box::new(RoundCase {
        sheet: inputs.bytes(random),
        call: RoundCall::Simulate { challenge, response },
    })
}

/// A case of extracting, with the larger challenge in either place.
pub fn extract(random: &mut Random) -> Box<dyn Case> {
    let inputs = Inputs::known(random, Call::Extract);
    let instance = &inputs.instance;
    let mut rounds = pair(random, instance);
    for fault in &inputs.faults {
        spoil_pair(random, instance, &mut rounds, *fault);
    }
    for round in &mut rounds {
        fill_round(random, instance, round);
    }
    let [first, second] = rounds;
    Box::new(RoundCase { sheet: inputs.bytes(random), call: RoundCall::Extract { first, second } })
}

/// Two accepted rounds with one commitment and two challenges, for a sheet
/// whose witness is known.
fn pair(random: &mut Random, instance: &Instance) -> [Round; 2] {
    let nonce = instance.slots(random);
    let challenge = instance.challenge(random);
    let other = instance.other_challenge(random, challenge);
    [challenge, other].map(|challenge| with_nonce(random, instance, &nonce, challenge))
}

/// An accepted round with the commitment of this nonce.
pub fn with_nonce(
    random: &mut Random,
    instance: &Instance,
    nonce: &Places,
    challenge: u32,
) -> Round {
    let witness = instance.witness.unwrap_or_default();
    let mut response = instance.response(nonce, challenge, &witness);
    if random.once_in(3) {
        instance.shift(random, &mut response);
    }
    Round { commitment: instance.sheet.image(nonce), challenge, response }
}

/// Puts a fault into one of two rounds or into both.
fn spoil_pair(random: &mut Random, instance: &Instance, rounds: &mut [Round; 2], number: u32) {
    let one = random.below(2);
    match number {
        14..=16 => {
            spoil_round(random, instance, &mut rounds[one], number);
            if random.once_in(3) {
                spoil_round(random, instance, &mut rounds[1 - one], number);
            }
        }
        18 if random.once_in(2) => {
            let (nonce, challenge) = (instance.slots(random), rounds[one].challenge);
            rounds[one] = with_nonce(random, instance, &nonce, challenge);
        }
        18 => change_rows(random, instance, &mut rounds[one].commitment),
        19 if random.once_in(2) => rounds[one] = rounds[1 - one],
        19 => rounds[one].challenge = rounds[1 - one].challenge,
        20 => reject_pair(random, instance, rounds, one),
        _ => {}
    }
}

/// Makes one round, or both, rejected in most cases.
fn reject_pair(random: &mut Random, instance: &Instance, rounds: &mut [Round; 2], one: usize) {
    match random.below(5) {
        0 => {
            change_rows(random, instance, &mut rounds[one].commitment);
            rounds[1 - one].commitment = rounds[one].commitment;
        }
        1 => {
            change_slot(random, instance, &mut rounds[one].response);
            change_slot(random, instance, &mut rounds[1 - one].response);
        }
        2 => change(random, instance, &mut rounds[one]),
        _ => change_slot(random, instance, &mut rounds[one].response),
    }
}
