//! Rounds of sheets whose tables are made at random.

use super::{Met, Pair, Product, Ways};
use crate::groups::Group;
use crate::instance::Instance;
use crate::library::{Library, Places, Round};
use crate::making::change;
use crate::random::Random;

/// How many pairs of sheets are made.
const PAIRS: u64 = 2000;

/// Tries a round of each sheet, one of them changed, and two rounds of each.
pub fn check(library: Library, ways: Ways, met: &mut Met) -> Result<(), String> {
    for seed in 0..PAIRS {
        let mut random = Random::new(seed);
        let sheets = sheets(&mut random);
        let product = Product::new(library, ways, sheets.each_ref().map(|it| &it.sheet))?;
        let challenge = sheets[0].challenge(&mut random);
        let rounds = sheets.each_ref().map(|it| it.accepted_to(&mut random, challenge));
        judge(&product, rounds, true, met)?;
        judge(&product, changed(&mut random, &sheets, rounds), false, met)?;
        if let Some(pairs) = pairs(&mut random, &sheets, challenge) {
            product.check_extracted([&pairs[0], &pairs[1]], met)?;
        }
        met.random += 1;
        met.calls += product.calls.get();
    }
    Ok(())
}

/// Two sheets of one table of any kind. The second has the statement of the first, or
/// another with a known witness, or any. Places that no call reads hold any numbers.
fn sheets(random: &mut Random) -> [Instance; 2] {
    let group = Group::any(random);
    let (kind, modulus, order) = (group.kind, group.modulus, group.order);
    let mut one = Instance::of_group(random, group);
    one.sheet.fill_unread(random);
    let mut other = Instance {
        group: Group::new(kind, modulus, order),
        sheet: one.sheet.clone(),
        witness: one.witness,
    };
    match random.below(4) {
        0 => {}
        1 => {
            other.sheet.statement = other.elements(random);
            other.witness = None;
        }
        _ => {
            let witness = other.slots(random);
            other.sheet.statement = other.sheet.image(&witness);
            other.witness = Some(witness);
        }
    }
    [one, other]
}

/// One of the rounds changed, and not its challenge.
fn changed(random: &mut Random, sheets: &[Instance; 2], mut rounds: [Round; 2]) -> [Round; 2] {
    let side = random.below(2);
    let challenge = rounds[side].challenge;
    change(random, &sheets[side], &mut rounds[side]);
    rounds[side].challenge = challenge;
    rounds
}

/// Judges a round of each sheet and their product. An error says that one is not accepted
/// that is made to be.
fn judge(
    product: &Product,
    rounds: [Round; 2],
    accepted: bool,
    met: &mut Met,
) -> Result<(), String> {
    let verdicts = [0, 1].map(|side| product.judge(&product.factors[side], &rounds[side]));
    if accepted && verdicts.iter().any(|verdict| verdict.accepted == 0) {
        return Err(product.fails(&format!("{rounds:?} are not accepted: {verdicts:?}")));
    }
    if verdicts.iter().any(|verdict| verdict.refusal > 0) {
        return Ok(());
    }
    product.check_product(rounds.each_ref(), verdicts, met)
}

/// Two rounds of each sheet to this challenge and to another, by its witness and one
/// nonce, if both witnesses are known. A response may be another with the same image.
fn pairs(random: &mut Random, sheets: &[Instance; 2], challenge: u32) -> Option<[Pair; 2]> {
    let witnesses = [sheets[0].witness?, sheets[1].witness?];
    let challenges = [challenge, sheets[0].other_challenge(random, challenge)];
    Some([0, 1].map(|side| pair(random, &sheets[side], &witnesses[side], challenges)))
}

fn pair(random: &mut Random, instance: &Instance, witness: &Places, challenges: [u32; 2]) -> Pair {
    let nonce = instance.slots(random);
    challenges.map(|challenge| {
        let mut response = instance.response(&nonce, challenge, witness);
        instance.shift(random, &mut response);
        Round { commitment: instance.sheet.image(&nonce), challenge, response }
    })
}
