//! The rounds of the OR proof that a page shows. The library makes and judges each of them.

use super::rounds;
use crate::commands::or_proof::rounds::of_side;
use dimkhoros::{OrProver, OrRound, Pair, Places, Refusal, Side};

/// What a holder of one witness chooses.
#[derive(Clone, Copy, Debug, PartialEq)]
pub struct Choice {
    /// The side whose witness is known.
    pub side: Side,
    /// The nonce on that side.
    pub nonce: Places,
    /// The challenge with which the other side is simulated.
    pub challenge: u32,
    /// The response with which it is simulated.
    pub response: Places,
}

/// The round that a choice, a challenge and a witness lead to.
pub fn made(
    pair: &Pair<'_>,
    choice: &Choice,
    challenge: u32,
    witness: &Places,
) -> Result<OrRound, Refusal> {
    let Choice { side, nonce, challenge: simulated, response } = choice;
    let (peggy, _) = OrProver::new().commit(pair, *side, nonce, *simulated, response)?;
    let (_, round) = peggy.respond(pair, challenge, witness)?;
    Ok(round)
}

/// The choice with which the holder of a side's witness makes a round.
pub fn choice(
    pair: &Pair<'_>,
    side: Side,
    round: &OrRound,
    witness: &Places,
) -> Result<Choice, Refusal> {
    let (own, other) = (of_side(pair, round, side), of_side(pair, round, side.other()));
    let nonce = rounds::nonce(pair.instance(side), own.challenge, &own.response, witness)?;
    Ok(Choice { side, nonce, challenge: other.challenge, response: other.response })
}

/// The challenge to simulate where none is given: one with which the holder's own is another, and neither 0 nor 1, if there is
/// one.
pub fn default_challenge(
    pair: &Pair<'_>,
    choice: &Choice,
    challenge: u32,
    witness: &Places,
) -> u32 {
    let count = pair.instance(choice.side).values().header.challenges;
    let good = |simulated: &u32| {
        let choice = Choice { challenge: *simulated, ..*choice };
        let made = made(pair, &choice, challenge, witness);
        made.is_ok_and(|round| {
            let own = of_side(pair, &round, choice.side).challenge;
            own > 1 && own != *simulated
        })
    };
    let values = [4, 6, 8, 5, 2, 3, 1, 0];
    let mut known = values.into_iter().filter(|value| *value < count);
    let first = known.clone().find(good);
    first.or_else(|| known.next()).unwrap_or(0)
}
