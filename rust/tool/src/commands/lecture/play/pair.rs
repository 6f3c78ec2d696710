//! The games of the OR proof: a class sees rounds of a Peggy who holds one of two witnesses, and guesses which.

use super::games::check;
use crate::command_line::failure::{Failure, Outcome};
use crate::command_line::json::Json;
use crate::commands::lecture::or_pair::{SIDES, Shown};
use crate::commands::lecture::or_rounds::Choice;
use crate::commands::or_proof::rounds::of_side;
use crate::sheets::{notation, small};
use dimkhoros::{OrRound, Places, Side};

/// The most games.
const GAMES: u32 = 24;

/// The games of a pair, in turn of each holder.
pub fn games(shown: &Shown<'_>) -> Outcome<Json> {
    let challenges = shown.pair.instance(Side::First).values().header.challenges;
    let domain = |side: Side| {
        small::domain(shown.pair.instance(side), small::MOST as usize).unwrap_or_default()
    };
    let domains = SIDES.map(domain);
    let holders = shown.holders();
    let game = |place: u32| -> Outcome<Json> {
        let side = holders[place as usize % holders.len()];
        let value = |side: Side, step: u32| -> Places {
            let domain = &domains[side.number() as usize];
            domain[(place * step + step) as usize % domain.len()]
        };
        let (nonce, response) = (value(side, 5), value(side.other(), 7));
        let challenge = (place * 3 + 2) % challenges;
        data(shown, &Choice { side, nonce, challenge, response }, challenges)
    };
    let all = (0..super::game_count(challenges, GAMES)).map(game);
    let witness = |side: Side| {
        let held = holders.contains(&side);
        held.then(|| notation::by_column(shown.pair.instance(side), &shown.witness(side))).into()
    };
    Ok(Json::Object(vec![
        ("challenges", challenges.into()),
        ("witnesses", Json::List(SIDES.map(witness).to_vec())),
        ("games", Json::List(all.collect::<Outcome<Vec<Json>>>()?)),
    ]))
}

/// A game with its rounds for every challenge. Two of them on the same commitments give the holder's witness.
fn data(shown: &Shown<'_>, choice: &Choice, challenges: u32) -> Outcome<Json> {
    let rounds = (0..challenges).map(|challenge| shown.made(choice, challenge));
    let rounds = rounds.collect::<Outcome<Vec<OrRound>>>()?;
    for two in rounds.windows(2) {
        let found = shown.pair.extract(&two[0], &two[1])?;
        if (found.side, found.values) != (choice.side, shown.witness(choice.side)) {
            return Err(Failure::failed("two rounds of a holder give another witness"));
        }
    }
    let commitments =
        SIDES.map(|side| Json::from(shown.values(side, &rounds[0])[0].clone())).to_vec();
    let answers = rounds.iter().map(|round| answer(shown, round));
    Ok(Json::Object(vec![
        ("side", choice.side.number().into()),
        ("commitments", Json::List(commitments)),
        ("answers", Json::List(answers.collect::<Outcome<Vec<Json>>>()?)),
    ]))
}

/// What Peggy answers, each side's challenge and response, and the checks of both sides.
fn answer(shown: &Shown<'_>, round: &OrRound) -> Outcome<Json> {
    let mut values: Vec<Json> = Vec::new();
    for side in SIDES {
        values.push(of_side(&shown.pair, round, side).challenge.into());
        values.push(Json::from(shown.values(side, round)[1].clone()));
    }
    for side in SIDES {
        values.push(check(shown.pair.instance(side), &of_side(&shown.pair, round, side))?);
    }
    Ok(Json::List(values))
}
