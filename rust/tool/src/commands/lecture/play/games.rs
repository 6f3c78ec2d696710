//! The games of a Peggy without a witness, who prepares one challenge and hopes for it.

use super::tables::Tables;
use crate::by_hand;
use crate::command_line::failure::Outcome;
use crate::command_line::json::Json;
use dimkhoros::{Instance, Round};

/// The most rounds that she prepares.
const PREPARED: u32 = 48;

/// The rounds that a Peggy without a witness prepares, each with what Vic says to her response for every challenge.
pub fn hopes(tables: &Tables<'_>) -> Outcome<Json> {
    let (challenges, responses) = (tables.challenges(), tables.responses.len() as u32);
    let count = super::game_count(challenges, PREPARED).min(responses * challenges);
    // The steps lie apart and reach all challenges and responses.
    let prepared = (0..count).map(|place| {
        let challenge = (place * 7 + place / challenges) % challenges;
        (challenge, (place * 5 + 3) % responses)
    });
    let games = prepared.map(|(challenge, response)| hope(tables, challenge, response as usize));
    Ok(Json::List(games.collect::<Outcome<Vec<Json>>>()?))
}

/// A prepared round, and Vic's check of it for each challenge.
fn hope(tables: &Tables<'_>, prepared: u32, place: usize) -> Outcome<Json> {
    let commitment = tables.commitments[prepared as usize][place];
    let response = tables.responses[place];
    let check = |challenge: u32| check(tables.sheet, &Round { commitment, challenge, response });
    let checks = (0..tables.challenges()).map(check).collect::<Outcome<Vec<Json>>>()?;
    Ok(Json::Object(vec![
        ("challenge", prepared.into()),
        ("response", place.into()),
        ("checks", Json::List(checks)),
    ]))
}

/// Vic's check of a round: whether he accepts, and both sides of each row.
pub fn check(sheet: &Instance, round: &Round) -> Outcome<Json> {
    let accepted = sheet.judge(round)?.is_accepted();
    let sides = by_hand::sides(sheet, round).unwrap_or_default();
    let rows = sides.iter().map(|side| Json::numbers(&[side.image, side.right])).collect();
    Ok(Json::List(vec![accepted.into(), Json::List(rows)]))
}
