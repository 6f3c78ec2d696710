//! The witness that two rounds of the OR proof give away.

use super::rounds;
use crate::command_line::colour;
use crate::command_line::failure::{Failure, Outcome};
use crate::command_line::table::{self, Set};
use crate::command_line::words::Words;
use crate::sheets::{brought, notation, witness};
use dimkhoros::{OrRound, OrWitness, Pair, Refusal, Side};
use std::ffi::OsString;
use std::io::Write;

/// Prints two rounds, which side's witness they give, and the witness.
pub fn run(words: Vec<OsString>, out: &mut dyn Write) -> Outcome {
    let words = Words::sort(words, &rounds::GRAMMAR)?;
    let groups = words.groups();
    let [one, other] = &groups[..] else {
        return Err(Failure::words(how_many(groups.len())));
    };
    let sheets = rounds::load(&words)?;
    let pair = rounds::pair(&words, &sheets)?;
    let one = rounds::read(&pair, one, None)?;
    let other = rounds::read(&pair, other, Some(&one))?;
    let extracted = pair.extract(&one, &other);
    if let Err(refusal) = extracted
        && brought::is_by_value(refusal)
    {
        let brought = [one, other].map(|round| rounds::brought(&pair, &round));
        return Err(brought::refused(refusal, &brought.into_iter().flatten().collect::<Vec<_>>()));
    }
    out.write_all(listed(&pair, &[one, other])?.as_bytes())?;
    let witness = extracted.map_err(|refusal| refused(&pair, &one, &other, refusal))?;
    write!(out, "\n{}", explained(&pair, &one, &other, &witness)?)?;
    Ok(())
}

/// Says that another number of rounds is there than two.
fn how_many(found: usize) -> String {
    let rounds = if found == 1 { "round is" } else { "rounds are" };
    format!("two rounds are needed, and {found} {rounds} there")
}

/// The table of the rounds, with the challenges of side 1 and the verdicts.
fn listed(pair: &Pair<'_>, all: &[OrRound]) -> Outcome<String> {
    let head = ["round", "t0", "t1", "c", "c0", "c1", "r0", "r1", "verdict"];
    let mut lines = vec![head.map(str::to_string).to_vec()];
    for (number, round) in all.iter().enumerate() {
        let sides = [Side::First, Side::Second];
        let [first, second] = sides.map(|side| pair.instance(side));
        lines.push(vec![
            number.to_string(),
            notation::by_row(first, &round.commitment0),
            notation::by_row(second, &round.commitment1),
            round.challenge.to_string(),
            round.challenge0.to_string(),
            rounds::second_challenge(pair, round).to_string(),
            notation::by_column(first, &round.response0),
            notation::by_column(second, &round.response1),
            colour::verdict(&pair.judge(round)?.to_string()),
        ]);
    }
    let mut set = [Set::Right; 9];
    set[8] = Set::Left;
    Ok(table::lines("", &set, &lines))
}

/// A refusal of the extractor, with the values that it is by.
fn refused(pair: &Pair<'_>, one: &OrRound, other: &OrRound, refusal: Refusal) -> Failure {
    let [first, second] = [Side::First, Side::Second].map(|side| pair.instance(side));
    let t0 = [one, other].map(|round| notation::by_row(first, &round.commitment0));
    let t1 = [one, other].map(|round| notation::by_row(second, &round.commitment1));
    let is_rejected =
        |round: &OrRound| pair.judge(round).is_ok_and(|verdict| !verdict.is_accepted());
    let rejected = [*one, *other].map(|round| is_rejected(&round));
    brought::of_two(refusal, &[("t0", t0), ("t1", t1)], one.challenge, rejected)
}

/// Which side gives its witness and why, the witness, and its image.
fn explained(
    pair: &Pair<'_>,
    one: &OrRound,
    other: &OrRound,
    witness: &OrWitness,
) -> Outcome<String> {
    let (side, sheet) = (witness.side, pair.instance(witness.side));
    let [first, second] = [one, other].map(|round| rounds::of_side(pair, round, side));
    let why = match side {
        Side::First => "The c0 differ".to_string(),
        Side::Second => format!("c differs and c0 is {} in both, so the c1 differ", one.challenge0),
    };
    let (c, d) = (first.challenge, second.challenge);
    let [first, second] = [first, second].map(|round| notation::round(sheet, &round));
    let x = notation::by_column(sheet, &witness.values);
    if sheet.image(&witness.values) != Ok(sheet.values().statement) {
        return Err(witness::no_witness(sheet, "x", &witness.values));
    }
    let checked = witness::is_witness(sheet, &witness.values, &format!("the statement of {side}"));
    Ok(format!(
        "{why}, {c} and {d}.\nSo {side} gives its witness.\n\
         The rounds {first} and {second} of {side} give x = {x}.\n{checked}\n"
    ))
}
