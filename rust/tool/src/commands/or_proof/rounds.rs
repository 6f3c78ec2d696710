//! Rounds of the OR proof as words, and their two sides.

use crate::command_line::failure::{Failure, Outcome};
use crate::command_line::files;
use crate::command_line::words::{Grammar, Value, Words};
use crate::sheets::brought::Brought;
use crate::sheets::{self, column_count, notation, row_count};
use dimkhoros::{Instance, OrRound, Pair, Places, Round, Side};

/// The words of rounds of two sheets.
pub const GRAMMAR: Grammar = Grammar {
    plain: &["SHEET0", "SHEET1"],
    optional: 0,
    letters: &["t0", "t1", "c", "c0", "r0", "r1"],
    flags: &[],
    options: &[],
};

/// The two sheets that the words name.
pub fn load(words: &Words) -> Outcome<[Instance; 2]> {
    Ok([sheets::load(&words.path(0))?, sheets::load(&words.path(1))?])
}

/// The pair of two sheets, which the words name.
pub fn pair<'a>(words: &Words, [first, second]: &'a [Instance; 2]) -> Outcome<Pair<'a>> {
    Pair::new(first, second).map_err(|refusal| {
        let of = |place: usize, sheet: &Instance| {
            let challenges = sheet.values().header.challenges;
            format!("K = {challenges} of {}", files::name(&words.path(place)))
        };
        Failure::refused(refusal, format!("{} and {}", of(0, first), of(1, second)))
    })
}

/// The round in a group of values. Commitments that it does not have are those of another round, if there is one.
pub fn read(pair: &Pair<'_>, group: &[Value], before: Option<&OrRound>) -> Outcome<OrRound> {
    let [first, second] = [Side::First, Side::Second].map(|side| pair.instance(side));
    let find = |letter: &str| group.iter().find(|value| value.letter == letter);
    let needed = |letter| find(letter).ok_or_else(|| missing(letter, before.is_some()));
    let commitment = |letter, sheet, other: Option<Places>| match (find(letter), other) {
        (None, Some(other)) => Ok(other),
        _ => sheets::by_row(sheet, needed(letter)?),
    };
    Ok(OrRound {
        commitment0: commitment("t0", first, before.map(|round| round.commitment0))?,
        commitment1: commitment("t1", second, before.map(|round| round.commitment1))?,
        challenge: needed("c")?.number()?,
        challenge0: needed("c0")?.number()?,
        response0: sheets::by_column(first, needed("r0")?)?,
        response1: sheets::by_column(second, needed("r1")?)?,
    })
}

/// Says that a round has no value of a letter.
fn missing(letter: &str, second: bool) -> Failure {
    let of = if second { " in the second round" } else { "" };
    Failure::words(format!("{letter}= is missing{of}"))
}

/// What a round brings.
pub fn brought<'a>(pair: &Pair<'a>, round: &OrRound) -> Vec<Brought<'a>> {
    let [first, second] = [Side::First, Side::Second].map(|side| pair.instance(side));
    vec![
        Brought::commitment(first, "t0", &round.commitment0),
        Brought::commitment(second, "t1", &round.commitment1),
        Brought::challenge(first, "c", round.challenge),
        Brought::challenge(first, "c0", round.challenge0),
        Brought::coordinates(first, "r0", &round.response0),
        Brought::coordinates(second, "r1", &round.response1),
    ]
}

/// The challenge of side 1, (c - c0) mod K, of a round whose challenges are below K.
pub fn second_challenge(pair: &Pair<'_>, round: &OrRound) -> u32 {
    let (challenge, first) = (round.challenge, round.challenge0);
    match challenge.checked_sub(first) {
        Some(second) => second,
        None => challenge + (challenge_count(pair) - first),
    }
}

/// The challenge count of both sheets.
fn challenge_count(pair: &Pair<'_>) -> u32 {
    pair.instance(Side::First).values().header.challenges
}

/// How the challenge of a side is had of c and the other's, such as `c1 = (c - c0) mod K = (2 - 4) mod 5 = 3`.
pub fn difference(pair: &Pair<'_>, round: &OrRound, side: Side) -> String {
    let other = side.other();
    let [own, others] = [side, other].map(|side| of_side(pair, round, side).challenge);
    let (side, other) = (side.number(), other.number());
    let (challenge, count) = (round.challenge, challenge_count(pair));
    format!("c{side} = (c - c{other}) mod K = ({challenge} - {others}) mod {count} = {own}")
}

/// The round of a side's own sheet.
pub fn of_side(pair: &Pair<'_>, round: &OrRound, side: Side) -> Round {
    match side {
        Side::First => Round {
            commitment: round.commitment0,
            challenge: round.challenge0,
            response: round.response0,
        },
        Side::Second => Round {
            commitment: round.commitment1,
            challenge: second_challenge(pair, round),
            response: round.response1,
        },
    }
}

/// A round as the words in which it is taken.
pub fn as_words(pair: &Pair<'_>, round: &OrRound) -> String {
    let [first, second] = [Side::First, Side::Second].map(|side| pair.instance(side));
    let word = |values: &Places, count: usize| notation::list(&values[..count], ",");
    format!(
        "t0={} t1={} c={} c0={} r0={} r1={}",
        word(&round.commitment0, row_count(first)),
        word(&round.commitment1, row_count(second)),
        round.challenge,
        round.challenge0,
        word(&round.response0, column_count(first)),
        word(&round.response1, column_count(second)),
    )
}
