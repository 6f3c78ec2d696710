//! The rounds that both holders of a pair make.

use super::listing::{Cells, Listing};
use super::or_pair::{SIDES, Shown};
use super::or_rounds::Choice;
use super::page::Section;
use super::rounds;
use crate::command_line::failure::{Failure, Outcome};
use crate::sheets::{notation, small};
use dimkhoros::{OrRound, Places, Side};
use std::collections::BTreeSet;

/// The most rounds of a pair that are made and compared.
const COMPARED: usize = 20_000;
/// The most rounds that are listed.
const LISTED: usize = 24;
/// How many are listed where there are more.
const SAMPLE: usize = 10;

/// The two holders' lists.
impl Shown<'_> {
    /// The sections on the rounds that both holders make.
    pub fn same_rounds(&self, run: &OrRound) -> Outcome<Vec<Section>> {
        let c = run.challenge;
        let compared = match [self.all(Side::First, c)?, self.all(Side::Second, c)?] {
            [Some(first), Some(second)] => Some(compared(first, &second)?),
            _ => None,
        };
        let rounds = match &compared {
            Some(all) => thinned(all, run),
            None => self.sample(run)?,
        };
        let row = |round: &OrRound| self.cells(round).map(|cells| (cells, round == run));
        let mut listing = Listing {
            id: "rounds",
            heading: format!("Both holders make the same rounds with $c = {c}$"),
            heads: [
                ("holder of $x0$", "$(k0, c1, r1)$"),
                ("round", "$(t0, t1, c, c0, r0, r1)$"),
                ("round", "$(t0, t1, c, c0, r0, r1)$"),
                ("holder of $x1$", "$(k1, c0, r0)$"),
            ],
            rows: rounds.iter().map(row).collect::<Outcome<Vec<_>>>()?,
            words: String::new(),
        };
        listing.shorten();
        listing.words = words(c, listing.rows.len(), compared.map(|all| all.len()));
        Ok(listing.sections())
    }

    /// All rounds that a holder makes with a challenge: none where they are too many.
    fn all(&self, side: Side, challenge: u32) -> Outcome<Option<Vec<OrRound>>> {
        let count = self.pair.instance(side).values().header.challenges;
        let domains =
            [side, side.other()].map(|side| small::domain(self.pair.instance(side), COMPARED));
        let [Some(nonces), Some(responses)] = domains else {
            return Ok(None);
        };
        let all = nonces.len().saturating_mul(responses.len()).saturating_mul(count as usize);
        if all > COMPARED {
            return Ok(None);
        }
        let choices = nonces.iter().flat_map(|nonce| {
            let responses = &responses;
            (0..count).flat_map(move |simulated| {
                responses.iter().map(move |response| Choice {
                    side,
                    nonce: *nonce,
                    challenge: simulated,
                    response: *response,
                })
            })
        });
        choices.map(|choice| self.made(&choice, challenge)).collect::<Outcome<Vec<_>>>().map(Some)
    }

    /// Some rounds of the first holder's choices that lie apart, and the run's own.
    fn sample(&self, run: &OrRound) -> Outcome<Vec<OrRound>> {
        let [first, second] = SIDES.map(|side| self.pair.instance(side));
        let count = first.values().header.challenges;
        let nonces = rounds::spread(first, SAMPLE as u32 - 1);
        let responses = rounds::spread(second, SAMPLE as u32 - 1);
        let choice = |(place, (nonce, response)): (usize, (&Places, &Places))| Choice {
            side: Side::First,
            nonce: *nonce,
            challenge: (place as u32 * 7 + 2) % count,
            response: *response,
        };
        let choices = nonces.iter().zip(&responses).enumerate().map(choice);
        let made = choices.map(|choice| self.made(&choice, run.challenge));
        made.chain([Ok(*run)]).collect()
    }

    /// A round as a row: both holders' choices, each with the round that it leads to.
    fn cells(&self, round: &OrRound) -> Outcome<Cells> {
        let [first, second] = SIDES.map(|side| self.choice(side, round));
        let (first, second) = (first?, second?);
        Ok([
            self.choice_words(&first),
            self.round_words(&self.made(&first, round.challenge)?),
            self.round_words(&self.made(&second, round.challenge)?),
            self.choice_words(&second),
        ])
    }

    /// A choice as a tuple.
    fn choice_words(&self, choice: &Choice) -> String {
        let (own, other) =
            (self.pair.instance(choice.side), self.pair.instance(choice.side.other()));
        let [k, r] =
            [notation::by_column(own, &choice.nonce), notation::by_column(other, &choice.response)];
        format!("({k}, {}, {r})", choice.challenge)
    }

    /// A round as a tuple.
    fn round_words(&self, round: &OrRound) -> String {
        let [[t0, r0], [t1, r1]] = SIDES.map(|side| self.values(side, round));
        format!("({t0}, {t1}, {}, {}, {r0}, {r1})", round.challenge, round.challenge0)
    }
}

/// What is said below the rounds that are listed of a challenge, of so many where all were made.
fn words(challenge: u32, listed: usize, all: Option<usize>) -> String {
    let made = match all {
        Some(all) if all == listed => {
            format!("Each holder makes {all} rounds with $c = {challenge}$, and they are the same.")
        }
        Some(all) => format!(
            "Each holder makes {all} rounds with $c = {challenge}$, and they are the same. {listed} of them are listed."
        ),
        None => format!("Both holders make each of these rounds with $c = {challenge}$."),
    };
    made + " So a round does not tell which witness Peggy knows. The run's round is framed."
}

/// All rounds of one holder, sorted. They have to be the other's, and each met once.
fn compared(mut first: Vec<OrRound>, second: &[OrRound]) -> Outcome<Vec<OrRound>> {
    let set = |rounds: &[OrRound]| rounds.iter().map(key).collect::<BTreeSet<_>>();
    if set(&first) != set(second) || [set(&first).len(), second.len()] != [first.len(); 2] {
        return Err(Failure::failed("the two holders' rounds differ"));
    }
    first.sort_by_key(|round| (round.challenge0, round.response0, round.response1));
    Ok(first)
}

/// Some of the rounds where they are many, evenly, and the run's own.
fn thinned(all: &[OrRound], run: &OrRound) -> Vec<OrRound> {
    let step = if all.len() <= LISTED { 1 } else { all.len().div_ceil(SAMPLE - 1) };
    let kept = |(place, round): &(usize, &OrRound)| place % step == 0 || *round == run;
    all.iter().enumerate().filter(kept).map(|(_, round)| *round).collect()
}

/// The values of a round, by which it is told from others.
fn key(round: &OrRound) -> ([Places; 4], [u32; 2]) {
    let OrRound { commitment0, commitment1, response0, response1, challenge, challenge0 } = round;
    ([*commitment0, *commitment1, *response0, *response1], [*challenge, *challenge0])
}
