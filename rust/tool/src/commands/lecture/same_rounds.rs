//! Honest and simulated rounds of one challenge side by side: they are the same list.

use super::listing::{Cells, Listing};
use super::page::Section;
use super::rounds::{self, Honest, Lists};
use super::squares;
use super::statement::note;
use crate::command_line::failure::Outcome;
use crate::sheets::{notation, small};
use dimkhoros::{Instance, Places, Round};

/// The most rounds that are compared one by one.
const COMPARED: usize = small::MOST as usize;
/// The most rounds that are listed.
const LISTED: usize = 72;
/// How many are listed where there are more.
const SAMPLE: usize = 12;

/// The sections on the rounds of the run's challenge.
pub fn sections(sheet: &Instance, witness: &Places, run: &Round) -> Outcome<Vec<Section>> {
    let challenge = run.challenge;
    let Some(domain) = small::domain(sheet, COMPARED) else {
        let lists = Lists::some(sheet, challenge, witness, &sample(sheet, &run.response))?;
        let mut listing = listing(sheet, run, &lists, &some(challenge));
        listing.shorten();
        return Ok(listing.sections());
    };
    let lists = Lists::whole(sheet, challenge, witness, &domain)?;
    let all = all(challenge, domain.len());
    if let Some(picture) = squares::picture(sheet, run, &lists) {
        let body = picture + &note(&all);
        return Ok(vec![Section { id: "rounds".to_string(), heading: heading(challenge), body }]);
    }
    let whole = listing(sheet, run, &lists, &all);
    if domain.len() <= if whole.fits() { LISTED } else { SAMPLE } {
        return Ok(whole.sections());
    }
    let lists = lists.thinned(&run.response);
    let more = format!("{all} {} of them are listed.", lists.simulated.len());
    Ok(listing(sheet, run, &lists, &more).sections())
}

/// What is said below all rounds.
fn all(challenge: u32, count: usize) -> String {
    format!(
        "All {count} nonces and all {count} responses make the same {count} rounds with $c = {challenge}$. So a round tells \
         Vic nothing that he could not have made alone. The run's round is framed."
    )
}

/// What is said below some rounds.
fn some(challenge: u32) -> String {
    format!(
        "Some rounds with $c = {challenge}$: for each response the simulator makes a round, and Peggy makes the same one with \
         the nonce beside it. The run's round is framed."
    )
}

/// Responses that lie apart, and the run's own.
fn sample(sheet: &Instance, own: &Places) -> Vec<Places> {
    let mut responses = rounds::spread(sheet, SAMPLE as u32 - 1);
    responses.push(*own);
    responses.sort();
    responses.dedup();
    responses
}

impl Lists {
    /// Some of the rounds, evenly, and that of a response.
    fn thinned(&self, own: &Places) -> Lists {
        let step = self.simulated.len().div_ceil(SAMPLE - 1).max(1);
        let kept = |place: usize, response: &Places| place % step == 0 || response == own;
        let honest = self.honest.iter().enumerate();
        let simulated = self.simulated.iter().enumerate();
        Lists {
            honest: honest
                .filter(|(place, honest)| kept(*place, &honest.round.response))
                .map(|(_, honest)| *honest)
                .collect(),
            simulated: simulated
                .filter(|(place, round)| kept(*place, &round.response))
                .map(|(_, round)| *round)
                .collect(),
        }
    }
}

/// The lists of a sheet, to be set.
fn listing(sheet: &Instance, run: &Round, lists: &Lists, words: &str) -> Listing<'static> {
    let rows = lists.honest.iter().zip(&lists.simulated);
    Listing {
        id: "rounds",
        heading: heading(run.challenge),
        heads: [
            ("nonce", "$k$"),
            ("honest", "$(t, c, r)$"),
            ("simulated", "$(t, c, r)$"),
            ("response", "$r$"),
        ],
        rows: rows
            .map(|(honest, simulated)| (cells(sheet, honest, simulated), simulated == run))
            .collect(),
        words: words.to_string(),
    }
}

/// The heading of the sections on a challenge.
fn heading(challenge: u32) -> String {
    format!("Honest and simulated rounds with $c = {challenge}$")
}

/// The cells of a row.
fn cells(sheet: &Instance, honest: &Honest, simulated: &Round) -> Cells {
    let round = |round: &Round| {
        let [t, r] = [
            notation::by_row(sheet, &round.commitment),
            notation::by_column(sheet, &round.response),
        ];
        format!("({t}, {}, {r})", round.challenge)
    };
    [
        notation::by_column(sheet, &honest.nonce),
        round(&honest.round),
        round(simulated),
        notation::by_column(sheet, &simulated.response),
    ]
}
