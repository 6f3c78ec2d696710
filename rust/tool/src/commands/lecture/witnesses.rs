//! What is known of witnesses: several make the same rounds, and where there is none no commitment answers two challenges.

use super::page::{self, Section, Table};
use super::rounds;
use super::statement::note;
use crate::command_line::failure::{Failure, Outcome};
use crate::sheets::{self, notation};
use dimkhoros::{Instance, Places, Refusal, Round};
use std::collections::{BTreeMap, BTreeSet};

/// The most witnesses in the table.
const LISTED: usize = 12;

/// The section on the nonces with which each of several witnesses makes the run's round.
pub fn several(
    sheet: &Instance,
    witnesses: &[Places],
    known: &Places,
    run: &Round,
) -> Outcome<Option<Section>> {
    if witnesses.len() < 2 {
        return Ok(None);
    }
    let row = |witness: &Places| -> Result<Vec<String>, Refusal> {
        let nonce = rounds::nonce(sheet, run.challenge, &run.response, witness)?;
        let round = sheets::honest(sheet, witness, &nonce, run.challenge)?;
        let [t, r] = [
            notation::by_row(sheet, &round.commitment),
            notation::by_column(sheet, &round.response),
        ];
        let [x, k] = [witness, &nonce].map(|values| notation::by_column(sheet, values));
        Ok(vec![format!("${x}$"), format!("${k}$"), format!("$({t}, {}, {r})$", round.challenge)])
    };
    let mut rows =
        vec![["witness $x$", "nonce $k$", "round $(t, c, r)$"].map(str::to_string).to_vec()];
    let listed = witnesses.iter().take(LISTED).map(row).collect::<Result<Vec<_>, Refusal>>()?;
    rows.extend(listed);
    let count = witnesses.len();
    let caption = if count > LISTED {
        format!("The first {LISTED} of {count} witnesses")
    } else {
        format!("All {count} witnesses")
    };
    let words = "Each witness has a nonce that makes this round, so the round does not tell which one Peggy knows.";
    let own = witnesses.iter().take(LISTED).position(|witness| witness == known);
    let strong = own.map(|place| place + 1).into_iter().collect();
    let body = Table { class: "figures", caption, rows, strong }.html() + &note(words);
    let heading = "Every witness makes the same round".to_string();
    Ok(Some(Section { id: "witnesses".to_string(), heading, body }))
}

/// The most rounds that are simulated to see which challenges each commitment answers.
const SIMULATED: usize = 1 << 16;
/// The most commitments in the table.
const COMMITMENTS: usize = 8;

/// The section of a sheet without a witness: each commitment answers at most one challenge.
pub fn none(sheet: &Instance, domain: &[Places], own: &Round) -> Outcome<Section> {
    let challenges = sheet.values().header.challenges;
    let mut body = page::paragraph(
        "lead",
        &format!(
            "Two rounds with one commitment and two challenges would give a witness, by the extractor, and there is none. \
         So who has sent $t$ can answer at most one of the $K = {challenges}$ challenges."
        ),
    );
    if domain.len().saturating_mul(challenges as usize) <= SIMULATED {
        let answers = answers(sheet, domain, challenges)?;
        if answers.values().any(|challenges| challenges.len() > 1) {
            return Err(Failure::failed("a commitment answers two challenges without a witness"));
        }
        body += &table(sheet, &answers, own);
        let all = domain.len() * challenges as usize;
        body += &note(&format!(
            "All {all} accepted rounds, of {challenges} challenges and {} responses, have {} commitments.",
            domain.len(),
            answers.len()
        ));
    }
    let heading = "Each commitment answers at most one challenge".to_string();
    Ok(Section { id: "answers".to_string(), heading, body })
}

/// The challenges that each commitment answers.
fn answers(
    sheet: &Instance,
    domain: &[Places],
    challenges: u32,
) -> Result<BTreeMap<Places, BTreeSet<u32>>, Refusal> {
    let mut answers: BTreeMap<Places, BTreeSet<u32>> = BTreeMap::new();
    let all = (0..challenges).flat_map(|challenge| domain.iter().map(move |r| (challenge, r)));
    for (challenge, response) in all {
        let commitment = sheet.simulate(challenge, response)?;
        answers.entry(commitment).or_default().insert(challenge);
    }
    Ok(answers)
}

/// The first commitments, and the round's own, with the challenges that they answer.
fn table(sheet: &Instance, answers: &BTreeMap<Places, BTreeSet<u32>>, own: &Round) -> String {
    let row = |(commitment, challenges): (&Places, &BTreeSet<u32>)| {
        let challenges: Vec<String> = challenges.iter().map(u32::to_string).collect();
        vec![format!("${}$", notation::by_row(sheet, commitment)), challenges.join(", ")]
    };
    let mut rows =
        vec![vec!["commitment $t$".to_string(), "challenges that it answers".to_string()]];
    let own = answers.get_key_value(&own.commitment);
    let others =
        answers.iter().filter(|(commitment, _)| own.is_none_or(|(own, _)| own != *commitment));
    rows.extend(own.into_iter().chain(others.take(COMMITMENTS - 1)).map(row));
    let caption = "Some commitments, that of the simulated round first".to_string();
    Table { class: "figures", caption, rows, strong: vec![1] }.html()
}
