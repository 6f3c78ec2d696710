//! What a second challenge on a product's nonce gives away.

use super::made::Made;
use super::opening;
use super::text::{self, Given, Text};
use super::wrong;
use crate::command_line::failure::{Failure, Outcome};
use crate::command_line::words::Words;
use crate::commands::extract;
use crate::sheets::notation;
use dimkhoros::{Line, Product, Round, places};
use std::io::Write;

/// What is asked for.
pub struct Asked {
    /// The number of the product.
    line: usize,
    /// The second challenge.
    challenge: u32,
    /// The response to it, where the text has no nonce.
    response: Option<[u32; 3]>,
}

/// What the words ask for.
pub fn asked(words: &Words) -> Outcome<Option<Asked>> {
    let Some(line) = words.number("extract")? else {
        words.without(&["c", "r"], "without extract=")?;
        return Ok(None);
    };
    let line = usize::try_from(line).unwrap_or(usize::MAX);
    let challenge = words.needed("c", "the second challenge")?.number()?;
    let response = words.once("r")?.map(text::exactly).transpose()?;
    Ok(Some(Asked { line, challenge, response }))
}

/// Fails where the text has no such product, or where the response to the second challenge is missing or one too many.
pub fn check(text: &Text, asked: &Asked) -> Outcome {
    let line = asked.line;
    let is = match text.lines.get(line).map(|(_, given)| given) {
        Some(Given::Product { .. }) => {
            return match asked.response {
                None => Ok(()),
                Some(_) => Err(Failure::words("r= has no meaning if the text has a nonce")),
            };
        }
        Some(Given::Closed(Line::Product { .. })) => {
            return match asked.response {
                None => Err(Failure::words("r= is missing: the response to the second challenge")),
                Some(_) => Ok(()),
            };
        }
        Some(Given::Sum { .. }) => "is a sum",
        Some(_) => "is a commitment",
        None => "is not there",
    };
    Err(Failure::words(format!("extract={line}: line {line} {is}; name a product")))
}

/// Works out what both rounds give away, and what the product opens to.
pub fn show(text: &Text, made: &Made, asked: &Asked, out: &mut dyn Write) -> Outcome {
    let line = asked.line;
    let (Some(product), Some((first, second))) =
        (made.product(line)?, text.lines.get(line).and_then(|(_, given)| wrong::named(given)))
    else {
        return check(text, asked);
    };
    let Product { instance: sheet, round } = product;
    let same = Round { challenge: asked.challenge, ..round };
    if let Err(refusal) = sheet.judge(&same) {
        return extract::refused(&sheet, &[round, same], refusal, out);
    }
    let rounds = [round, other(text, &round, asked)?];
    let head = format!("Line {line} with a second challenge, {}, on the same t", asked.challenge);
    writeln!(out, "\n{head}. Its own round is round 0:\n\n{}\n", notation::headline(&sheet))?;
    match sheet.extract(&rounds[0], &rounds[1]) {
        Err(refusal) => extract::refused(&sheet, &rounds, refusal, out),
        Ok([x1, x2, x3, ..]) => {
            extract::by_hand(&sheet, &rounds, [0, 1], out)?;
            let opened = opening::text(made, [first, second, line], [x1, x2, x3])?;
            Ok(out.write_all(opened.as_bytes())?)
        }
    }
}

/// The round of the second challenge: with the response of the words, or by the nonce of the text.
fn other(text: &Text, round: &Round, asked: &Asked) -> Outcome<Round> {
    if let Some(response) = asked.response {
        let (challenge, response) = (asked.challenge, places(response));
        return Ok(Round { commitment: round.commitment, challenge, response });
    }
    let mut other = text.clone();
    if let Some((_, Given::Product { challenge, .. })) = other.lines.get_mut(asked.line) {
        *challenge = asked.challenge;
    }
    let product = Made::of(&other)?.product(asked.line)?;
    Ok(product.map_or(*round, |product| product.round))
}
