//! What the players of a team bring, and their own rounds.

use crate::command_line::failure::{Failure, Outcome};
use crate::command_line::words::{Value, Words};
use crate::sheets;
use crate::sheets::brought::{self, Brought};
use dimkhoros::{Instance, Places, Refusal, Round, Verdict};

/// What the players of a team bring or make, each of it in their order.
pub struct Players {
    /// The parts of the witness, where they are told.
    pub parts: Option<Vec<Places>>,
    /// The images of the parts.
    pub images: Vec<Places>,
    /// The nonces, where they are told.
    pub nonces: Option<Vec<Places>>,
    /// The commitments, if there are any.
    pub commitments: Option<Vec<Places>>,
    /// The challenge, if there is one.
    pub challenge: Option<u32>,
    /// The responses, if there is a challenge.
    pub responses: Option<Vec<Places>>,
}

/// Fails where words stand together that do not belong together, or where one is missing that another needs.
pub fn check(words: &Words) -> Outcome {
    let there = |letter: &str| !words.all(letter).is_empty();
    let what = "an image for each player, or a part of the witness for each";
    let own = words.either(["z", "x"], what)?;
    let (strangers, needs): (&[&str], &[[&str; 2]]) = match own {
        "z" => (&["k"], &[["c", "t"], ["r", "t"], ["r", "c"], ["c", "r"]]),
        _ => (&["t", "r"], &[["c", "k"]]),
    };
    words.without(strangers, &format!("beside {own}="))?;
    if let Some([letter, needed]) =
        needs.iter().find(|[letter, needed]| there(letter) && !there(needed))
    {
        return Err(Failure::words(format!("{needed}= is missing, which {letter}= needs")));
    }
    words.once("c")?;
    let players = words.all(own).len();
    let counts = ["t", "k", "r"].map(|letter| (letter, words.all(letter).len()));
    match counts.iter().find(|(_, count)| *count != 0 && *count != players) {
        Some((letter, count)) => Err(Failure::words(format!(
            "{letter}= is needed for each player: {players} times, and it is there {count} times"
        ))),
        None => Ok(()),
    }
}

impl Players {
    /// What the words bring, and what the players make of it.
    pub fn read(sheet: &Instance, words: &Words) -> Outcome<Players> {
        let by_row = |letter| all(words, letter, |value| sheets::by_row(sheet, value));
        let by_column = |letter| all(words, letter, |value| sheets::by_column(sheet, value));
        let mut players = Players {
            parts: by_column("x")?,
            images: by_row("z")?.unwrap_or_default(),
            nonces: by_column("k")?,
            commitments: by_row("t")?,
            challenge: words.number("c")?,
            responses: by_column("r")?,
        };
        if let Some(parts) = &players.parts {
            players.images = images(sheet, "x", parts)?;
        }
        if let Some(nonces) = &players.nonces {
            players.commitments = Some(images(sheet, "k", nonces)?);
        }
        players.respond(sheet)?;
        Ok(players)
    }

    /// The players answer the challenge, where there is one and their parts and nonces are told: each on the sheet with their
    /// own image as its statement.
    fn respond(&mut self, sheet: &Instance) -> Outcome {
        let Players {
            parts: Some(parts), nonces: Some(nonces), challenge: Some(challenge), ..
        } = self
        else {
            return Ok(());
        };
        let secrets = parts.iter().zip(nonces.iter()).zip(&self.images);
        let responses = secrets
            .map(|((part, nonce), image)| respond(sheet, image, part, nonce, *challenge))
            .collect::<Result<Vec<Places>, Refusal>>();
        let brought = [Brought::challenge(sheet, "c", *challenge)];
        let responses = responses.map_err(|refusal| brought::refused(refusal, &brought))?;
        self.responses = Some(responses);
        Ok(())
    }

    /// The verdicts on the players' rounds, each under the player's own image: none where there are no rounds.
    pub fn verdicts(&self, sheet: &Instance) -> Outcome<Vec<Verdict>> {
        let (Some(commitments), Some(challenge), Some(responses)) =
            (&self.commitments, self.challenge, &self.responses)
        else {
            return Ok(Vec::new());
        };
        let judge = |((image, commitment), response): ((&Places, &Places), &Places)| {
            let round = Round { commitment: *commitment, challenge, response: *response };
            sheet.with_statement(image)?.judge(&round)
        };
        let rounds = self.images.iter().zip(commitments).zip(responses);
        let verdicts = rounds.map(judge).collect::<Result<_, Refusal>>();
        let brought = [Brought::challenge(sheet, "c", challenge)];
        verdicts.map_err(|refusal| brought::refused(refusal, &brought))
    }
}

/// The values of a letter, one for each player, if there are any.
fn all(
    words: &Words,
    letter: &str,
    read: impl Fn(&Value) -> Outcome<Places>,
) -> Outcome<Option<Vec<Places>>> {
    let values = words.all(letter).into_iter().map(read).collect::<Outcome<Vec<Places>>>()?;
    Ok((!values.is_empty()).then_some(values))
}

/// The images of each player's values, which have a letter.
fn images(sheet: &Instance, letter: &str, all: &[Places]) -> Outcome<Vec<Places>> {
    all.iter().map(|values| sheets::image(sheet, letter, values)).collect()
}

/// The response of a Peggy who holds a witness of an image and draws a nonce.
fn respond(
    sheet: &Instance,
    image: &Places,
    witness: &Places,
    nonce: &Places,
    challenge: u32,
) -> Result<Places, Refusal> {
    let round = sheets::honest(&sheet.with_statement(image)?, witness, nonce, challenge)?;
    Ok(round.response)
}
