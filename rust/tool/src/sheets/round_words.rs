//! Rounds as words: `t= c= r=` as they stand, `c= r=` simulated, `x= k= c=` by a Peggy with a witness and a nonce.

use crate::command_line::failure::{Failure, Outcome};
use crate::command_line::words::{Value, Words};
use crate::sheets::brought::{self, Brought};
use crate::sheets::{self, witness};
use dimkhoros::{Instance, Places, Refusal, Round};

/// The letters of the values of rounds.
pub const LETTERS: &[&str] = &["t", "c", "r", "x", "k"];

/// A round that words ask for.
pub enum Asked {
    /// As it stands.
    Stands(Round),
    /// To be simulated.
    Simulated {
        /// c.
        challenge: u32,
        /// r.
        response: Places,
    },
    /// To be made by a Peggy.
    Honest {
        /// x.
        witness: Places,
        /// k.
        nonce: Places,
        /// c.
        challenge: u32,
    },
}

/// The rounds that words ask for, in their order. The first letter of a round says how it is made.
pub fn asked(sheet: &Instance, words: &Words) -> Outcome<Vec<Asked>> {
    let mut rest = words.values();
    let mut rounds = Vec::new();
    while let Some(first) = rest.first() {
        let length = if first.letter == "c" || first.letter == "r" { 2 } else { 3 };
        let (round, others) = rest.split_at(length.min(rest.len()));
        rounds.push(one(sheet, round)?);
        rest = others;
    }
    Ok(rounds)
}

/// The round that these values ask for.
fn one(sheet: &Instance, values: &[Value]) -> Outcome<Asked> {
    let value = |letter: &str| values.iter().find(|value| value.letter == letter);
    let [t, c, r, x, k] = ["t", "c", "r", "x", "k"].map(value);
    match (t, c, r, x, k) {
        (Some(t), Some(c), Some(r), None, None) => Ok(Asked::Stands(Round {
            commitment: sheets::by_row(sheet, t)?,
            challenge: c.number()?,
            response: sheets::by_column(sheet, r)?,
        })),
        (None, Some(c), Some(r), None, None) => {
            Ok(Asked::Simulated { challenge: c.number()?, response: sheets::by_column(sheet, r)? })
        }
        (None, Some(c), None, Some(x), Some(k)) => Ok(Asked::Honest {
            witness: sheets::by_column(sheet, x)?,
            nonce: sheets::by_column(sheet, k)?,
            challenge: c.number()?,
        }),
        _ => Err(no_round(values)),
    }
}

/// Says that values make no round.
fn no_round(values: &[Value]) -> Failure {
    let letters: Vec<String> = values.iter().map(|value| format!("{}=", value.letter)).collect();
    let letters = letters.join(" ");
    Failure::words(format!("{letters} is not a round: a round is t= c= r=, or c= r=, or x= k= c="))
}

impl Asked {
    /// The round, for which the library is asked where it does not stand there.
    pub fn round(&self, sheet: &Instance) -> Result<Round, Refusal> {
        match self {
            Asked::Stands(round) => Ok(*round),
            Asked::Simulated { challenge, response } => {
                let commitment = sheet.simulate(*challenge, response)?;
                Ok(Round { commitment, challenge: *challenge, response: *response })
            }
            Asked::Honest { witness, nonce, challenge } => {
                sheets::honest(sheet, witness, nonce, *challenge)
            }
        }
    }

    /// A refusal of the round, with the value that it is by.
    pub fn refused(&self, sheet: &Instance, refusal: Refusal) -> Failure {
        match self {
            // What stands is written without being tested, but for a challenge that version 2 cannot hold.
            Asked::Stands(Round { challenge, .. }) if refusal == Refusal::Challenge => {
                let what = format!("{challenge} in c=: in version 2 a challenge is at most 65535");
                Failure::cause(refusal, what)
            }
            Asked::Stands(round) => brought::refused(refusal, &Brought::round(sheet, round)),
            Asked::Simulated { challenge, response } => {
                let c = Brought::challenge(sheet, "c", *challenge);
                brought::refused(refusal, &[c, Brought::coordinates(sheet, "r", response)])
            }
            Asked::Honest { witness, .. } if refusal == Refusal::Witness => {
                witness::no_witness(sheet, "x", witness)
            }
            Asked::Honest { witness, nonce, challenge } => {
                let c = Brought::challenge(sheet, "c", *challenge);
                let x = Brought::coordinates(sheet, "x", witness);
                brought::refused(refusal, &[c, x, Brought::coordinates(sheet, "k", nonce)])
            }
        }
    }
}
