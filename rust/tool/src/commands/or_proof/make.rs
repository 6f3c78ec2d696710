//! Rounds of a Peggy who knows a witness of one side and simulates the other.

use super::rounds;
use crate::command_line::failure::{Failure, Outcome};
use crate::command_line::words::{Grammar, Value, Words};
use crate::sheets::brought::{self, Brought};
use crate::sheets::{self, notation, witness};
use dimkhoros::{OrProver, OrRound, Pair, Places, Refusal, Side};
use std::ffi::OsString;
use std::io::Write;

const GRAMMAR: Grammar = Grammar {
    plain: &["SHEET0", "SHEET1"],
    optional: 0,
    letters: &["x0", "x1", "k0", "k1", "c0", "c1", "r0", "r1", "c"],
    flags: &[],
    options: &[],
};

/// What Peggy brings: witness and nonce of the side that she knows, challenge and response of the other.
struct Peggy {
    known: Side,
    witness: Places,
    nonce: Places,
    challenge: u32,
    response: Places,
}

/// Prints how the rounds are made, and the rounds as words that the other two take.
pub fn run(words: Vec<OsString>, out: &mut dyn Write) -> Outcome {
    let words = Words::sort(words, &GRAMMAR)?;
    let known = known(&words)?;
    let challenges =
        words.all("c").into_iter().map(Value::number).collect::<Outcome<Vec<u32>>>()?;
    if challenges.is_empty() {
        return Err(Failure::words("c= is missing: the challenge"));
    }
    let sheets = rounds::load(&words)?;
    let pair = rounds::pair(&words, &sheets)?;
    let peggy = Peggy::read(&pair, known, &words)?;
    let answered = challenges.iter().map(|challenge| peggy.round(&pair, *challenge));
    let answered = answered.collect::<Outcome<Vec<OrRound>>>()?;
    out.write_all(peggy.commitments(&pair, &answered[0]).as_bytes())?;
    for round in &answered {
        out.write_all(peggy.answer(&pair, round)?.as_bytes())?;
    }
    Ok(())
}

/// The side whose witness the words have. None of the letters may be there that go with the other side's.
fn known(words: &Words) -> Outcome<Side> {
    let known = match words.either(["x0", "x1"], "Peggy knows the witness of one side")? {
        "x0" => Side::First,
        _ => Side::Second,
    };
    let (own, other) = (known.number(), known.other().number());
    let wrong = [format!("k{other}"), format!("c{own}"), format!("r{own}")];
    let when = format!(
        "beside x{own}=, but k{own}=, c{other}= and r{other}= have: {} is simulated",
        known.other()
    );
    words.without(&wrong.each_ref().map(String::as_str), &when)?;
    Ok(known)
}

impl Peggy {
    /// What the words say.
    fn read(pair: &Pair<'_>, known: Side, words: &Words) -> Outcome<Peggy> {
        let (own, other) = (known.number(), known.other().number());
        let value =
            |letter: &str, side: u32, what: &str| words.needed(&format!("{letter}{side}"), what);
        let (sheet, simulated) = (pair.instance(known), pair.instance(known.other()));
        Ok(Peggy {
            known,
            witness: sheets::by_column(sheet, value("x", own, "the witness")?)?,
            nonce: sheets::by_column(sheet, value("k", own, "the nonce")?)?,
            challenge: value("c", other, "the simulated challenge")?.number()?,
            response: sheets::by_column(simulated, value("r", other, "the simulated response")?)?,
        })
    }

    /// The round of a session with these values.
    fn round(&self, pair: &Pair<'_>, challenge: u32) -> Outcome<OrRound> {
        let sheet = pair.instance(self.known);
        let committed =
            OrProver::new().commit(pair, self.known, &self.nonce, self.challenge, &self.response);
        let (session, _) =
            committed.map_err(|refused| self.refused(pair, challenge, refused.refusal))?;
        let answered = session.respond(pair, challenge, &self.witness);
        let (_, round) = answered.map_err(|refused| match refused.refusal {
            Refusal::Witness => {
                witness::no_witness(sheet, &format!("x{}", self.known.number()), &self.witness)
            }
            refusal => self.refused(pair, challenge, refusal),
        })?;
        Ok(round)
    }

    /// A refusal with the value that it is by.
    fn refused(&self, pair: &Pair<'_>, challenge: u32, refusal: Refusal) -> Failure {
        let (sheet, other) = (pair.instance(self.known), pair.instance(self.known.other()));
        let (own, simulated) = (self.known.number(), self.known.other().number());
        let brought = [
            Brought::challenge(other, format!("c{simulated}"), self.challenge),
            Brought::challenge(sheet, "c", challenge),
            Brought::coordinates(sheet, format!("x{own}"), &self.witness),
            Brought::coordinates(sheet, format!("k{own}"), &self.nonce),
            Brought::coordinates(other, format!("r{simulated}"), &self.response),
        ];
        brought::refused(refusal, &brought)
    }

    /// How the commitments of a round are made.
    fn commitments(&self, pair: &Pair<'_>, round: &OrRound) -> String {
        let line = |side: Side| {
            let (sheet, number) = (pair.instance(side), side.number());
            let own = rounds::of_side(pair, round, side);
            let commitment = notation::by_row(sheet, &own.commitment);
            if side == self.known {
                let [x, k] = [&self.witness, &self.nonce].map(|v| notation::by_column(sheet, v));
                let image = notation::bare(&k);
                return format!(
                    "{side} is known, with the witness {x}: t{number} = [k{number}] = [{image}] = {commitment}\n"
                );
            }
            let r = notation::by_column(sheet, &own.response);
            let c = own.challenge;
            format!(
                "{side} is simulated, with c{number} = {c} and r{number} = {r}: t{number} = [r{number}] · z^(-c{number}) = {commitment}\n"
            )
        };
        line(Side::First) + &line(Side::Second)
    }

    /// How a challenge is answered, the round, and its verdict.
    fn answer(&self, pair: &Pair<'_>, round: &OrRound) -> Outcome<String> {
        let sheet = pair.instance(self.known);
        let own = rounds::of_side(pair, round, self.known);
        let r = notation::by_column(sheet, &own.response);
        Ok(format!(
            "\n{}, so r{} = {r}\n{}\n{}\n",
            rounds::difference(pair, round, self.known),
            self.known.number(),
            rounds::as_words(pair, round),
            pair.judge(round)?
        ))
    }
}
