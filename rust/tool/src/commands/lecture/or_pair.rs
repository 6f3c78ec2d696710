//! The OR proof on two sheets: both holders' rounds.

use super::or_rounds::{self, Choice};
use super::page::{self, Section, Table};
use super::run::Secrets;
use super::statement;
use crate::command_line::failure::{Failure, Outcome};
use crate::sheets::brought::{self, Brought};
use crate::sheets::notation;
use dimkhoros::{OrRound, Pair, Places, Refusal, Side};

/// Both sides.
pub const SIDES: [Side; 2] = [Side::First, Side::Second];

/// What a page shows of a pair.
pub struct Shown<'a> {
    /// The two sheets.
    pub pair: Pair<'a>,
    /// The witnesses that are known, by side.
    pub witnesses: [Option<Places>; 2],
    /// What the holder of the first of them chooses.
    pub choice: Choice,
    /// The two challenges.
    pub challenges: [u32; 2],
    /// Whether witnesses and nonces are shown before the extractor.
    pub secrets: Secrets,
}

impl Shown<'_> {
    /// The sections of the page.
    pub fn sections(&self) -> Outcome<Vec<Section>> {
        let round = self.made(&self.choice, self.challenges[0])?;
        let holders = self.holders();
        let runs = holders.iter().map(|holder| self.run(*holder, &round));
        let extractors = holders.iter().map(|holder| self.extractor(*holder, &round));
        let mut sections = vec![self.statement()];
        sections.extend(runs.collect::<Outcome<Vec<_>>>()?);
        sections.push(self.two_rounds(&round)?);
        sections.extend(extractors.collect::<Outcome<Vec<_>>>()?.into_iter().flatten());
        if holders.len() == SIDES.len() {
            sections.extend(self.same_rounds(&round)?);
        }
        Ok(sections)
    }

    /// Fails where the library refuses the rounds of the two challenges, or the extractor on them, with what that is by.
    pub fn check(&self) -> Outcome {
        let [first, second] = self.challenges;
        let made = |challenge: u32| {
            let witness = self.witness(self.choice.side);
            let made = or_rounds::made(&self.pair, &self.choice, challenge, &witness);
            made.map_err(|refusal| self.refused(challenge, refusal))
        };
        let extracted = self.pair.extract(&made(first)?, &made(second)?);
        let refused = |refusal| brought::of_two(refusal, &[], first, [false; 2]);
        extracted.map(drop).map_err(refused)
    }

    /// A refusal of a round of the choice, with the value that it is by.
    fn refused(&self, challenge: u32, refusal: Refusal) -> Failure {
        let Choice { side, nonce, challenge: simulated, response } = &self.choice;
        let (own, other) = (self.pair.instance(*side), self.pair.instance(side.other()));
        let number = side.other().number();
        let brought = [
            Brought::challenge(other, format!("c{number}"), *simulated),
            Brought::challenge(own, "c", challenge),
            Brought::coordinates(own, "k", nonce),
            Brought::coordinates(other, format!("r{number}"), response),
        ];
        brought::refused(refusal, &brought)
    }

    /// The sides whose witness is known.
    pub fn holders(&self) -> Vec<Side> {
        SIDES.into_iter().filter(|side| self.known(*side).is_some()).collect()
    }

    /// The witness of a side, if it is known.
    fn known(&self, side: Side) -> Option<&Places> {
        self.witnesses[side.number() as usize].as_ref()
    }

    /// The witness of a holder's side. Zeros, which the library refuses, stand for one that is not known.
    pub fn witness(&self, side: Side) -> Places {
        self.known(side).copied().unwrap_or_default()
    }

    /// The round of a choice and a challenge.
    pub fn made(&self, choice: &Choice, challenge: u32) -> Outcome<OrRound> {
        Ok(or_rounds::made(&self.pair, choice, challenge, &self.witness(choice.side))?)
    }

    /// The choice with which a holder makes a round.
    pub fn choice(&self, side: Side, round: &OrRound) -> Outcome<Choice> {
        Ok(or_rounds::choice(&self.pair, side, round, &self.witness(side))?)
    }

    /// The section on the statement.
    fn statement(&self) -> Section {
        let half = |side: Side| {
            let name = page::paragraph("side", &format!("Side {}", side.number()));
            format!("<div>\n{name}{}</div>\n", statement::formulas(self.pair.instance(side)))
        };
        let facts = |side: Side| {
            let known = self.known(side).map(|_| self.told(side, self.secrets));
            let known = known.unwrap_or("there is none".to_string());
            statement::fact_list(self.pair.instance(side), &known)
        };
        let row = |((name, one), (_, other)): ((&str, String), (&str, String))| {
            vec![name.to_string(), one, other]
        };
        let mut rows = vec![vec![String::new(), "side 0".to_string(), "side 1".to_string()]];
        rows.extend(facts(Side::First).into_iter().zip(facts(Side::Second)).map(row));
        let caption = "The two sheets".to_string();
        let table = Table { class: "facts pair wide", caption, rows, strong: vec![] };
        let halves = SIDES.map(half).concat();
        let body = format!("<div class=\"halves\">\n{halves}</div>\n{}", table.html());
        let heading = "Peggy knows a witness of one of two statements".to_string();
        Section { id: "statement".to_string(), heading, body }
    }

    /// A side's witness with its letter.
    pub fn told(&self, side: Side, secrets: Secrets) -> String {
        let witness = notation::by_column(self.pair.instance(side), &self.witness(side));
        secrets.told(&format!("x{}", side.number()), &witness)
    }
}
