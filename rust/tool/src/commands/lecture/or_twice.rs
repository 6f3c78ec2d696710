//! What two rounds on the same commitments of a pair give away.

use super::extractor;
use super::or_pair::{SIDES, Shown};
use super::page::{self, Section, Table};
use super::statement::note;
use crate::command_line::failure::Outcome;
use crate::commands::or_proof::rounds::of_side;
use crate::sheets::notation;
use dimkhoros::{OrRound, Side};

/// What two rounds give away.
impl Shown<'_> {
    /// A holder's two rounds on the commitments of a round.
    fn answered_twice(&self, holder: Side, round: &OrRound) -> Outcome<[OrRound; 2]> {
        let choice = self.choice(holder, round)?;
        Ok([self.made(&choice, self.challenges[0])?, self.made(&choice, self.challenges[1])?])
    }

    /// The section on two rounds with the same commitments.
    pub fn two_rounds(&self, round: &OrRound) -> Outcome<Section> {
        let mut halves = String::new();
        for holder in self.holders() {
            halves += &self.twice(holder, &self.answered_twice(holder, round)?)?;
        }
        let words = "One round does not tell which witness Peggy knows. Two on the same commitments give it away, on the side whose \
                     own challenge differs.";
        let body = format!("<div class=\"halves\">\n{halves}</div>\n") + &note(words);
        let heading = "Two rounds on the same commitments".to_string();
        Ok(Section { id: "two-rounds".to_string(), heading, body })
    }

    /// A holder's two rounds as a table, and the witness that they give away.
    fn twice(&self, holder: Side, rounds: &[OrRound; 2]) -> Outcome<String> {
        let found = self.pair.extract(&rounds[0], &rounds[1])?;
        let number = found.side.number();
        let sheet = self.pair.instance(found.side);
        let values = rounds.map(|round| self.named(&round));
        let mut rows = vec![["", "first", "second", ""].map(str::to_string).to_vec()];
        rows.extend(values[0].iter().zip(&values[1]).map(|((name, one), (_, other))| {
            let told = if one == other { "same" } else { "differs" };
            vec![format!("${name}$"), one.clone(), other.clone(), told.to_string()]
        }));
        let differs = |(one, other): (&(_, String), &(_, String))| one.1 != other.1;
        let strong = values[0].iter().zip(&values[1]).map(differs);
        let strong = strong.enumerate().filter(|(_, differs)| *differs).map(|(place, _)| place + 1);
        let caption = format!("The holder of $x{}$ answers twice", holder.number());
        let table = Table { class: "figures", caption, rows, strong: strong.collect() };
        let words = format!(
            "$c{number}$ differs: side {number} gives $x{number} = {}$.",
            notation::by_column(sheet, &found.values)
        );
        Ok(format!("<div>\n{}{}</div>\n", table.html(), page::paragraph("result", &words)))
    }

    /// The values of a round by their names.
    fn named(&self, round: &OrRound) -> Vec<(&'static str, String)> {
        let [[t0, r0], [t1, r1]] = SIDES.map(|side| self.values(side, round));
        let second = of_side(&self.pair, round, Side::Second).challenge;
        vec![
            ("t0", t0),
            ("t1", t1),
            ("c", round.challenge.to_string()),
            ("c0", round.challenge0.to_string()),
            ("c1", second.to_string()),
            ("r0", r0),
            ("r1", r1),
        ]
    }

    /// The extractor on the side that a holder's two rounds give away.
    pub fn extractor(&self, holder: Side, round: &OrRound) -> Outcome<Vec<Section>> {
        let rounds = self.answered_twice(holder, round)?;
        let number = holder.number();
        let parts = rounds.map(|round| of_side(&self.pair, &round, holder));
        let heading = format!("The extractor on side {number}");
        extractor::sections(&heading, &number.to_string(), self.pair.instance(holder), &parts)
    }
}
