//! A holder's run of the OR proof as a message diagram.

use super::diagram::{Diagram, Row};
use super::or_pair::{SIDES, Shown};
use super::or_rounds::Choice;
use super::page::Section;
use super::run::{self, message};
use crate::command_line::failure::{Failure, Outcome};
use crate::commands::or_proof::rounds::of_side;
use crate::sheets::notation;
use dimkhoros::{OrRound, Side};

/// The letters of a side: commitment, challenge, response, nonce, witness and statement.
struct Letters {
    t: String,
    c: String,
    r: String,
    k: String,
    x: String,
    z: String,
}

impl Letters {
    /// Those of a side.
    fn of(side: Side) -> Letters {
        let letter = |letter: char| format!("{letter}{}", side.number());
        Letters {
            t: letter('t'),
            c: letter('c'),
            r: letter('r'),
            k: letter('k'),
            x: letter('x'),
            z: letter('z'),
        }
    }
}

/// The run of a holder.
impl Shown<'_> {
    /// The section on the run of a holder who makes this round.
    pub fn run(&self, holder: Side, round: &OrRound) -> Outcome<Section> {
        let choice = self.choice(holder, round)?;
        let made = self.made(&choice, round.challenge)?;
        if made != *round {
            return Err(Failure::failed("the two holders' rounds differ"));
        }
        let (number, other) = (holder.number(), holder.other().number());
        let verdict = self.pair.judge(&made)?;
        let told = if verdict.is_accepted() { "both sides: " } else { "" };
        let diagram = Diagram {
            id: format!("run-{number}-picture"),
            title: format!("A run of the OR proof by the holder of x{number}"),
            parties: [
                ("Peggy".to_string(), format!("knows {}", self.told(holder, self.secrets))),
                ("Vic".to_string(), "knows $z0$ and $z1$".to_string()),
            ],
            rows: self.rows(&choice, &made),
            verdict: format!("{told}{verdict}"),
        };
        let heading = format!("The holder of $x{number}$ simulates side {other}");
        Ok(Section { id: format!("run-{number}"), heading, body: diagram.svg() })
    }

    /// The rows of a run.
    fn rows(&self, choice: &Choice, round: &OrRound) -> Vec<Row> {
        let [first, second] = SIDES.map(|side| self.values(side, round));
        let c = round.challenge;
        let answer = vec![
            format!("$c0 = {}$", round.challenge0),
            format!("$r0 = {}$", first[1]),
            format!("$r1 = {}$", second[1]),
        ];
        vec![
            Row {
                left: self.commits(choice, round),
                message: message(
                    true,
                    vec![format!("$t0 = {}$", first[0]), format!("$t1 = {}$", second[0])],
                ),
                right: vec![],
            },
            Row {
                left: vec![],
                message: message(false, vec![format!("$c = {c}$")]),
                right: vec![format!("chooses the challenge $c = {c}$")],
            },
            Row {
                left: self.responds(choice, round),
                message: message(true, answer),
                right: vec![],
            },
            Row { right: self.checks(round), ..Row::default() },
        ]
    }

    /// The commitment and the response of a side.
    pub fn values(&self, side: Side, round: &OrRound) -> [String; 2] {
        let (sheet, part) = (self.pair.instance(side), of_side(&self.pair, round, side));
        [notation::by_row(sheet, &part.commitment), notation::by_column(sheet, &part.response)]
    }

    /// What Peggy does before she commits.
    fn commits(&self, choice: &Choice, round: &OrRound) -> Vec<String> {
        let (own, other) = (Letters::of(choice.side), Letters::of(choice.side.other()));
        let (sheet, far) =
            (self.pair.instance(choice.side), self.pair.instance(choice.side.other()));
        let part = of_side(&self.pair, round, choice.side);
        let k = self.secrets.told(&own.k, &notation::by_column(sheet, &choice.nonce));
        let mut lines = vec![format!(
            "chooses {k}, ${} = {}$, ${} = {}$",
            other.c,
            choice.challenge,
            other.r,
            notation::by_column(far, &choice.response)
        )];
        let nonce = &choice.nonce;
        lines.extend(run::image(sheet, &own.t, &own.k, nonce, &part.commitment, self.secrets));
        let [t, _] = self.values(choice.side.other(), round);
        lines.push(format!(
            "${0} = [{1}] · {2}^{{-{3}}} = {t}$",
            other.t, other.r, other.z, other.c
        ));
        lines
    }

    /// What Peggy does with the challenge.
    fn responds(&self, choice: &Choice, round: &OrRound) -> Vec<String> {
        let (own, other) = (Letters::of(choice.side), Letters::of(choice.side.other()));
        let sheet = self.pair.instance(choice.side);
        let part = of_side(&self.pair, round, choice.side);
        let count = sheet.values().header.challenges;
        let mut lines = vec![format!(
            "${} = c - {} = {} - {} mod {count} = {}$",
            own.c, other.c, round.challenge, choice.challenge, part.challenge
        )];
        let witness = self.witness(choice.side);
        let letters = [&own.r, &own.k, &own.c, &own.x].map(String::as_str);
        let nonce = &choice.nonce;
        lines.extend(run::response(sheet, letters, nonce, &witness, &part, self.secrets));
        lines
    }

    /// What Vic does in the end.
    fn checks(&self, round: &OrRound) -> Vec<String> {
        let count = self.pair.instance(Side::First).values().header.challenges;
        let second = of_side(&self.pair, round, Side::Second).challenge;
        let mut lines = vec![format!(
            "$c1 = c - c0 = {} - {} mod {count} = {second}$",
            round.challenge, round.challenge0
        )];
        for side in SIDES {
            let Letters { t, c, r, z, .. } = Letters::of(side);
            let part = of_side(&self.pair, round, side);
            lines.extend(run::check(self.pair.instance(side), &part, [&r, &t, &z, &c]));
        }
        lines
    }
}
