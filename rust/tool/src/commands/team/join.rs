//! What the players of a team bring, joined.

use super::players::Players;
use crate::command_line::failure::{Failure, Outcome};
use crate::sheets::brought::{self, Brought};
use crate::sheets::notation::{self, counted};
use dimkhoros::{EXPONENT, Instance, PLACES, Places, Refusal, Round, Team};

/// Values of one letter, one for each player, and what they are joined to.
pub struct Column<'a> {
    /// The letter.
    pub letter: &'static str,
    /// The players' values.
    pub values: Vec<Places>,
    /// The joined value.
    pub joined: Places,
    sheet: &'a Instance,
}

impl Column<'_> {
    /// A value as it is printed.
    pub fn text(&self, value: &Places) -> String {
        if is_by_row(self.letter) {
            notation::by_row(self.sheet, value)
        } else {
            notation::by_column(self.sheet, value)
        }
    }

    /// How the values are joined, such as `8 · 6 · 18 mod 23 = 13`.
    pub fn sum(&self) -> String {
        let header = self.sheet.values().header;
        let values: Vec<String> = self.values.iter().map(|value| self.text(value)).collect();
        let joined = self.text(&self.joined);
        if header.kind == EXPONENT && !is_by_row(self.letter) {
            format!("({}) mod {} = {joined}", values.join(" + "), header.order)
        } else {
            format!("{} mod {} = {joined}", values.join(" · "), header.modulus)
        }
    }
}

/// Whether the values of a letter have a value for each row, and are joined like commitments. The others have one for each
/// column, and are joined like responses.
fn is_by_row(letter: &str) -> bool {
    matches!(letter, "z" | "t")
}

/// All that the players have, joined, in the order in which it is made.
pub fn columns<'a>(sheet: &'a Instance, players: &Players) -> Outcome<Vec<Column<'a>>> {
    let team = team(sheet, &players.images)?;
    let column = |letter, values: &[Places]| {
        let joined = match letter {
            "t" => team.join_commitments(values),
            "r" => team.join_responses(values),
            _ => join(sheet, letter, values),
        };
        let joined =
            joined.map_err(|refusal| brought::refused(refusal, &brought(sheet, letter, values)))?;
        Ok(Column { letter, values: values.to_vec(), joined, sheet })
    };
    let all = [
        ("x", players.parts.as_deref()),
        ("z", Some(&players.images[..])),
        ("k", players.nonces.as_deref()),
        ("t", players.commitments.as_deref()),
        ("r", players.responses.as_deref()),
    ];
    let there = all.into_iter().filter_map(|(letter, values)| Some((letter, values?)));
    there.map(|(letter, values)| column(letter, values)).collect()
}

/// The team of these images, or why it is none.
fn team<'a>(sheet: &'a Instance, images: &[Places]) -> Outcome<Team<'a>> {
    Team::new(sheet, images).map_err(|refusal| match refusal {
        Refusal::Team => Failure::refused(refusal, counted(images.len(), "player")),
        Refusal::Images => no_statement(sheet, images),
        _ => brought::refused(refusal, &brought(sheet, "z", images)),
    })
}

/// Refuses images that multiply to something else than the statement.
fn no_statement(sheet: &Instance, images: &[Places]) -> Failure {
    let refusal = Refusal::Images;
    let Ok(joined) = join(sheet, "z", images) else {
        return refusal.into();
    };
    let product = Column { letter: "z", values: images.to_vec(), joined, sheet }.sum();
    let statement = notation::by_row(sheet, &sheet.values().statement);
    let what =
        format!("the players' images multiply to {product}, and the statement is {statement}");
    Failure::cause(refusal, what)
}

/// What these values are joined to by the library's calls, for which images of one multiply to a statement of one.
fn join(sheet: &Instance, letter: &str, values: &[Places]) -> Result<Places, Refusal> {
    let ones = [1; PLACES];
    let sheet = sheet.with_statement(&ones)?;
    let team = Team::new(&sheet, &vec![ones; values.len()])?;
    if is_by_row(letter) { team.join_commitments(values) } else { team.join_responses(values) }
}

/// What the players bring under a letter.
fn brought<'a>(sheet: &'a Instance, letter: &str, values: &[Places]) -> Vec<Brought<'a>> {
    let brought = |values| match letter {
        "z" => Brought::statement(sheet, letter, values),
        "t" => Brought::commitment(sheet, letter, values),
        _ => Brought::coordinates(sheet, letter, values),
    };
    values.iter().map(brought).collect()
}

/// The joined value of a letter, if there is one.
pub fn joined(columns: &[Column<'_>], letter: &str) -> Option<Places> {
    columns.iter().find(|column| column.letter == letter).map(|column| column.joined)
}

/// The joined round, where the players have rounds.
pub fn round(columns: &[Column<'_>], challenge: Option<u32>) -> Option<Round> {
    let commitment = joined(columns, "t")?;
    Some(Round { commitment, challenge: challenge?, response: joined(columns, "r")? })
}
