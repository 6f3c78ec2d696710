//! Rounds in a table, with what Vic says of them.

use crate::command_line::colour;
use crate::command_line::failure::rule;
use crate::command_line::table::{self, Set};
use crate::sheets::brought::{self, Brought};
use crate::sheets::{allowed, faults, notation};
use dimkhoros::{Instance, Refusal, Round, RoundFile};

/// The table of rounds of a file, by their numbers, and below it the sentences of the refusals. A refused round is told with its
/// byte.
pub fn of_file(
    sheet: &Instance,
    file: &RoundFile<'_>,
    numbers: impl IntoIterator<Item = usize>,
) -> String {
    let row = |number: usize| {
        let by = |_| faults::in_round(sheet, file, number).map(|fault| fault.found.to_string());
        Some(Row::new(sheet, &file.read(number).ok()?, by).numbered(number))
    };
    lines(sheet, &HEADING, numbers.into_iter().filter_map(row).collect())
}

/// The table of rounds in words, numbered from 0. A refused one is told with the letter of its value.
pub fn of_words(sheet: &Instance, rounds: &[Round]) -> String {
    let row = |(number, round): (usize, &Round)| Row::of_words(sheet, round).numbered(number);
    lines(sheet, &HEADING, rounds.iter().enumerate().map(row).collect())
}

/// The table of rounds in words without numbers.
pub fn plain(sheet: &Instance, rounds: &[Round]) -> String {
    let rows = rounds.iter().map(|round| Row::of_words(sheet, round));
    lines(sheet, &HEADING[1..], rows.collect())
}

/// The heading of the table.
const HEADING: [&str; 5] = ["round", "t", "c", "r", "verdict"];

/// A round as a row of the table.
struct Row {
    cells: Vec<String>,
    refusal: Option<Refusal>,
}

impl Row {
    /// A round with its verdict, or with the number of its refusal and what that is by, if it is known.
    fn new(sheet: &Instance, round: &Round, by: impl Fn(Refusal) -> Option<String>) -> Row {
        let judged = sheet.judge(round);
        let said = match judged {
            Ok(verdict) => colour::verdict(&verdict.to_string()),
            Err(refusal) => {
                let by = by(refusal).map_or_else(String::new, |by| format!(", by {by}"));
                colour::verdict(&format!("refused {}{by}", refusal.number()))
            }
        };
        let t = notation::by_row(sheet, &round.commitment);
        let r = notation::by_column(sheet, &round.response);
        Row { cells: vec![t, round.challenge.to_string(), r, said], refusal: judged.err() }
    }

    /// A round in words.
    fn of_words(sheet: &Instance, round: &Round) -> Row {
        let values = Brought::round(sheet, round);
        Row::new(sheet, round, |refusal| brought::by(refusal, &values).map(|(by, _)| by))
    }

    /// The row after its number.
    fn numbered(mut self, number: usize) -> Row {
        self.cells.insert(0, number.to_string());
        self
    }
}

/// The table of a heading and rows, of which the last column has words, and below it the sentences of the refusals.
fn lines(sheet: &Instance, heading: &[&str], rows: Vec<Row>) -> String {
    let mut refusals: Vec<Refusal> = rows.iter().filter_map(|row| row.refusal).collect();
    refusals.sort_by_key(|refusal| refusal.number());
    refusals.dedup();
    let heading: Vec<String> = heading.iter().map(|name| name.to_string()).collect();
    let mut set = vec![Set::Right; heading.len()];
    set.splice(heading.len() - 1.., [Set::Left]);
    let cells = rows.into_iter().map(|row| row.cells);
    let all: Vec<Vec<String>> = std::iter::once(heading).chain(cells).collect();
    let header = sheet.values().header;
    let sentence = |refusal: Refusal| {
        let (number, allowed) = (refusal.number(), allowed::by(refusal, &header));
        format!("refusal {number}: {}{allowed}\n", rule(refusal))
    };
    let sentences: String = refusals.into_iter().map(sentence).collect();
    let between = if sentences.is_empty() { "" } else { "\n" };
    table::lines("", &set, &all) + between + &sentences
}
