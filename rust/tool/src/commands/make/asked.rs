//! The table of a sheet that is to be made.

use super::linear::Linear;
use super::root_rows;
use crate::command_line::failure::{Failure, Outcome};
use crate::command_line::words::Words;
use crate::commands::patterns;
use crate::sheets::brought::{self, Brought};
use crate::sheets::causes;
use crate::sheets::notation::{self, counted};
use dimkhoros::{
    EXPONENT, Header, Instance, PLACES, Patterns, Places, Plan, ROOT, Refusal, Values,
};
use std::path::Path;

/// The table that is asked for.
pub enum Asked {
    /// By a pattern of a file, by its number from 1, over these public values.
    Pattern(Box<Patterns>, u32, Vec<u32>),
    /// Of a root sheet with so many rows.
    Root(usize),
    /// With these entries, in rows of one length.
    Table(Vec<Vec<u32>>),
    /// Of linear forms over generators.
    Linear(Linear),
}

impl Asked {
    /// The table that the words ask for.
    pub fn read(words: &Words) -> Outcome<Asked> {
        let pattern = words.plain().first().map(|word| word.to_string_lossy().into_owned());
        let is_linear = |name: &String| name.eq_ignore_ascii_case("linear");
        if !pattern.as_ref().is_some_and(is_linear) && !words.formulas("row").is_empty() {
            return Err(Failure::words("row= has no meaning without the word linear"));
        }
        match (pattern, words.once("table")?) {
            (Some(_), Some(_)) => Err(Failure::words("a pattern and table= are both there")),
            (None, None) => Err(Failure::words("PATTERN or table= is missing")),
            (None, Some(table)) => Asked::by_table(words, &table.rows),
            (Some(name), None) if is_linear(&name) => Asked::by_forms(words),
            (Some(name), None) => Asked::by_pattern(words, &name),
        }
    }

    /// The table of linear forms over generators.
    fn by_forms(words: &Words) -> Outcome<Asked> {
        without_patterns(words, "for linear forms")?;
        Ok(Asked::Linear(Linear::read(words)?))
    }

    /// The table of these entries.
    fn by_table(words: &Words, rows: &[Vec<u32>]) -> Outcome<Asked> {
        words.without(&["h"], "for a table")?;
        without_patterns(words, "for a table")?;
        if rows.iter().any(|row| row.len() != rows[0].len()) {
            Err(Failure::words("table= has rows of different lengths"))
        } else {
            Ok(Asked::Table(rows.to_vec()))
        }
    }

    /// The table of a pattern, or of a root sheet.
    fn by_pattern(words: &Words, name: &str) -> Outcome<Asked> {
        let path = words.option("--patterns").map(Path::new);
        let number = patterns::number(name, path.is_none())?;
        let file = patterns::load(path)?;
        if number == 0 {
            words.without(&["h"], "for a root sheet")?;
            return Ok(Asked::Root(root_rows(words)?));
        }
        let values = words.numbers("h")?.unwrap_or_default().to_vec();
        Ok(Asked::Pattern(Box::new(file), number, values))
    }

    /// The kind of the sheet, and the letter of its order or exponent.
    pub fn kind(&self) -> (u32, &'static str) {
        match self {
            Asked::Root(_) => (ROOT, "e"),
            _ => (EXPONENT, "q"),
        }
    }

    /// How many rows the table has, and none if the file has no such pattern.
    pub fn rows(&self) -> usize {
        match self {
            Asked::Pattern(file, number, _) => file.layout(*number).map_or(0, |layout| layout.rows),
            Asked::Root(rows) => *rows,
            Asked::Table(rows) => rows.len(),
            Asked::Linear(linear) => linear.row_count(),
        }
    }

    /// The sheet with this modulus, order and challenge count, and with a statement.
    pub fn sheet(&self, numbers: [u32; 3], statement: &Places) -> Result<Instance, Refusal> {
        let rows = self.rows();
        match self {
            Asked::Pattern(file, pattern, values) => {
                let [modulus, order, challenges] = numbers;
                let (pattern, statement) = (*pattern, &statement[..rows]);
                let plan = Plan { pattern, modulus, order, challenges, values, statement };
                Instance::from_pattern(file, &plan)
            }
            Asked::Root(_) => by_table(ROOT, [rows, rows], &[], numbers, statement),
            Asked::Table(table) => {
                by_table(EXPONENT, [rows, table[0].len()], table, numbers, statement)
            }
            Asked::Linear(linear) => linear.sheet(numbers, &statement[..rows.min(PLACES)]),
        }
    }

    /// The statement of the sheet that was made, row by row.
    pub fn statement(&self, sheet: &Instance) -> Vec<String> {
        match self {
            Asked::Linear(linear) => linear.statement(sheet),
            _ => notation::statement(sheet),
        }
    }

    /// A refusal of this sheet, with what is wrong.
    pub fn refused(&self, numbers: [u32; 3], refusal: Refusal) -> Failure {
        let what = match (refusal, self) {
            (Refusal::Pattern, Asked::Pattern(file, number, values)) => {
                return Failure::cause(refusal, wrong_count(file, *number, values.len()));
            }
            (Refusal::Shape, Asked::Root(rows)) => shape([*rows, *rows], "column"),
            (Refusal::Shape, Asked::Table(rows)) => shape([rows.len(), rows[0].len()], "column"),
            (Refusal::Entry, Asked::Pattern(_, _, values)) => {
                return outside("h", values, numbers);
            }
            (Refusal::Entry, Asked::Table(rows)) => {
                return outside("table", &rows.concat(), numbers);
            }
            (Refusal::Entry, Asked::Linear(linear)) => {
                return outside("h", &linear.generators, numbers);
            }
            (_, Asked::Linear(linear)) => match linear.wrong(refusal, numbers[1]) {
                Some(what) => what,
                None => return refusal.into(),
            },
            _ => return refusal.into(),
        };
        Failure::cause(refusal, what)
    }
}

/// Fails if a pattern file is named, which has no meaning then.
fn without_patterns(words: &Words, when: &str) -> Outcome {
    match words.option("--patterns") {
        Some(_) => Err(Failure::words(format!("--patterns has no meaning {when}"))),
        None => Ok(()),
    }
}

/// What is wrong with so many rows and columns, of which the columns are called by a name.
pub fn shape(counts: [usize; 2], column: &str) -> String {
    let [count, why] = causes::shape(counts, column);
    format!("{count}: {why}")
}

/// What is wrong with a pattern's number, or with the count of its public values.
fn wrong_count(file: &Patterns, number: u32, found: usize) -> String {
    match file.layout(number) {
        None => {
            format!("the file has {}, and no pattern {number}", counted(file.count(), "pattern"))
        }
        Some(layout) => {
            format!(
                "the pattern takes {} in h=, and there are {found}",
                counted(layout.values, "value")
            )
        }
    }
}

/// Refuses an entry, public value or generator that is not an element.
fn outside(letter: &str, values: &[u32], numbers: [u32; 3]) -> Failure {
    match by_table(EXPONENT, [1, 1], &[vec![1]], numbers, &[1; PLACES]) {
        Ok(sheet) => brought::refused(Refusal::Entry, &[Brought::entries(&sheet, letter, values)]),
        Err(refusal) => refusal.into(),
    }
}

/// A sheet of so many rows and columns with a statement. The numbers are modulus, order and challenge count.
fn by_table(
    kind: u32,
    shape: [usize; 2],
    table: &[Vec<u32>],
    numbers: [u32; 3],
    statement: &Places,
) -> Result<Instance, Refusal> {
    let [modulus, order, challenges] = numbers;
    // What is beyond the places is refused by the shape.
    let mut entries = [[0; PLACES]; PLACES];
    for (places, row) in entries.iter_mut().zip(table) {
        let count = row.len().min(PLACES);
        places[..count].copy_from_slice(&row[..count]);
    }
    let [rows, columns] = shape.map(|count| u32::try_from(count).unwrap_or(u32::MAX));
    let header = Header { kind, modulus, order, challenges, rows, columns };
    Instance::encode(&Values { header, entries, statement: *statement })
}
