//! The command `grid`: all accepted rounds of a small sheet.

use crate::command_line::failure::{Failure, Outcome};
use crate::command_line::table::{self, Set};
use crate::command_line::words::{Grammar, Words};
use crate::sheets::brought::{self, Brought};
use crate::sheets::{self, notation, small};
use dimkhoros::{Instance, Places, Refusal, Round};
use std::collections::{BTreeMap, BTreeSet};
use std::ffi::OsString;
use std::io::Write;

/// The command's help.
pub const HELP: &str = "\
usage: dimkhoros grid SHEET [t=VALUE,...]

Prints all accepted rounds of a sheet with at most 64 challenges and 512 responses. The table has a row for each challenge c and a
column for each response r. Their cell has the one commitment with which Vic accepts them, t = [r] · z^(-c). If there are too many
columns for a line, the others follow in further tables. After these comes how many challenges each commitment can answer: all of
them if the statement has a witness, and at most one if it has none.

    SHEET        a sheet
    t=VALUE,...  a commitment, a value for each row. Its cells get brackets and are listed

Example:
    $ dimkhoros make schnorr m=11 q=5 h=4 x=3 -o sheet.bin
    9 = 4^x mod 11, q = 5, K = 5
    $ dimkhoros grid sheet.bin
    x ↦ [x] = 4^x mod 11, z = 9, q = 5, K = 5

    c\\r  0  1  2  3  4
      0  1  4  5  9  3
      1  5  9  3  1  4
      2  3  1  4  5  9
      3  4  5  9  3  1
      4  9  3  1  4  5

    t  answers  challenges
    1        5  all
    3        5  all
    4        5  all
    5        5  all
    9        5  all

    The witness is 3. A commitment answers all 5 challenges or none.
    $ dimkhoros grid sheet.bin t=5
    x ↦ [x] = 4^x mod 11, z = 9, q = 5, K = 5

    c\\r   0    1    2    3    4
      0   1    4   [5]   9    3
      1  [5]   9    3    1    4
      2   3    1    4   [5]   9
      3   4   [5]   9    3    1
      4   9    3    1    4   [5]

    The commitment 5 answers 5 of the 5 challenges:

    c  r
    0  2
    1  0
    2  3
    3  1
    4  4

    The witness is 3. A commitment answers all 5 challenges or none.
";

const GRAMMAR: Grammar =
    Grammar { plain: &["SHEET"], optional: 0, letters: &["t"], flags: &[], options: &[] };

/// The most challenges of a grid.
const MOST_CHALLENGES: u32 = 64;

/// The most characters of a line of the table.
const MOST_CHARACTERS: usize = 100;

/// The most responses to one challenge that a line names.
const MOST_NAMED: usize = 11;

/// All accepted rounds of a sheet.
struct Grid {
    /// The responses, which are the columns.
    responses: Vec<Places>,
    /// The commitments by response and challenge.
    cells: Vec<Vec<Places>>,
}

/// Runs the command.
pub fn run(words: Vec<OsString>, out: &mut dyn Write) -> Outcome {
    let words = Words::sort(words, &GRAMMAR)?;
    let sheet = sheets::load(&words.path(0))?;
    let commitment = words.once("t")?.map(|value| sheets::by_row(&sheet, value)).transpose()?;
    let grid = Grid::of(&sheet)?;
    if let Some(commitment) = commitment {
        grid.check(&sheet, commitment)?;
    }
    writeln!(out, "{}\n", notation::headline(&sheet))?;
    out.write_all(grid.lines(&sheet, commitment).as_bytes())?;
    let below = match commitment {
        Some(commitment) => grid.cells_of(&sheet, commitment),
        None => grid.commitments(&sheet),
    };
    write!(out, "\n{below}")?;
    writeln!(out, "\n{}", witnesses(&sheet))?;
    Ok(())
}

impl Grid {
    /// The grid of a small sheet.
    fn of(sheet: &Instance) -> Outcome<Grid> {
        let challenges = sheet.values().header.challenges;
        if challenges > MOST_CHALLENGES {
            return Err(Failure::failed(format!(
                "the sheet has {challenges} challenges, and more than {MOST_CHALLENGES} are too many for a grid: make it with a smaller K"
            )));
        }
        let responses = small::domain(sheet, small::LISTED).ok_or_else(|| {
            Failure::failed(format!(
                "the sheet has more than {} responses, which are too many for a grid: `dimkhoros simulate` makes single rounds",
                small::LISTED
            ))
        })?;
        let row = |response: &Places| -> Result<Vec<Places>, Refusal> {
            (0..challenges).map(|challenge| sheet.simulate(challenge, response)).collect()
        };
        let cells = responses.iter().map(row).collect::<Result<Vec<Vec<Places>>, Refusal>>()?;
        Ok(Grid { responses, cells })
    }

    /// Fails where a commitment is none of the group, as Vic does.
    fn check(&self, sheet: &Instance, commitment: Places) -> Outcome {
        let response = self.responses.first().copied().unwrap_or_default();
        let brought = [Brought::commitment(sheet, "t", &commitment)];
        match sheet.judge(&Round { commitment, challenge: 0, response }) {
            Ok(_) => Ok(()),
            Err(refusal) => Err(brought::refused(refusal, &brought)),
        }
    }

    /// The table, in which the cells of one commitment stand in brackets, in parts that are not too wide.
    fn lines(&self, sheet: &Instance, marked: Option<Places>) -> String {
        let columns = self.columns(sheet, marked);
        let wide = |column: &Vec<String>| column.iter().map(|cell| cell.chars().count()).max();
        let widest = columns.iter().filter_map(wide).max().unwrap_or(0) + 2;
        let (head, columns) = columns.split_at(1);
        let count = (MOST_CHARACTERS.saturating_sub(widest) / widest).max(1);
        let parts = columns.chunks(count).map(|columns| part(&[head, columns].concat()));
        parts.collect::<Vec<String>>().join("\n")
    }

    /// The columns of the table, each with its head: the challenges, and for each response its commitments.
    fn columns(&self, sheet: &Instance, marked: Option<Places>) -> Vec<Vec<String>> {
        let cell = |commitment: &Places| {
            let text = notation::by_row(sheet, commitment);
            match marked {
                Some(marked) if marked == *commitment => format!("[{text}]"),
                Some(_) => format!("{text} "),
                None => text,
            }
        };
        let space = if marked.is_some() { " " } else { "" };
        let challenges =
            (0..sheet.values().header.challenges).map(|challenge| challenge.to_string());
        let mut columns = vec![std::iter::once("c\\r".to_string()).chain(challenges).collect()];
        columns.extend(self.responses.iter().zip(&self.cells).map(|(response, cells)| {
            let response = format!("{}{space}", notation::by_column(sheet, response));
            std::iter::once(response).chain(cells.iter().map(cell)).collect()
        }));
        columns
    }

    /// The responses with which a commitment answers a challenge.
    fn answers(&self, commitment: Places, challenge: usize) -> Vec<&Places> {
        let rows = self.responses.iter().zip(&self.cells);
        let answers = rows.filter(|(_, cells)| cells.get(challenge) == Some(&commitment));
        answers.map(|(response, _)| response).collect()
    }

    /// The cells of one commitment.
    fn cells_of(&self, sheet: &Instance, commitment: Places) -> String {
        let (t, all) = (notation::by_row(sheet, &commitment), sheet.values().header.challenges);
        let answers = (0..all).map(|c| (c, self.answers(commitment, c as usize)));
        let answers: Vec<(u32, Vec<&Places>)> =
            answers.filter(|(_, responses)| !responses.is_empty()).collect();
        if answers.is_empty() {
            return format!("The commitment {t} answers none of the {all} challenges.\n");
        }
        let count = answers.len();
        let mut rows = vec![["c", "r"].map(str::to_string).to_vec()];
        rows.extend(answers.iter().map(|(c, responses)| answer(sheet, *c, responses)));
        let table = table::lines("", &[Set::Right; 2 + MOST_NAMED], &rows);
        format!("The commitment {t} answers {count} of the {all} challenges:\n\n{table}")
    }

    /// The challenges that each commitment can answer.
    fn answered(&self) -> BTreeMap<Places, BTreeSet<usize>> {
        let mut answered: BTreeMap<Places, BTreeSet<usize>> = BTreeMap::new();
        for (challenge, commitment) in self.cells.iter().flat_map(|cells| cells.iter().enumerate())
        {
            answered.entry(*commitment).or_default().insert(challenge);
        }
        answered
    }

    /// How many challenges each commitment can answer.
    fn commitments(&self, sheet: &Instance) -> String {
        let all = sheet.values().header.challenges as usize;
        let answered = self.answered();
        if answered.len() > small::LISTED {
            let most = answered.values().map(BTreeSet::len).max().unwrap_or(0);
            let count = answered.len();
            return format!(
                "The {count} commitments answer at most {most} of the {all} challenges.\n"
            );
        }
        let mut rows = vec![["t", "answers", "challenges"].map(str::to_string).to_vec()];
        rows.extend(answered.iter().map(|(commitment, challenges)| {
            let which: Vec<String> = challenges.iter().map(usize::to_string).collect();
            let which = if challenges.len() == all { "all".to_string() } else { which.join(" ") };
            vec![notation::by_row(sheet, commitment), challenges.len().to_string(), which]
        }));
        table::lines("", &[Set::Right, Set::Right, Set::Left], &rows)
    }
}

/// Columns side by side.
fn part(columns: &[Vec<String>]) -> String {
    let height = columns.first().map_or(0, Vec::len);
    let row = |row: usize| columns.iter().map(|column| column[row].clone()).collect();
    let rows: Vec<Vec<String>> = (0..height).map(row).collect();
    table::lines("", &vec![Set::Right; columns.len()], &rows)
}

/// A challenge and the responses to it as a row of a table.
fn answer(sheet: &Instance, challenge: u32, responses: &[&Places]) -> Vec<String> {
    std::iter::once(challenge.to_string()).chain(named(sheet, responses)).collect()
}

/// The first of some coordinates, and how many more there are.
fn named(sheet: &Instance, all: &[&Places]) -> Vec<String> {
    let first = all.iter().take(MOST_NAMED).map(|values| notation::by_column(sheet, values));
    let more = all.len().saturating_sub(MOST_NAMED);
    first.chain((more > 0).then(|| format!("and {more} more"))).collect()
}

/// Says which witnesses a sheet has, and what follows.
fn witnesses(sheet: &Instance) -> String {
    let witnesses = small::witnesses(sheet, small::LISTED).unwrap_or_default();
    let all = sheet.values().header.challenges;
    if witnesses.is_empty() {
        return format!("There is no witness. {}", small::UNANSWERED);
    }
    let subject = if witnesses.len() == 1 { "The witness is" } else { "The witnesses are" };
    let named = named(sheet, &witnesses.iter().collect::<Vec<&Places>>()).join(", ");
    format!("{subject} {named}. A commitment answers all {all} challenges or none.")
}
