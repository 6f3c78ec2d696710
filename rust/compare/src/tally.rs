//! How often each call gave each number and each verdict, and how often each
//! shape of sheets and slots was met.

mod games;
mod ledgers;

use std::fmt;

use crate::calls::{CALL_COUNT, Call, LAST, ORDER};
use crate::cases::Case;
use crate::outcome::{Answer, Outcome, Verdict};
use crate::shapes::{Seen, Shapes};
use games::Games;
use ledgers::Ledgers;

/// What is counted of a side: each of eight rows that it is rejected in, and in how
/// many, 1 to 8, it is.
const OF_SIDE: usize = 2 * 8;

/// What is counted of verdicts: accepted, what each of two sides is rejected in, and
/// which sides are rejected: the first alone, the second alone, and both.
const VERDICTS: usize = 1 + 2 * OF_SIDE + 3;

/// What is counted of a watch that is given an accepted round: which round it names.
const NAMED: [&str; 4] = ["none", "1 back", "2 to 62 back", "63 back"];

/// A count for each call with each number and with each verdict, for each round that
/// a watch names, for what ledgers come to, for what games answer, and for each shape.
pub struct Tally {
    numbers: [[u64; LAST as usize + 1]; CALL_COUNT],
    verdicts: [[u64; VERDICTS]; CALL_COUNT],
    named: [u64; NAMED.len()],
    ledgers: Ledgers,
    games: Games,
    shapes: Shapes,
}

impl Default for Tally {
    fn default() -> Tally {
        Tally {
            numbers: [[0; LAST as usize + 1]; CALL_COUNT],
            verdicts: [[0; VERDICTS]; CALL_COUNT],
            named: [0; NAMED.len()],
            ledgers: Ledgers::default(),
            games: Games::default(),
            shapes: Shapes::default(),
        }
    }
}

/// 0, which stands for no refusal, and the numbers in their order.
fn columns() -> impl Iterator<Item = u32> {
    [0].into_iter().chain(ORDER)
}

/// Whether a sheet, two or a team are refused with this number, or a sheet is not
/// made: it is tested before a round file's.
fn is_of_sheet(number: u32) -> bool {
    let mut earlier = ORDER.iter().take_while(|other| **other != 12);
    earlier.any(|other| *other == number)
}

/// The places at which a verdict is counted.
fn places(verdict: Verdict) -> Vec<usize> {
    let Verdict::Rejected(rows) = verdict else {
        return vec![0];
    };
    let mut places = Vec::new();
    for (side, rows) in rows.into_iter().enumerate().filter(|(_, rows)| *rows != 0) {
        let start = 1 + OF_SIDE * side;
        places.extend((0..8).filter(|row| rows >> row & 1 == 1).map(|row| start + row));
        places.push(start + 8 + rows.count_ones() as usize - 1);
    }
    let rejected = rows.map(|rows| usize::from(rows != 0));
    places.push(2 * OF_SIDE + rejected[0] + 2 * rejected[1]);
    places
}

/// The name of what is counted at a place, of a call with so many sides.
fn name(place: usize, sides: usize) -> String {
    if place == 0 {
        return "accepted".to_string();
    }
    let (side, of_side) = ((place - 1) / OF_SIDE, (place - 1) % OF_SIDE);
    let what = match (side, of_side) {
        (2, 0) => return "side 0 alone".to_string(),
        (2, 1) => return "side 1 alone".to_string(),
        (2, _) => return "both sides".to_string(),
        (_, 0..8) => format!("row {of_side}"),
        (_, 8) => "1 row".to_string(),
        _ => format!("{} rows", of_side - 7),
    };
    match sides {
        1 => what,
        _ => format!("side {side} {what}"),
    }
}

/// The place of what is counted if a watch names the round so many back.
fn named(back: u32) -> usize {
    match back {
        0 => 0,
        1 => 1,
        2..=62 => 2,
        _ => 3,
    }
}

impl Tally {
    /// Counts the calls of a case with this outcome in the judge.
    pub fn add(&mut self, case: &dyn Case, judged: &Outcome) {
        let numbers = case.numbers(judged);
        for (call, number) in &numbers {
            self.numbers[*call as usize][*number as usize] += 1;
        }
        if let Some(header) = case.header() {
            let mut numbers = numbers.iter().map(|(_, number)| *number);
            let of_sheet = numbers.find(|number| is_of_sheet(*number));
            self.shapes.add(&Seen { header, refusal: of_sheet.unwrap_or(0), slots: case.slots() });
        }
        for (call, answer) in &judged.answers {
            for place in answer.verdicts().into_iter().flat_map(places) {
                self.verdicts[*call as usize][place] += 1;
            }
            match answer {
                Answer::Watched(answer) => {
                    self.named[named(answer.back)] += u64::from(answer.verdict.accepted);
                }
                Answer::LedgerChecked(checked) => self.ledgers.add_checked(checked),
                Answer::LedgerWritten(written) => self.ledgers.add_written(written),
                _ => {}
            }
            if let (Call::Game, Answer::Told { text, .. }) = (call, answer) {
                let header = case.header().unwrap_or_default();
                self.games.add(&header, answer.refusal(), text);
            }
        }
    }

    /// Each thing that is counted beside numbers and verdicts, with the columns in which
    /// it is, and the counts.
    fn rows(&self) -> Vec<(&'static str, Vec<(&'static str, u64)>)> {
        let named = NAMED.into_iter().zip(self.named);
        let watch = ("a watch names", named.collect());
        let ledgers = [watch].into_iter().chain(self.ledgers.rows());
        let games = ledgers.chain(self.games.rows());
        games.chain(self.shapes.rows()).collect()
    }

    fn met(&self, call: Call, number: u32) -> u64 {
        self.numbers[call as usize][number as usize]
    }

    /// How many calls there were of this one.
    fn all(&self, call: Call) -> u64 {
        self.numbers[call as usize].iter().sum()
    }

    /// The verdicts that a call can answer, and how often it did.
    fn verdicts(&self, call: Call) -> impl Iterator<Item = (String, u64)> + '_ {
        let (sides, met) = (call.sides(), self.verdicts[call as usize]);
        let count = [0, 1 + OF_SIDE, VERDICTS][sides];
        (0..count).map(move |place| (name(place, sides), met[place]))
    }

    /// What a run lacks: numbers and verdicts that a call can give, and shapes,
    /// that were met fewer times, and numbers that it cannot give and that were
    /// met.
    pub fn lacks(&self, fewest: u64) -> Vec<String> {
        let mut lacks = Vec::new();
        for call in Call::all() {
            let name = call.name();
            for number in columns() {
                let met = self.met(call, number);
                if call.can_give(number) && met < fewest {
                    lacks.push(format!("{name} gave {number} only {met} times"));
                }
                if !call.can_give(number) && met > 0 {
                    lacks.push(format!("{name} gave {number}, which it cannot give"));
                }
            }
            let few = self.verdicts(call).filter(|(_, met)| *met < fewest);
            lacks.extend(
                few.map(|(verdict, met)| format!("{name} gave {verdict} only {met} times")),
            );
        }
        for (shape, columns) in self.rows() {
            let few = columns.into_iter().filter(|(_, met)| *met < fewest);
            lacks.extend(few.map(|(column, met)| format!("{shape}: {column} only {met} times")));
        }
        lacks
    }
}

/// A table with a line for each call and a column for each number, which has a
/// dot where the call cannot give the number. Then the verdicts, the rounds that a
/// watch names, what ledgers come to, what games answer, and the shapes.
impl fmt::Display for Tally {
    fn fmt(&self, out: &mut fmt::Formatter) -> fmt::Result {
        write!(out, "{:<20}", "number")?;
        for number in columns() {
            write!(out, "{number:>6}")?;
        }
        write!(out, "{:>8}", "all")?;
        for call in Call::all() {
            write!(out, "\n{:<20}", call.name())?;
            for number in columns() {
                let met = self.met(call, number);
                if call.can_give(number) || met > 0 {
                    write!(out, "{met:>6}")?;
                } else {
                    write!(out, "{:>6}", ".")?;
                }
            }
            write!(out, "{:>8}", self.all(call))?;
        }
        for call in Call::all().filter(|call| call.sides() > 0) {
            write!(out, "\n{:<20}", call.name())?;
            for (verdict, met) in self.verdicts(call) {
                write!(out, "  {verdict} {met}")?;
            }
        }
        for (shape, columns) in self.rows() {
            write!(out, "\n{shape:<36}")?;
            for (column, met) in columns {
                write!(out, "  {column} {met}")?;
            }
        }
        let all: u64 = Call::all().map(|call| self.all(call)).sum();
        write!(out, "\n{all} calls")
    }
}
