//! All tables, and what the program does with each: it compares the answers,
//! measures the rows that are asked for and prints them.

use crate::counting;
use crate::filter::Filter;
use crate::games;
use crate::ledgers;
use crate::linear;
use crate::printing::{print_heading, print_row};
use crate::sessions;
use crate::sheets;
use crate::table::{Difference, Inputs, Table};
use crate::timing::{self, Times};
use crate::watches;

/// All tables.
pub const TABLES: [&dyn Measured; 6] = [
    &sheets::TABLE,
    &watches::TABLE,
    &linear::TABLE,
    &games::TABLE,
    &sessions::TABLE,
    &ledgers::TABLE,
];

/// A table, whatever its calls take.
pub trait Measured {
    /// Whether some row is asked for.
    fn is_asked(&self, filter: &Filter) -> bool;

    /// The first call that a version in Rust answers differently.
    fn first_difference(&self) -> Option<Difference>;

    /// Prints the times of the rows that are asked for.
    fn times(&self, filter: &Filter);

    /// Prints the instructions of the rows that are asked for, of the table of this
    /// number.
    fn instructions(&self, number: usize, filter: &Filter) -> Result<(), String>;

    /// Makes a call so many times: the numbers of the inputs, the call and the side,
    /// and how often. Answers whether there is such a call.
    fn run(&self, numbers: [usize; 4]) -> bool;
}

impl<I: Inputs, const N: usize> Table<I, N> {
    /// The inputs and calls of the rows that are asked for, by their numbers.
    fn rows(&self, filter: &Filter) -> Vec<(usize, usize)> {
        let asked = |i: usize| {
            let inputs = (self.make)(i);
            let calls = 0..self.cases.len();
            let takes = |j: &usize| filter.takes(inputs.name(), self.cases[*j].name);
            calls.filter(takes).map(|j| (i, j)).collect::<Vec<_>>()
        };
        (0..self.count).flat_map(asked).collect()
    }
}

impl<I: Inputs, const N: usize> Measured for Table<I, N> {
    fn is_asked(&self, filter: &Filter) -> bool {
        !self.rows(filter).is_empty()
    }

    fn first_difference(&self) -> Option<Difference> {
        let measured = (0..self.count).map(self.make);
        measured.chain((self.compared)()).find_map(|mut inputs| self.differing(&mut inputs))
    }

    fn times(&self, filter: &Filter) {
        print_heading(self, "ns", true);
        for (i, j) in self.rows(filter) {
            let (mut inputs, case) = ((self.make)(i), &self.cases[j]);
            let Times { sides, medians } = timing::times(&mut inputs, case.calls);
            print_row(inputs.name(), case.name, sides, Some(medians));
        }
    }

    fn instructions(&self, number: usize, filter: &Filter) -> Result<(), String> {
        print_heading(self, "instructions", false);
        for (i, j) in self.rows(filter) {
            let counts: [f64; N] = counting::instructions([number, i, j])?;
            print_row((self.make)(i).name(), self.cases[j].name, counts, None);
        }
        Ok(())
    }

    fn run(&self, [inputs, call, side, times]: [usize; 4]) -> bool {
        let Some(case) = self.cases.get(call).filter(|_| inputs < self.count && side < N) else {
            return false;
        };
        let mut inputs = (self.make)(inputs);
        for _ in 0..times {
            case.calls[side](&mut inputs);
        }
        true
    }
}
