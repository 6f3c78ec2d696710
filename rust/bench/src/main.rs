//! Measures the proved library's calls beside the same calls in Rust.
//!
//! It prints tables of times in markdown, or, with the first word `count`, of
//! instructions. Other words choose rows: all of them have to stand in the first
//! two columns. Exit status: 0 measured, 1 a version in Rust answers differently,
//! 2 no such row or no valgrind.

#![forbid(unsafe_code)]

mod counting;
mod filter;
mod games;
mod ledgers;
mod linear;
mod printing;
mod random;
mod reference;
mod sessions;
mod sheets;
mod table;
mod tables;
mod timing;
mod watches;

use std::process::ExitCode;

use filter::Filter;
use table::Difference;
use tables::TABLES;

fn main() -> ExitCode {
    let words: Vec<String> = std::env::args().skip(1).collect();
    let ended = match words.split_first() {
        Some((first, numbers)) if first == "run" => run(numbers),
        Some((first, rest)) if first == "count" => instructions(&Filter::new(rest)),
        _ => times(&Filter::new(&words)),
    };
    match ended {
        Ok(()) => ExitCode::SUCCESS,
        Err((status, told)) => {
            eprintln!("bench: {told}");
            ExitCode::from(status)
        }
    }
}

/// An exit status, and what is told.
type Failure = (u8, String);

/// Prints the times of the rows that are asked for. Each table is compared before
/// anything is measured.
fn times(filter: &Filter) -> Result<(), Failure> {
    for number in asked(filter)? {
        if let Some(Difference { on, call, side }) = TABLES[number].first_difference() {
            return Err((1, format!("{call}, {on}: {side} answers differently")));
        }
    }
    println!("## One run\n\n{}", printing::machine());
    for number in asked(filter)? {
        TABLES[number].times(filter);
    }
    Ok(())
}

/// Prints the instructions of the rows that are asked for.
fn instructions(filter: &Filter) -> Result<(), Failure> {
    println!("## Instructions");
    for number in asked(filter)? {
        TABLES[number].instructions(number, filter).map_err(|told| (2, told))?;
    }
    Ok(())
}

/// Words that rows have.
const WORDS: &str = "load, judge, watch, linear, game, save, ledger, \"8 × 8\", root, 65,536";

/// The numbers of the tables that have rows that are asked for.
fn asked(filter: &Filter) -> Result<Vec<usize>, Failure> {
    let numbers: Vec<usize> = (0..TABLES.len()).filter(|&i| TABLES[i].is_asked(filter)).collect();
    if numbers.is_empty() {
        return Err((
            2,
            format!("no row has all of these words: {filter}. Words of rows: {WORDS}"),
        ));
    }
    Ok(numbers)
}

/// Makes a call so many times, for counting: the numbers of the table, the inputs,
/// the call and the side, and how often.
fn run(words: &[String]) -> Result<(), Failure> {
    let numbers: Vec<usize> = words.iter().filter_map(|word| word.parse().ok()).collect();
    let [table, inputs, call, side, times] = numbers[..] else {
        return Err((2, "run takes five numbers".to_string()));
    };
    let found = TABLES.get(table).is_some_and(|table| table.run([inputs, call, side, times]));
    if found { Ok(()) } else { Err((2, "no such call".to_string())) }
}
