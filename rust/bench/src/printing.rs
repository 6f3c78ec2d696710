//! What the program prints: the tables of docs/BENCHMARKS.md.

use std::fs;
use std::thread;

use crate::table::Table;

/// The processor, and how many of it there are.
pub fn machine() -> String {
    let told = fs::read_to_string("/proc/cpuinfo").unwrap_or_default();
    let name = told
        .lines()
        .find_map(|line| line.strip_prefix("model name")?.split_once(':'))
        .map_or("unknown", |(_, name)| name.trim());
    let count = thread::available_parallelism().map_or(0, usize::from);
    format!("Processor: {name}. Processors: {count}.")
}

/// Prints the title and the heading of a table whose numbers have this unit, with
/// medians or without.
pub fn print_heading<I, const N: usize>(table: &Table<I, N>, unit: &str, medians: bool) {
    let mut heading = format!("| {} | call", table.on);
    for side in table.sides {
        heading += &format!(" | {side}, {unit}");
    }
    for side in &table.sides[1..] {
        heading += &format!(" | library / {side}");
        if medians {
            heading += " | median of pairs";
        }
    }
    let numbers = heading.matches('|').count() - 2;
    println!("\n### {}\n\n{heading} |\n|---|---|{}", table.title, "--:|".repeat(numbers));
}

/// Prints a row: a number for each side, and for each version in Rust the library's
/// number divided by it, and the median if there are medians.
pub fn print_row<const N: usize>(on: &str, call: &str, sides: [f64; N], medians: Option<[f64; N]>) {
    print!("| {on} | {call}");
    for side in sides {
        print!(" | {}", rounded(side));
    }
    for version in 1..N {
        print!(" | {:.2}", sides[0] / sides[version]);
        if let Some(medians) = medians {
            print!(" | {:.2}", medians[version]);
        }
    }
    println!(" |");
}

/// A number below 100 with one decimal, and any other as a whole number.
fn rounded(number: f64) -> String {
    if number < 100.0 { format!("{number:.1}") } else { grouped(number.round() as u64) }
}

/// A whole number with a comma before each three digits.
pub fn grouped(number: u64) -> String {
    let digits = number.to_string();
    let mut text = String::new();
    for (place, digit) in digits.chars().enumerate() {
        if place > 0 && (digits.len() - place) % 3 == 0 {
            text.push(',');
        }
        text.push(digit);
    }
    text
}
