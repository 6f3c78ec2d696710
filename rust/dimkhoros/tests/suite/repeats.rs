//! The table of docs/BOXES.md on how often a commitment comes twice is what the formula above it gives.

use crate::cc;

use std::fs;

/// The chance that two of `sessions` commitments are the same where each is one of `commitments`, all as likely.
fn chance(commitments: u64, sessions: u64) -> f64 {
    let differ = |earlier| 1.0 - earlier as f64 / commitments as f64;
    1.0 - (1..sessions).map(differ).product::<f64>()
}

/// A number with a comma before every third digit from the right.
pub fn with_commas(number: u64) -> String {
    match number {
        0..1000 => number.to_string(),
        _ => format!("{},{:03}", with_commas(number / 1000), number % 1000),
    }
}

/// A chance as the table has it: from 1 % on to a tenth of a percent, and below as one in how many, to three digits.
fn shown(commitments: u64, sessions: u64) -> String {
    let chance = chance(commitments, sessions);
    if sessions > commitments {
        "always".to_string()
    } else if chance > 0.9995 {
        "over 99.9 %".to_string()
    } else if chance >= 0.01 {
        format!("{:.1} %", 100.0 * chance)
    } else {
        let digit = 10f64.powf((1.0 / chance).log10().floor() - 2.0);
        format!("1 in {}", with_commas(((1.0 / chance / digit).round() * digit) as u64))
    }
}

#[test]
fn the_table_of_repeats_is_computed() {
    let page = fs::read_to_string(cc::root().join("docs/BOXES.md")).unwrap();
    let rows = [("11", 11), ("100", 100), ("1,000", 1000), ("65,521", 65521)];
    let mut table =
        "| N | 10 sessions | 30 sessions | 100 sessions | 1,000 sessions |\n".to_string();
    table += "|--:|--:|--:|--:|--:|\n";
    for (name, commitments) in rows.into_iter().chain([("2^31", 1 << 31), ("2^32", 1 << 32)]) {
        let cells = [10, 30, 100, 1000].map(|sessions| shown(commitments, sessions));
        table += &format!("| {name} | {} |\n", cells.join(" | "));
    }
    assert!(
        page.contains(&(table.clone() + "\n")),
        "docs/BOXES.md does not have the table\n{table}"
    );
}
