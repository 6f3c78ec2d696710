//! A pattern file in words and tables.

use crate::command_line::table::{self, Set};
use crate::commands::patterns::{NAMES, value_names};
use crate::sheets::notation::{self, counted, numbered};
use dimkhoros::{Layout, Pattern, Patterns};

/// The text on a pattern file of a name, or on the shipped one.
pub fn text(name: Option<&str>, patterns: &Patterns) -> String {
    let (bytes, count) = (patterns.bytes().len(), counted(patterns.count(), "pattern"));
    let mut text = match name {
        Some(name) => format!("{name} is a pattern file of {bytes} bytes with {count}.\n"),
        None => format!("The shipped pattern file of {bytes} bytes has {count}.\n"),
    };
    let shipped = Patterns::shipped();
    for (layout, number) in patterns.layouts().zip(1..) {
        text += "\n";
        text += &pattern(number, &names(&shipped, patterns, number), &layout);
    }
    text
}

/// The shipped patterns with the digits of a pattern, each with its name. A pattern of the shipped file is itself alone.
fn names(shipped: &Patterns, patterns: &Patterns, number: u32) -> Vec<(&'static str, Pattern)> {
    let same = |other: u32| {
        if patterns == shipped {
            other == number
        } else {
            other > 0 && shipped.layout(other) == patterns.layout(number)
        }
    };
    NAMES.into_iter().filter(|(_, pattern)| same(pattern.number())).collect()
}

/// The text on a pattern: its sizes, its digits and its formula.
fn pattern(number: u32, names: &[(&str, Pattern)], layout: &Layout<'_>) -> String {
    let words: Vec<&str> = names.iter().map(|(name, _)| *name).collect();
    let (name, values) = match names {
        [] => (String::new(), String::new()),
        [(name, pattern)] => {
            (format!(", {name}"), format!(" ({})", value_names(*pattern).join(", ")))
        }
        _ => (format!(", {}", words.join(" or ")), String::new()),
    };
    let sizes = [(layout.rows, "row"), (layout.columns, "column"), (layout.values, "value")]
        .map(|(count, thing)| counted(count, thing));
    let heading = format!("Pattern {number}{name}: {}{values}\n", sizes.join(", "));
    let letters = match names {
        [(_, pattern)] => value_names(*pattern),
        _ => &[],
    };
    heading + &digits(layout) + &format!("    {}\n", formula(layout, letters))
}

/// The names of a pattern's coordinates.
fn coordinates(layout: &Layout<'_>) -> Vec<String> {
    (0..layout.columns).map(|column| numbered("x", layout.columns, column)).collect()
}

/// The table of a pattern's digits.
fn digits(layout: &Layout<'_>) -> String {
    let mut heading = vec!["row".to_string()];
    heading.extend(coordinates(layout));
    let mut rows = vec![heading];
    for (row, digits) in layout.digits.chunks(layout.columns).enumerate() {
        let mut cells = vec![row.to_string()];
        cells.extend(digits.iter().map(u8::to_string));
        rows.push(cells);
    }
    table::lines("    ", &vec![Set::Right; layout.columns + 1], &rows)
}

/// The homomorphism of a pattern over its public values, such as `x ↦ [x] = (h1^x, h2^x) mod m`. The values are called as the
/// pattern names them, where it does.
fn formula(layout: &Layout<'_>, letters: &[&str]) -> String {
    let coordinates = coordinates(layout);
    let value = |digit: &u8| {
        let place = usize::from(*digit).checked_sub(1)?;
        let named = letters.get(place).map(|letter| letter.to_string());
        Some(named.unwrap_or_else(|| numbered("h", layout.values, place)))
    };
    let row = |digits: &[u8]| notation::powers(digits.iter().map(value), &coordinates);
    let images: Vec<String> = layout.digits.chunks(layout.columns).map(row).collect();
    notation::mapping(&coordinates, &images, "m")
}
