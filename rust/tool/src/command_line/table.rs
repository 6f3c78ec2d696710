//! Tables whose columns stand below each other.

use crate::command_line::colour::columns;

/// How a column is set.
#[derive(Clone, Copy, PartialEq)]
pub enum Set {
    /// Words, which begin below each other.
    Left,
    /// Numbers, which end below each other.
    Right,
}

/// The lines of a table, its columns two spaces apart, each line after the indent and without spaces at its end.
pub fn lines(indent: &str, set: &[Set], rows: &[Vec<String>]) -> String {
    let width = |column: usize| {
        let cells = rows.iter().filter_map(|row| row.get(column));
        cells.map(|cell| columns(cell)).max().unwrap_or(0)
    };
    let widths: Vec<usize> = (0..set.len()).map(width).collect();
    rows.iter().map(|row| line(indent, set, &widths, row)).collect()
}

/// A line of a table.
fn line(indent: &str, set: &[Set], widths: &[usize], row: &[String]) -> String {
    // Not by the width of a format, which has 16 bits: the name of a folder may be longer.
    let cell = |((cell, set), width): ((&String, &Set), &usize)| {
        let spaces = " ".repeat(width.saturating_sub(columns(cell)));
        match set {
            Set::Left => format!("{cell}{spaces}"),
            Set::Right => format!("{spaces}{cell}"),
        }
    };
    let cells: Vec<String> = row.iter().zip(set).zip(widths).map(cell).collect();
    format!("{indent}{}", cells.join("  ")).trim_end().to_string() + "\n"
}

#[cfg(test)]
mod tests {
    use super::{Set, lines};

    #[test]
    fn cells_of_any_length_are_set() {
        let long = "x".repeat(70_000);
        let rows = [vec![long.clone(), long.clone()], vec!["1".to_string(), "2".to_string()]];
        let (gap, text) = (" ".repeat(69_999), lines("", &[Set::Left, Set::Right], &rows));
        assert_eq!(text, format!("{long}  {long}\n1{gap}  {gap}2\n"));
    }
}
