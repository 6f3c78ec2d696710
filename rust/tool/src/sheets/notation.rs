//! Values and statements in Maurer's notation.

use crate::sheets::{column_count, order_letter, row_count};
use dimkhoros::{EXPONENT, Instance, Places, Round};

/// The first values of places: one alone, several as a tuple.
fn tuple(places: &Places, count: usize) -> String {
    let values: Vec<String> = places.iter().take(count).map(u32::to_string).collect();
    joined(&values)
}

/// A value for each row of a sheet.
pub fn by_row(sheet: &Instance, places: &Places) -> String {
    tuple(places, row_count(sheet))
}

/// A value for each column of a sheet.
pub fn by_column(sheet: &Instance, places: &Places) -> String {
    tuple(places, column_count(sheet))
}

/// The name of a coordinate, such as x, or x1 and x2 where a sheet has several columns.
pub fn coordinate(sheet: &Instance, letter: &str, column: usize) -> String {
    numbered(letter, column_count(sheet), column)
}

/// The names of all coordinates of a letter.
fn coordinates(sheet: &Instance, letter: &str) -> Vec<String> {
    (0..column_count(sheet)).map(|column| coordinate(sheet, letter, column)).collect()
}

/// The names of all coordinates of a letter: one alone, several as a tuple.
pub fn names(sheet: &Instance, letter: &str) -> String {
    joined(&coordinates(sheet, letter))
}

/// The name of one of several things of a letter: the letter alone where there is one, else with its number from 1.
pub fn numbered(letter: &str, count: usize, place: usize) -> String {
    match count {
        1 => letter.to_string(),
        _ => format!("{letter}{}", place + 1),
    }
}

/// What a row of a sheet's table makes of the coordinates of a letter, such as `2^x1 · 3^x2`. Entries 1 are left out.
pub fn row_image(sheet: &Instance, row: usize, letter: &str) -> String {
    row_powers(sheet, row, &coordinates(sheet, letter))
}

/// What a row of a sheet's table makes of coordinates that are numbers, such as `2^4 · 3^0`. Entries 1 are left out.
pub fn row_image_of(sheet: &Instance, row: usize, values: &Places) -> String {
    let values: Vec<String> = values.iter().map(u32::to_string).collect();
    row_powers(sheet, row, &values)
}

/// What a row of a sheet's table makes of coordinates with these names.
fn row_powers(sheet: &Instance, row: usize, names: &[String]) -> String {
    let values = sheet.values();
    if values.header.kind != EXPONENT {
        return format!("{}^{}", names[row], values.header.order);
    }
    let entries = values.entries[row].iter().take(column_count(sheet));
    powers(entries.map(|entry| (*entry != 1).then(|| entry.to_string())), names)
}

/// A product of powers, such as `2^x1 · 3^x2`, of bases with their exponents. A base that is none stands for 1 and is left out.
pub fn powers(bases: impl Iterator<Item = Option<String>>, exponents: &[String]) -> String {
    let power = |(base, exponent): (Option<String>, &String)| Some(format!("{}^{exponent}", base?));
    let factors: Vec<String> = bases.zip(exponents).filter_map(power).collect();
    if factors.is_empty() { "1".to_string() } else { factors.join(" · ") }
}

/// The homomorphism, such as `x ↦ [x] = 2^x mod 23`.
pub fn homomorphism(sheet: &Instance) -> String {
    let images: Vec<String> = (0..row_count(sheet)).map(|row| row_image(sheet, row, "x")).collect();
    mapping(&coordinates(sheet, "x"), &images, &sheet.values().header.modulus.to_string())
}

/// A homomorphism that carries coordinates to images, such as `x ↦ [x] = h^x mod m`.
pub fn mapping(coordinates: &[String], images: &[String], modulus: &str) -> String {
    let bracketed = coordinates.join(", ");
    format!("{} ↦ [{bracketed}] = {} mod {modulus}", joined(coordinates), joined(images))
}

/// So many things of a name, such as `1 row` and `2 rows`.
pub fn counted(count: usize, thing: &str) -> String {
    match count {
        1 => format!("1 {thing}"),
        _ => format!("{count} {thing}s"),
    }
}

/// The homomorphism and the sheet's other numbers, such as `x ↦ [x] = 2^x mod 23, z = 13, q = 11, K = 11`.
pub fn headline(sheet: &Instance) -> String {
    let (header, z) = (sheet.values().header, by_row(sheet, &sheet.values().statement));
    let letter = order_letter(&header);
    let (map, order, challenges) = (homomorphism(sheet), header.order, header.challenges);
    format!("{map}, z = {z}, {letter} = {order}, K = {challenges}")
}

/// The statement with the sheet's other numbers in a line, such as `13 = 2^x mod 23, q = 11, K = 11`.
pub fn line(sheet: &Instance) -> String {
    with_numbers(sheet, &statement(sheet))
}

/// These rows of the statement with the sheet's other numbers in a line.
pub fn with_numbers(sheet: &Instance, rows: &[String]) -> String {
    let header = sheet.values().header;
    let (letter, order, challenges) = (order_letter(&header), header.order, header.challenges);
    format!("{}, {letter} = {order}, K = {challenges}", rows.join(", "))
}

/// The statement row by row, such as `13 = 2^x mod 23`.
pub fn statement(sheet: &Instance) -> Vec<String> {
    let values = sheet.values();
    let line = |row| {
        format!(
            "{} = {} mod {}",
            values.statement[row],
            row_image(sheet, row, "x"),
            values.header.modulus
        )
    };
    (0..row_count(sheet)).map(line).collect()
}

/// Numbers in a sentence, such as `0, 1 and 2`.
pub fn and(numbers: &[usize]) -> String {
    let numbers: Vec<String> = numbers.iter().map(usize::to_string).collect();
    enumerated(&numbers, "and")
}

/// Things in a sentence, such as `make, judge or extract`, with a word before the last.
pub fn enumerated(things: &[impl AsRef<str>], word: &str) -> String {
    let things: Vec<&str> = things.iter().map(AsRef::as_ref).collect();
    match things.split_last() {
        Some((last, rest)) if !rest.is_empty() => format!("{} {word} {last}", rest.join(", ")),
        _ => things.concat(),
    }
}

/// A round as Vic sees it, such as `(9, 3, 4)`.
pub fn round(sheet: &Instance, round: &Round) -> String {
    let (commitment, response) =
        (by_row(sheet, &round.commitment), by_column(sheet, &round.response));
    format!("({commitment}, {}, {response})", round.challenge)
}

/// Numbers with something between them.
pub fn list(numbers: &[u32], between: &str) -> String {
    numbers.iter().map(u32::to_string).collect::<Vec<String>>().join(between)
}

/// One word alone, several as a tuple.
fn joined(words: &[String]) -> String {
    match words {
        [word] => word.clone(),
        _ => format!("({})", words.join(", ")),
    }
}

/// A tuple without its brackets, as it stands within `[ ]`.
pub fn bare(tuple: &str) -> &str {
    tuple.trim_start_matches('(').trim_end_matches(')')
}
