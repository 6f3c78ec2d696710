//! What is wrong with a pattern file, found by walking its bytes.

use super::Found;
use super::fields::{mark, number};
use crate::sheets::notation::{counted, numbered};
use dimkhoros::{MOST_PATTERNS, PLACES};

/// How many bytes stand before the first pattern: mark, version and count.
const HEADER: usize = 6;

/// How many bytes stand before the digits of a pattern: rows, columns and number of values.
const SIZES: usize = 3;

/// The first thing by which the bytes are not a pattern file: refusal 23.
pub fn wrong_shape(file: &[u8]) -> Option<Found> {
    let count = number(file, 5, 1);
    if file.len() < HEADER {
        let needed = format!("the header of a pattern file has {HEADER}");
        return Some(Found::Length { found: file.len(), needed });
    }
    if !file.starts_with(b"PAT") {
        return Some(Found::Value { offset: 0, value: mark(file) });
    }
    if number(file, 3, 2) != 1 {
        let value = format!("version {}", number(file, 3, 2));
        return Some(Found::Value { offset: 3, value });
    }
    if !(1..=MOST_PATTERNS).contains(&count) {
        return Some(Found::Value { offset: 5, value: counted(count, "pattern") });
    }
    let end = (1..=count).try_fold(HEADER, |offset, pattern| end(file, offset, pattern));
    match end {
        Err(found) => Some(found),
        Ok(end) if end == file.len() => None,
        Ok(end) => {
            let (patterns, make) =
                (counted(count, "pattern"), if count == 1 { "makes" } else { "make" });
            let needed = format!("its {patterns} with these sizes {make} {end}");
            Some(Found::Length { found: file.len(), needed })
        }
    }
}

/// Where the pattern of a number that begins at an offset ends, or the first of its sizes that is wrong or not there.
fn end(file: &[u8], offset: usize, pattern: usize) -> Result<usize, Found> {
    for (place, thing) in ["row", "column", "value"].into_iter().enumerate() {
        let offset = offset + place;
        let Some(size) = file.get(offset).copied().map(usize::from) else {
            let needed = format!("pattern {pattern} begins after these");
            return Err(Found::Length { found: file.len(), needed });
        };
        if !(1..=PLACES).contains(&size) {
            let value = format!("{} of pattern {pattern}", counted(size, thing));
            return Err(Found::Value { offset, value });
        }
    }
    Ok(offset + SIZES + number(file, offset, 1) * number(file, offset + 1, 1))
}

/// The first digit above its pattern's number of values, or the first value that no digit of its pattern names: refusal 24. The
/// file has the right shape.
pub fn wrong_digit(file: &[u8]) -> Option<Found> {
    let mut offset = HEADER;
    for pattern in 1..=number(file, 5, 1) {
        let end = end(file, offset, pattern).ok()?;
        let digits = file.get(offset + SIZES..end)?;
        let found = digit_above(file, offset, digits, pattern)
            .or_else(|| value_unnamed(file, offset, digits, pattern));
        if found.is_some() {
            return found;
        }
        offset = end;
    }
    None
}

/// The first digit of the pattern at an offset that is above its number of values.
fn digit_above(file: &[u8], offset: usize, digits: &[u8], pattern: usize) -> Option<Found> {
    let (columns, values) = (number(file, offset + 1, 1), number(file, offset + 2, 1));
    let place = digits.iter().position(|digit| usize::from(*digit) > values)?;
    let column = numbered("x", columns, place % columns);
    let value = format!(
        "digit {} in row {} and column {column} of pattern {pattern}",
        digits[place],
        place / columns
    );
    Some(Found::Value { offset: offset + SIZES + place, value })
}

/// The first value of the pattern at an offset that no digit names. What is wrong then is the number of values.
fn value_unnamed(file: &[u8], offset: usize, digits: &[u8], pattern: usize) -> Option<Found> {
    let values = number(file, offset + 2, 1);
    let named = |value: &usize| digits.iter().any(|digit| usize::from(*digit) == *value);
    let value = (1..=values).find(|value| !named(value))?;
    let value = format!(
        "{} of pattern {pattern}, of which no digit names value {value},",
        counted(values, "value")
    );
    Some(Found::Value { offset: offset + 2, value })
}
