//! The six patterns of the sheet maker.

use crate::sheet::{Sheet, encode};

/// What a pattern number stands for.
struct Pattern {
    kind: u32,
    /// How many public values it takes.
    values: usize,
    /// How many rows it has, and so how many statement values it takes.
    rows: u32,
    columns: u32,
    /// The table. A digit is the position of a public value, from 1. The
    /// digit 0 stands for the entry 1.
    digits: &'static [&'static [usize]],
}

/// The pattern with this number, if there is one.
fn pattern(number: u64) -> Option<Pattern> {
    let (kind, values, rows, columns, digits): (_, _, _, _, &'static [&'static [usize]]) =
        match number {
            1 => (1, 1, 1, 1, &[&[1]]),
            2 => (1, 2, 1, 2, &[&[1, 2]]),
            3 => (1, 2, 2, 1, &[&[1], &[2]]),
            4 => (1, 2, 2, 1, &[&[1], &[2]]),
            5 => (1, 3, 2, 3, &[&[1, 2, 0], &[3, 0, 2]]),
            6 => (2, 0, 1, 1, &[]),
            _ => return None,
        };
    Some(Pattern { kind, values, rows, columns, digits })
}

/// Makes the sheet of a pattern at the start of the buffer and answers its
/// length in bytes. No byte after it changes.
///
/// Refuses with 1 when the pattern number is outside 1 to 6 or the count of
/// public or statement values is wrong for it. Then with 5, 6 and 8 for the
/// modulus, ℓ and the challenge count, with 10 for a public value and 11 for a
/// statement value that is no group element, and with 22 when the buffer is
/// shorter than the sheet.
pub fn make(
    pattern: u64,
    modulus: u32,
    order: u32,
    challenges: u32,
    values: &[u32],
    statement: &[u32],
    buffer: &mut [u8],
) -> Result<usize, u32> {
    let Some(pattern) = self::pattern(pattern) else {
        return Err(1);
    };
    if values.len() != pattern.values || statement.len() != pattern.rows as usize {
        return Err(1);
    }
    let mut sheet = Sheet {
        kind: pattern.kind,
        modulus,
        order,
        challenges,
        rows: pattern.rows,
        columns: pattern.columns,
        entries: [[0; 8]; 8],
        statement: [0; 8],
    };
    for (row, digits) in sheet.entries.iter_mut().zip(pattern.digits) {
        for (entry, digit) in row.iter_mut().zip(*digits) {
            *entry = match *digit {
                0 => 1,
                position => values[position - 1],
            };
        }
    }
    for (place, value) in sheet.statement.iter_mut().zip(statement) {
        *place = *value;
    }
    // Decision: 01 names no tests for the maker beside its 1, but "a call
    // tests only what it takes". Kind, rows and columns come from the pattern,
    // so 4 and 7 never apply. Every public value is an entry and the entry 1
    // is always a group element, so 10 is about the public values.
    encode(&sheet, buffer)
}
