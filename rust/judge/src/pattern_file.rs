//! Lecturers' own patterns: the pattern file, and the sheet maker over it.
//!
//! This maker takes the place of the one over 01's six patterns. That one
//! stays beside it, so that the two can be held against each other.

use crate::bytes::{number, put};
use crate::sheet::{Sheet, encode};

const MARK: &[u8; 3] = b"PAT";
/// The bytes before the first pattern.
const HEADER: usize = 6;

/// What a call answers that writes at the start of a lent buffer: the length
/// written, or the number of the refusal.
pub type Written = Result<usize, u32>;

/// The pattern file that is shipped: 01's patterns 1 to 5, in that order.
pub const SHIPPED: [u8; 34] = [
    0x50, 0x41, 0x54, 0, 1, 5, // mark, version, count
    1, 1, 1, 1, // Schnorr
    1, 2, 2, 1, 2, // Okamoto
    2, 1, 2, 1, 2, // equality
    2, 1, 2, 1, 2, // Diffie-Hellman
    2, 3, 3, 1, 2, 0, 3, 0, 2, // product
];

/// One pattern of a file.
struct Pattern<'a> {
    rows: u8,
    columns: u8,
    /// How many public values it takes.
    values: u8,
    /// The table, row by row. A digit is the position of a public value, from
    /// 1. The digit 0 stands for the entry 1.
    digits: &'a [u8],
}

/// A root sheet has kind 2, one row and neither public values nor entries.
const ROOT: Pattern<'static> = Pattern { rows: 1, columns: 1, values: 0, digits: &[] };

impl Pattern<'_> {
    /// Whether every digit names a value or is 0, and every value is named.
    fn is_named(&self) -> bool {
        let digits = self.digits;
        digits.iter().all(|digit| *digit <= self.values)
            && (1..=self.values).all(|value| digits.contains(&value))
    }

    /// The table with the public values in place of the digits. There are as
    /// many values as the pattern takes.
    fn entries(&self, values: &[u32]) -> [[u32; 8]; 8] {
        let mut entries = [[0; 8]; 8];
        let rows = self.digits.chunks(usize::from(self.columns));
        for (row, digits) in entries.iter_mut().zip(rows) {
            for (entry, digit) in row.iter_mut().zip(digits) {
                *entry = match *digit {
                    0 => 1,
                    position => values[usize::from(position) - 1],
                };
            }
        }
        entries
    }
}

/// The pattern at the start of the bytes, and the bytes after it, when its
/// counts are in range and all its digits are there.
fn split_first(bytes: &[u8]) -> Option<(Pattern<'_>, &[u8])> {
    let [rows, columns, values, rest @ ..] = bytes else {
        return None;
    };
    let counts = [*rows, *columns, *values];
    if !counts.iter().all(|count| (1..=8).contains(count)) {
        return None;
    }
    let cells = usize::from(*rows) * usize::from(*columns);
    let (digits, after) = rest.split_at_checked(cells)?;
    let pattern = Pattern { rows: *rows, columns: *columns, values: *values, digits };
    Some((pattern, after))
}

/// The patterns of a file in its order, after the tests 23 and 24.
fn patterns(file: &[u8]) -> Result<Vec<Pattern<'_>>, u32> {
    if file.len() < HEADER || !file.starts_with(MARK) || number(file, 3, 2) != 1 {
        return Err(23);
    }
    let count = file[5];
    if !(1..=32).contains(&count) {
        return Err(23);
    }
    let mut patterns = Vec::new();
    let mut rest = &file[HEADER..];
    for _ in 0..count {
        let Some((pattern, after)) = split_first(rest) else {
            return Err(23);
        };
        patterns.push(pattern);
        rest = after;
    }
    if !rest.is_empty() {
        return Err(23);
    }
    // Decision: 23 and 24 are about the file, so every pattern is tested, not
    // only the one that is asked for. 23 in a later pattern is given before 24
    // in an earlier one.
    if patterns.iter().all(Pattern::is_named) { Ok(patterns) } else { Err(24) }
}

/// Makes the sheet of a pattern of the file at the start of the buffer and
/// answers its length in bytes. No byte after it changes. The patterns count
/// from 1, and 0 asks for a root sheet.
///
/// Refuses with 23 for a wrong mark, version, count, dimension, number of
/// values or length of the pattern file, and then with 24 for a digit above
/// the number of values or a value that no digit names. Then with 1 when the
/// number is above the file's count or the count of public or statement values
/// is wrong for it. Then with 5, 6, 8, 10, 11 and 22 as 01's maker does.
// The eight inputs are those of 01's maker and the file.
#[allow(clippy::too_many_arguments)]
pub fn make(
    pattern_file: &[u8],
    number: u32,
    modulus: u32,
    order: u32,
    challenges: u32,
    values: &[u32],
    statement: &[u32],
    buffer: &mut [u8],
) -> Written {
    // Decision: the file is tested for a root sheet too, since "both stand
    // before 1" and the call takes the file whatever the number is.
    let patterns = patterns(pattern_file)?;
    let (kind, pattern) = match number {
        0 => (2, &ROOT),
        position => (1, patterns.get(position as usize - 1).ok_or(1_u32)?),
    };
    let counts = (usize::from(pattern.values), usize::from(pattern.rows));
    if (values.len(), statement.len()) != counts {
        return Err(1);
    }
    let mut sheet = Sheet {
        kind,
        modulus,
        order,
        challenges,
        rows: u32::from(pattern.rows),
        columns: u32::from(pattern.columns),
        entries: pattern.entries(values),
        statement: [0; 8],
    };
    for (place, value) in sheet.statement.iter_mut().zip(statement) {
        *place = *value;
    }
    // By 24 every public value is an entry, so 10 is about the public values.
    encode(&sheet, buffer)
}

/// Writes the shipped pattern file at the start of the buffer and answers its
/// length, 34. No byte after it changes.
///
/// Refuses with 22 when the buffer has under 34 bytes.
pub fn shipped(buffer: &mut [u8]) -> Written {
    put(&SHIPPED, buffer)
}
