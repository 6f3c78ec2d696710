//! Sheets from linear forms of the secrets.
//!
//! Section 6.5 of Maurer's 2015 paper has statements over several generators:
//! z_i is the product over the generators of each to the power of a linear
//! form of the secrets. Such a statement is a table of kind 1, whose entry
//! (i, j) takes in what secret j adds to the forms of row i.

use crate::arithmetic::{multiply, power};
use crate::pattern_file::Written;
use crate::sheet::{Sheet, encode};

/// Refuses with 29 when the count of generators is outside 1 to 8 or that of
/// the coefficients or statement values is wrong. Tests 5 to 8 have passed.
fn test_counts(
    sheet: &Sheet,
    generators: &[u32],
    coefficients: &[u32],
    statement: &[u32],
) -> Result<(), u32> {
    if !(1..=8).contains(&generators.len()) {
        return Err(29);
    }
    let wanted = sheet.s() * generators.len() * sheet.n();
    if coefficients.len() != wanted || statement.len() != sheet.s() {
        return Err(29);
    }
    Ok(())
}

/// The table: entry (i, j) is the product over the generators of each to the
/// power of its coefficient in row i and column j. The counts have passed 29.
fn entries(sheet: &Sheet, generators: &[u32], coefficients: &[u32]) -> [[u32; 8]; 8] {
    let (n, m) = (sheet.n(), sheet.modulus);
    let mut entries = [[0; 8]; 8];
    let rows = coefficients.chunks(generators.len() * n);
    for (row, forms) in entries.iter_mut().zip(rows) {
        row[..n].fill(1);
        for (generator, form) in generators.iter().zip(forms.chunks(n)) {
            for (entry, coefficient) in row.iter_mut().zip(form) {
                let factor = power(*generator, u128::from(*coefficient), m);
                *entry = multiply(*entry, factor, m);
            }
        }
    }
    entries
}

/// Makes the sheet of a set of linear forms at the start of the buffer and
/// answers its length in bytes. No byte after it changes. The sheet has kind 1.
/// The coefficients go by row, then generator, then column.
///
/// Refuses with 5, 6, 7 and 8 for the modulus, the order q, the rows or columns
/// and the challenge count. Then with 29 when the count of generators is
/// outside 1 to 8 or that of the coefficients or statement values is wrong, and
/// with 30 for a coefficient of q or more. Then with 10 for a generator and 11
/// for a statement value that is no group element, and with 22 when the buffer
/// is shorter than the sheet.
// The nine inputs are those that the card names.
#[allow(clippy::too_many_arguments)]
pub fn make(
    modulus: u32,
    order: u32,
    challenges: u32,
    rows: u32,
    columns: u32,
    generators: &[u32],
    coefficients: &[u32],
    statement: &[u32],
    buffer: &mut [u8],
) -> Written {
    let mut sheet = Sheet {
        kind: 1,
        modulus,
        order,
        challenges,
        rows,
        columns,
        entries: [[0; 8]; 8],
        statement: [0; 8],
    };
    sheet.test_header()?;
    test_counts(&sheet, generators, coefficients, statement)?;
    if coefficients.iter().any(|value| *value >= order) {
        return Err(30);
    }
    // Decision: every generator is tested, also one whose coefficients are all
    // 0, since the call takes it.
    if generators.iter().any(|v| !sheet.is_group_element(*v)) {
        return Err(10);
    }
    sheet.entries = entries(&sheet, generators, coefficients);
    for (place, value) in sheet.statement.iter_mut().zip(statement) {
        *place = *value;
    }
    // A product of powers of group elements is one, so 10 is about generators.
    encode(&sheet, buffer)
}
