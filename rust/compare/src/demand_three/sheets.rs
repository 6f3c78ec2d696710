//! Small sheets, and those on which demand 3 is tried.

use crate::library::{Header, Places};
use crate::sheets::Sheet;

/// The first values, with 0 beyond them.
fn places(values: &[u32]) -> Places {
    let mut places = [0; 8];
    places[..values.len()].copy_from_slice(values);
    places
}

/// A sheet of this kind with these m, ℓ and K.
fn sheet(kind: u32, numbers: [u32; 3], columns: usize, table: &[u32], statement: &[u32]) -> Sheet {
    let [modulus, order, challenges] = numbers;
    let mut entries = [0; 64];
    for (place, entry) in table.iter().enumerate() {
        entries[8 * (place / columns) + place % columns] = *entry;
    }
    Sheet {
        header: Header {
            kind,
            modulus,
            order,
            challenges,
            rows: statement.len() as u32,
            columns: columns as u32,
        },
        entries,
        statement: places(statement),
    }
}

/// A sheet of kind 1, with its table row by row.
pub fn exponent(numbers: [u32; 3], columns: usize, table: &[u32], statement: &[u32]) -> Sheet {
    sheet(1, numbers, columns, table, statement)
}

/// A sheet of kind 2.
pub fn root(numbers: [u32; 3], statement: &[u32]) -> Sheet {
    sheet(2, numbers, statement.len(), &[], statement)
}

/// Small sheets with one witness, with several and with none.
pub fn small() -> Vec<Sheet> {
    vec![
        // Page A.
        exponent([23, 11, 11], 1, &[2], &[13]),
        // Page D, which has eleven witnesses.
        exponent([23, 11, 11], 2, &[2, 3], &[18]),
        // Two rows, with and without a witness.
        exponent([11, 5, 5], 1, &[3, 4], &[9, 5]),
        exponent([11, 5, 5], 1, &[3, 4], &[9, 3]),
        exponent([7, 3, 3], 2, &[2, 4, 4, 1], &[2, 4]),
        // A composite order. 2 has order 5, and 25 is no power of 2.
        exponent([31, 15, 3], 1, &[2], &[16]),
        exponent([31, 15, 3], 1, &[2], &[25]),
        exponent([31, 15, 3], 2, &[2, 5], &[25]),
        // A composite modulus, and an order above it.
        exponent([35, 3, 3], 1, &[11], &[16]),
        exponent([8, 10, 2], 1, &[3], &[3]),
        // Page G.
        root([35, 5, 5], &[32]),
        // Several roots, none, and a composite exponent.
        root([7, 3, 3], &[1]),
        root([7, 3, 3], &[3]),
        root([16, 15, 3], &[7]),
        root([9, 3, 3], &[8, 1]),
    ]
}
