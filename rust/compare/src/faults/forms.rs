//! Faults of the maker of sheets from linear forms.

use crate::arithmetic::{multiply, power};
use crate::faults::Fault;
use crate::faults::writers::{refused, sheet_length};
use crate::groups::Group;
use crate::library::Library::Judge;
use crate::library::{Forms, Written};

pub fn linear(fault: Fault, forms: &Forms, buffer: &mut [u8]) -> Written {
    let before = buffer.to_vec();
    let right = Judge.linear(forms, buffer);
    let mended = match right.refusal {
        0 => return written(fault, forms, &before, buffer),
        22 => return too_short(fault, forms, buffer),
        7 => with_sides_cut(fault, forms),
        29 => with_counts(fault, forms),
        30 => with_coefficients(fault, forms),
        10 => with_generators(fault, forms),
        _ => None,
    };
    let Some(mended) = mended else {
        let number = other_number(fault, forms, buffer.len(), right.refusal);
        return refused(number);
    };
    let answer = Judge.linear(&mended, buffer);
    if answer.refusal == 0 {
        let header = mended.header;
        let read = Forms { header, ..forms.clone() };
        put(fault, &read, buffer);
    }
    answer
}

/// The place of the coefficient of row i, generator g and column j.
fn place(fault: Fault, forms: &Forms, [i, g, j]: [usize; 3]) -> usize {
    let (rows, columns) = (forms.header.rows as usize, forms.header.columns as usize);
    let generators = forms.generators.len();
    match fault {
        Fault::FormsExchanged => (i * columns + j) * generators + g,
        Fault::FormsByGenerator => (g * rows + i) * columns + j,
        Fault::FormsRowStride => (i * rows + g) * columns + j,
        Fault::FormsFirstRow => g * columns + j,
        _ => (i * generators + g) * columns + j,
    }
}

/// Entry (i, j). A coefficient that is not there is 0.
fn entry(fault: Fault, forms: &Forms, i: usize, j: usize) -> u32 {
    let modulus = forms.header.modulus;
    let mut product = 1;
    let mut used = false;
    for (g, generator) in forms.generators.iter().enumerate() {
        let place = place(fault, forms, [i, g, j]);
        let coefficient = forms.coefficients.get(place).copied().unwrap_or(0);
        let exponent = match fault {
            Fault::FormsModM => coefficient % modulus,
            Fault::FormsLastGenerator if g + 1 == forms.generators.len() => 0,
            _ => coefficient,
        };
        used |= coefficient > 0;
        product = multiply(product, power(*generator, exponent, modulus), modulus);
    }
    match fault {
        Fault::FormsZeroEntry if !used => 0,
        _ => product,
    }
}

/// The table row by row.
fn table(fault: Fault, forms: &Forms) -> Vec<u32> {
    let columns = forms.header.columns as usize;
    let cells = 0..forms.header.rows as usize * columns;
    cells.map(|cell| entry(fault, forms, cell / columns, cell % columns)).collect()
}

/// Puts the table into a sheet.
fn put(fault: Fault, forms: &Forms, sheet: &mut [u8]) {
    for (place, entry) in table(fault, forms).into_iter().enumerate() {
        sheet[20 + 4 * place..][..4].copy_from_slice(&entry.to_be_bytes());
    }
}

/// What becomes of a sheet that is written.
fn written(fault: Fault, forms: &Forms, before: &[u8], buffer: &mut [u8]) -> Written {
    let length = sheet_length(&forms.header);
    put(fault, forms, buffer);
    if fault == Fault::FormsNeedsMore && buffer.len() == length {
        buffer.copy_from_slice(before);
        return refused(22);
    }
    if fault == Fault::FormsByteAfter {
        let behind = buffer.iter_mut().skip(length);
        behind.take(1).for_each(|byte| *byte = 0);
    }
    Written { refusal: 0, length }
}

/// What becomes of a buffer that is too short.
fn too_short(fault: Fault, forms: &Forms, buffer: &mut [u8]) -> Written {
    let mut whole = vec![0; sheet_length(&forms.header)];
    let Written { length, .. } = Judge.linear(forms, &mut whole);
    match fault {
        Fault::FormsShortWritten => buffer.copy_from_slice(&whole[..buffer.len()]),
        Fault::FormsRefusedLength => return Written { refusal: 22, length },
        _ => {}
    }
    refused(22)
}

/// What is asked in the place of rows or columns that are refused.
fn with_sides_cut(fault: Fault, forms: &Forms) -> Option<Forms> {
    let mut mended = forms.clone();
    mended.header.rows &= 0xff;
    mended.header.columns &= 0xff;
    (fault == Fault::FormsRowsCut).then_some(mended)
}

/// What is asked in the place of lists whose counts are refused.
fn with_counts(fault: Fault, forms: &Forms) -> Option<Forms> {
    let mut mended = forms.clone();
    let rows = forms.header.rows as usize;
    let cells = rows * forms.header.columns as usize;
    let count = forms.generators.len();
    let Forms { generators, coefficients, statement, .. } = &mut mended;
    match fault {
        Fault::FormsNone if count == 0 && coefficients.is_empty() => {
            generators.push(1);
            coefficients.resize(cells, 0);
        }
        Fault::FormsNine if count == 9 && coefficients.len() == 9 * cells => {
            generators.truncate(8);
            coefficients.truncate(8 * cells);
        }
        Fault::FormsCoefficientsMore => coefficients.truncate(count * cells),
        Fault::FormsCoefficientsFewer if coefficients.len() < count * cells => {
            coefficients.resize(count * cells, 0);
        }
        Fault::FormsStatementMore => statement.truncate(rows),
        Fault::FormsStatementFewer if statement.len() < rows => statement.resize(rows, 0),
        _ => return None,
    }
    Some(mended)
}

/// What is asked in the place of coefficients of q or more.
fn with_coefficients(fault: Fault, forms: &Forms) -> Option<Forms> {
    let order = forms.header.order;
    let mut mended = forms.clone();
    let list = &mut mended.coefficients;
    let last = list.len() - 1;
    let untested = match fault {
        Fault::FormsOrderTaken => {
            list.iter_mut().filter(|value| **value == order).for_each(|value| *value = 0);
            &mut []
        }
        Fault::FormsReduced => &mut list[..],
        Fault::FormsFirstCoefficient => &mut list[1..],
        Fault::FormsLastCoefficient => &mut list[last..],
        _ => return None,
    };
    untested.iter_mut().for_each(|value| *value %= order);
    Some(mended)
}

/// What is asked in the place of generators of which one is no group element.
fn with_generators(fault: Fault, forms: &Forms) -> Option<Forms> {
    let header = forms.header;
    let (columns, count) = (header.columns as usize, forms.generators.len());
    let group = Group::new(1, header.modulus, header.order);
    let is_used = |g: usize| {
        let rows = forms.coefficients.chunks(columns * count);
        rows.flat_map(|row| &row[g * columns..][..columns]).any(|value| *value > 0)
    };
    let entries_fit = || table(fault, forms).iter().all(|v| group.is_element(*v));
    let mut mended = forms.clone();
    for (g, value) in mended.generators.iter_mut().enumerate() {
        let passes = match fault {
            Fault::FormsFirstTested => g > 0,
            Fault::FormsLastUntested => g + 1 == count,
            Fault::FormsUsedTested => !is_used(g),
            Fault::FormsEntriesTested => entries_fit(),
            Fault::FormsRangeOnly => (1..header.modulus).contains(value),
            Fault::FormsCongruent => group.is_element(*value % header.modulus),
            _ => return None,
        };
        if passes {
            *value = 1;
        }
    }
    Some(mended)
}

/// Whether the three lists are as long as they are to be.
fn is_counted(forms: &Forms) -> bool {
    let header = forms.header;
    let count = forms.generators.len();
    let wanted = u128::from(header.rows) * count as u128 * u128::from(header.columns);
    (1..=8).contains(&count)
        && forms.coefficients.len() as u128 == wanted
        && forms.statement.len() == header.rows as usize
}

/// The number that is given in the place of this one.
fn other_number(fault: Fault, forms: &Forms, length: usize, number: u32) -> u32 {
    let Forms { header, coefficients, .. } = forms;
    let mut mended = forms.clone();
    match (fault, number) {
        (Fault::FormsCountsFirst, 7) | (Fault::FormsCountsEarly, 8) if !is_counted(forms) => 29,
        (Fault::FormsPatternNumber, 29) => 1,
        (Fault::FormsCoefficientsFirst, 29) if coefficients.iter().any(|c| *c >= header.order) => {
            30
        }
        (Fault::FormsCoefficientsLate, 30) => {
            mended.coefficients.fill(0);
            match Judge.linear(&mended, &mut []).refusal {
                10 => 10,
                _ => 30,
            }
        }
        (Fault::FormsStatementFirst, 10) => {
            mended.generators.fill(1);
            match Judge.linear(&mended, &mut []).refusal {
                11 => 11,
                _ => 10,
            }
        }
        (Fault::FormsShortFirst, 10 | 11) if length < sheet_length(header) => 22,
        _ => number,
    }
}
