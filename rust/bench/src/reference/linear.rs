//! The maker of sheets from linear forms: refusals 5 to 8, 10, 11, 22, 29 and 30.

use super::arithmetic::{Arithmetic, Idiomatic, mul_mod, pow_mod};
use super::sheet::Header;

/// What a sheet of linear forms is made of. The coefficients stand by row, then
/// generator, then column.
pub struct Forms<'a> {
    pub header: Header,
    pub generators: &'a [u32],
    pub coefficients: &'a [u32],
    pub statement: &'a [u32],
}

/// Writes the sheet to the start of a buffer and answers its length. A refused call
/// leaves the buffer as it is.
#[inline(never)]
pub fn linear(forms: Forms, buffer: &mut [u8]) -> Result<usize, u32> {
    let Forms { header, generators, coefficients, statement } = forms;
    let Header { modulus, order, challenges, rows, columns, .. } = header.tested::<Idiomatic>()?;
    let count = generators.len();
    let fit = coefficients.len() == rows * count * columns && statement.len() == rows;
    if !(1..=8).contains(&count) || !fit {
        return Err(29);
    }
    if coefficients.iter().any(|&coefficient| coefficient >= order) {
        return Err(30);
    }
    if !Idiomatic::have_order(generators, order, modulus) {
        return Err(10);
    }
    if !Idiomatic::have_order(statement, order, modulus) {
        return Err(11);
    }
    let length = 20 + 4 * (rows * columns + rows);
    let sheet = buffer.get_mut(..length).ok_or(22u32)?;
    sheet[..6].copy_from_slice(b"HOM\x00\x01\x01");
    sheet[18..20].copy_from_slice(&[rows as u8, columns as u8]);
    write_words(&mut sheet[6..18], [modulus, order, challenges].into_iter());
    let entries = coefficients.chunks_exact(count * columns).flat_map(|row| {
        (0..columns).map(move |j| entry(generators, row[j..].iter().step_by(columns), modulus))
    });
    write_words(&mut sheet[20..], entries.chain(statement.iter().copied()));
    Ok(length)
}

/// The product over the generators of the generator to the power of its coefficient.
fn entry<'a>(generators: &[u32], coefficients: impl Iterator<Item = &'a u32>, m: u32) -> u32 {
    generators.iter().zip(coefficients).fold(1, |entry, (&generator, &coefficient)| {
        mul_mod(entry, pow_mod(generator, coefficient, m), m)
    })
}

/// Stores numbers one after the other.
fn write_words(bytes: &mut [u8], numbers: impl Iterator<Item = u32>) {
    for (place, number) in bytes.chunks_exact_mut(4).zip(numbers) {
        place.copy_from_slice(&number.to_be_bytes());
    }
}
