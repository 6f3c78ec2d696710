//! The rules again, in the slowest form, for small sheets.

use judge::{Rows, Sheet, Verdict};

pub fn slow_power(base: u32, exponent: u32, m: u32) -> u32 {
    let mut product = 1 % u64::from(m);
    for _ in 0..exponent {
        product = product * u64::from(base) % u64::from(m);
    }
    product as u32
}

pub fn slow_element(sheet: &Sheet, v: u32) -> bool {
    let m = sheet.modulus;
    if v < 1 || v > m - 1 {
        return false;
    }
    if sheet.kind == 1 {
        slow_power(v, sheet.order, m) == 1
    } else {
        !(2..=v).any(|d| v % d == 0 && m % d == 0)
    }
}

/// All group elements.
pub fn elements(sheet: &Sheet) -> Vec<u32> {
    (0..=sheet.modulus).filter(|v| slow_element(sheet, *v)).collect()
}

/// All domain slots.
pub fn slots(sheet: &Sheet) -> Vec<u32> {
    if sheet.kind == 1 { (0..sheet.order).collect() } else { elements(sheet) }
}

pub fn slow_image(sheet: &Sheet, x: &[u32; 8]) -> [u32; 8] {
    let m = u64::from(sheet.modulus);
    let mut image = [0; 8];
    for i in 0..sheet.rows as usize {
        let mut value = 1;
        if sheet.kind == 1 {
            let row = &sheet.entries[i];
            for (entry, slot) in row.iter().zip(x).take(sheet.columns as usize) {
                let factor = slow_power(*entry, *slot, sheet.modulus);
                value = value * u64::from(factor) % m;
            }
        } else {
            value = u64::from(slow_power(x[i], sheet.order, sheet.modulus));
        }
        image[i] = value as u32;
    }
    image
}

/// The whole product of one K per round, 1 for no rounds, as its bits, lowest
/// first. The highest bit is 1.
pub fn slow_product(challenges: u32, rounds: u32) -> Vec<bool> {
    let mut bits = vec![true];
    for _ in 0..rounds {
        let mut product = Vec::new();
        let mut carry = 0_u64;
        for bit in bits {
            carry += u64::from(bit) * u64::from(challenges);
            product.push(carry % 2 == 1);
            carry /= 2;
        }
        while carry > 0 {
            product.push(carry % 2 == 1);
            carry /= 2;
        }
        bits = product;
    }
    bits
}

/// The two sides of a row, for values that are in range.
pub fn slow_sides(sheet: &Sheet, t: &[u32; 8], c: u32, r: &[u32; 8], row: usize) -> [u32; 2] {
    let m = u64::from(sheet.modulus);
    let power = u64::from(slow_power(sheet.statement[row], c, sheet.modulus));
    let right = u64::from(t[row]) * power % m;
    [slow_image(sheet, r)[row], right as u32]
}

/// The rows that differ, for values that are in range.
pub fn slow_rows(sheet: &Sheet, t: &[u32; 8], c: u32, r: &[u32; 8]) -> Rows {
    std::array::from_fn(|row| {
        let [left, right] =
            if row < sheet.rows as usize { slow_sides(sheet, t, c, r, row) } else { [0, 0] };
        left != right
    })
}

/// The verdict, for values that are in range.
pub fn slow_verdict(sheet: &Sheet, t: &[u32; 8], c: u32, r: &[u32; 8]) -> Verdict {
    let rows = slow_rows(sheet, t, c, r);
    if rows.iter().any(|differs| *differs) { Verdict::Rejected(rows) } else { Verdict::Accepted }
}

/// The product of the parts mod m, row by row, with 0 beyond the rows.
pub fn slow_multiplied(sheet: &Sheet, parts: &[[u32; 8]]) -> [u32; 8] {
    std::array::from_fn(|row| {
        let values = parts.iter().map(|part| u64::from(part[row]));
        let m = u64::from(sheet.modulus);
        if row < sheet.rows as usize {
            values.fold(1, |product, value| product * value % m) as u32
        } else {
            0
        }
    })
}

/// The parts, joined slot by slot by the domain's operation.
pub fn slow_joined(sheet: &Sheet, parts: &[[u32; 8]]) -> [u32; 8] {
    if sheet.kind == 2 {
        return slow_multiplied(sheet, parts);
    }
    std::array::from_fn(|column| {
        let values = parts.iter().map(|part| u64::from(part[column]));
        if column < sheet.columns as usize {
            (values.sum::<u64>() % u64::from(sheet.order)) as u32
        } else {
            0
        }
    })
}
