//! The sheet: its fields, its tests, its bytes and the table's image.

use crate::arithmetic::{gcd, multiply, power};
use crate::bytes::{number, put};

const MARK: &[u8; 3] = b"HOM";
/// The bytes before the entries.
pub(crate) const HEADER: usize = 20;

/// The values of a sheet.
///
/// Entries and statement values beyond the rows and columns in use are 0 in a
/// loaded sheet. In kind 2 all entries are 0.
#[derive(Clone, Debug, PartialEq, Eq)]
pub struct Sheet {
    /// 1 for exponent, 2 for root.
    pub kind: u32,
    /// The modulus m.
    pub modulus: u32,
    /// ℓ: the order q in kind 1, the exponent e in kind 2.
    pub order: u32,
    /// The challenge count K.
    pub challenges: u32,
    /// The row count s.
    pub rows: u32,
    /// The column count n.
    pub columns: u32,
    /// The table, row by row.
    pub entries: [[u32; 8]; 8],
    /// The statement z.
    pub statement: [u32; 8],
}

impl Sheet {
    /// The rows in use, as a count for arrays. At most 8 once test 7 passed.
    pub(crate) fn s(&self) -> usize {
        self.rows as usize
    }

    /// The columns in use, as a count for arrays. At most 8 once test 7 passed.
    pub(crate) fn n(&self) -> usize {
        self.columns as usize
    }

    /// Whether v is a group element of this sheet.
    pub(crate) fn is_group_element(&self, v: u32) -> bool {
        let in_range = 1 <= v && v < self.modulus;
        in_range
            && match self.kind {
                1 => power(v, u128::from(self.order), self.modulus) == 1,
                _ => gcd(v, self.modulus) == 1,
            }
    }

    /// Whether v is a domain slot of this sheet.
    pub(crate) fn is_domain_slot(&self, v: u32) -> bool {
        match self.kind {
            1 => v < self.order,
            _ => self.is_group_element(v),
        }
    }

    /// The table's image `[x]`, with 0 beyond the rows in use.
    pub(crate) fn image(&self, x: &[u32; 8]) -> [u32; 8] {
        let mut image = [0; 8];
        for (i, value) in image.iter_mut().enumerate().take(self.s()) {
            *value = match self.kind {
                1 => self.product(&self.entries[i], x),
                _ => power(x[i], u128::from(self.order), self.modulus),
            };
        }
        image
    }

    /// The product of the row's entries, each to the power of its slot.
    fn product(&self, row: &[u32; 8], x: &[u32; 8]) -> u32 {
        let mut product = 1;
        for (entry, slot) in row.iter().zip(x).take(self.n()) {
            let factor = power(*entry, u128::from(*slot), self.modulus);
            product = multiply(product, factor, self.modulus);
        }
        product
    }

    /// Tests 4 to 8, in order.
    pub(crate) fn test_header(&self) -> Result<(), u32> {
        if self.kind != 1 && self.kind != 2 {
            return Err(4);
        }
        if self.modulus < 3 {
            return Err(5);
        }
        if self.order < 2 {
            return Err(6);
        }
        let in_range = |count: u32| (1..=8).contains(&count);
        if !in_range(self.rows) || !in_range(self.columns) {
            return Err(7);
        }
        if self.kind == 2 && self.rows != self.columns {
            return Err(7);
        }
        if self.challenges < 2 || self.challenges > 65_536 {
            return Err(8);
        }
        if (2..self.challenges).any(|d| self.order % d == 0) {
            return Err(8);
        }
        Ok(())
    }

    /// Tests 10 and 11, in order, once 4 to 8 have passed.
    pub(crate) fn test_values(&self) -> Result<(), u32> {
        for value in self.table() {
            if !self.is_group_element(value) {
                return Err(10);
            }
        }
        for value in self.statement.iter().take(self.s()) {
            if !self.is_group_element(*value) {
                return Err(11);
            }
        }
        Ok(())
    }

    /// The entries in use, row by row. Kind 2 has none.
    fn table(&self) -> Vec<u32> {
        let mut table = Vec::new();
        if self.kind == 1 {
            for row in self.entries.iter().take(self.s()) {
                table.extend(row.iter().take(self.n()));
            }
        }
        table
    }

    /// The length in bytes that the header gives.
    fn length(&self) -> usize {
        let entries = if self.kind == 1 { self.s() * self.n() } else { 0 };
        HEADER + 4 * (entries + self.s())
    }
}

/// The sheet that the header gives, untested, with 0 for every entry and
/// statement value.
pub(crate) fn header(sheet: &[u8]) -> Sheet {
    Sheet {
        kind: number(sheet, 5, 1),
        modulus: number(sheet, 6, 4),
        order: number(sheet, 10, 4),
        challenges: number(sheet, 14, 4),
        rows: number(sheet, 18, 1),
        columns: number(sheet, 19, 1),
        entries: [[0; 8]; 8],
        statement: [0; 8],
    }
}

/// Reads the bytes of a sheet and answers its values.
///
/// Refuses with 2 to 11: a short sheet or another mark (2), another version
/// (3), an unknown kind (4), a modulus below 3 (5), an ℓ below 2 (6), bad row
/// or column counts (7), a bad challenge count (8), a length that is not what
/// the header gives (9), an entry (10) or a statement value (11) that is no
/// group element.
pub fn load(sheet: &[u8]) -> Result<Sheet, u32> {
    let loaded = unpack(sheet)?;
    loaded.test_values()?;
    Ok(loaded)
}

/// The values of a sheet after the tests 2 to 9. Entries and statement values
/// are not tested.
pub(crate) fn unpack(sheet: &[u8]) -> Result<Sheet, u32> {
    if sheet.len() < HEADER || !sheet.starts_with(MARK) {
        return Err(2);
    }
    if number(sheet, 3, 2) != 1 {
        return Err(3);
    }
    let mut loaded = header(sheet);
    loaded.test_header()?;
    if sheet.len() != loaded.length() {
        return Err(9);
    }
    let (rows, columns) = (loaded.s(), loaded.n());
    let mut at = HEADER;
    if loaded.kind == 1 {
        for row in loaded.entries.iter_mut().take(rows) {
            for entry in row.iter_mut().take(columns) {
                *entry = number(sheet, at, 4);
                at += 4;
            }
        }
    }
    for value in loaded.statement.iter_mut().take(rows) {
        *value = number(sheet, at, 4);
        at += 4;
    }
    Ok(loaded)
}

/// Writes the sheet with these values at the start of the buffer and answers
/// its length in bytes. No byte after it changes.
///
/// Refuses with 4 to 8, 10 and 11, on the same conditions as loading, and
/// with 22 when the buffer is shorter than the sheet. Entries and statement
/// values beyond the rows and columns are not read. In kind 2 no entry is.
pub fn encode(sheet: &Sheet, buffer: &mut [u8]) -> Result<usize, u32> {
    // Decision: 01 says that this writer tests 4 to 8. A kind, row or column
    // number above one byte is outside what 4 and 7 allow and is refused so.
    sheet.test_header()?;
    sheet.test_values()?;
    let mut bytes = MARK.to_vec();
    bytes.extend([0, 1, sheet.kind as u8]);
    bytes.extend(sheet.modulus.to_be_bytes());
    bytes.extend(sheet.order.to_be_bytes());
    bytes.extend(sheet.challenges.to_be_bytes());
    bytes.extend([sheet.rows as u8, sheet.columns as u8]);
    for entry in sheet.table() {
        bytes.extend(entry.to_be_bytes());
    }
    for value in sheet.statement.iter().take(sheet.s()) {
        bytes.extend(value.to_be_bytes());
    }
    put(&bytes, buffer)
}
