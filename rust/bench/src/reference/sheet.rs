//! Loading a sheet: refusals 2 to 11.

use std::marker::PhantomData;

use dimkhoros_sys::Places;

use super::arithmetic::Arithmetic;

/// What a sheet's table computes.
#[derive(Clone, Copy, PartialEq, Eq)]
pub enum Kind {
    Exponent,
    Root,
}

/// A sheet that loads, and the arithmetic that is used on it.
pub struct Sheet<A> {
    pub kind: Kind,
    pub modulus: u32,
    pub order: u32,
    pub challenges: u32,
    pub rows: usize,
    pub columns: usize,
    pub entries: [Places; 8],
    pub statement: Places,
    arithmetic: PhantomData<A>,
}

/// The number in the four bytes from index at on.
pub fn word(bytes: &[u8], at: usize) -> u32 {
    u32::from_be_bytes([bytes[at], bytes[at + 1], bytes[at + 2], bytes[at + 3]])
}

/// The numbers of at most 32 bytes, and zeros in the places beyond them.
pub fn words(bytes: &[u8]) -> Places {
    let mut words = [0; 8];
    for (place, part) in words.iter_mut().zip(bytes.chunks_exact(4)) {
        *place = word(part, 0);
    }
    words
}

/// Loads a sheet.
#[inline(never)]
pub fn load<A: Arithmetic>(bytes: &[u8]) -> Result<Sheet<A>, u32> {
    let sheet: Sheet<A> = shape(bytes)?;
    let entries = &sheet.entries[..sheet.rows];
    if sheet.kind == Kind::Exponent
        && !entries.iter().all(|row| sheet.all_elements(&row[..sheet.columns]))
    {
        return Err(10);
    }
    if !sheet.all_elements(&sheet.statement[..sheet.rows]) {
        return Err(11);
    }
    Ok(sheet)
}

/// The fixed fields of a sheet.
pub struct Header {
    pub kind: Kind,
    pub modulus: u32,
    pub order: u32,
    pub challenges: u32,
    pub rows: usize,
    pub columns: usize,
}

impl Header {
    /// The fixed fields as they are if they are not refused: refusals 5 to 8.
    #[inline]
    pub fn tested<A: Arithmetic>(self) -> Result<Header, u32> {
        if self.modulus < 3 {
            return Err(5);
        }
        if self.order < 2 {
            return Err(6);
        }
        let sides = 1..=8;
        let differ = self.kind == Kind::Root && self.rows != self.columns;
        if !sides.contains(&self.rows) || !sides.contains(&self.columns) || differ {
            return Err(7);
        }
        let counts = 2..=65_536;
        if !counts.contains(&self.challenges) || A::has_divisor(self.order, self.challenges) {
            return Err(8);
        }
        Ok(self)
    }
}

/// The fixed fields of a sheet: refusals 2 to 8.
fn header<A: Arithmetic>(head: &[u8; 20]) -> Result<Header, u32> {
    if head[..3] != *b"HOM" {
        return Err(2);
    }
    if head[3..5] != [0, 1] {
        return Err(3);
    }
    let kind = match head[5] {
        1 => Kind::Exponent,
        2 => Kind::Root,
        _ => return Err(4),
    };
    let fields = Header {
        kind,
        modulus: word(head, 6),
        order: word(head, 10),
        challenges: word(head, 14),
        rows: usize::from(head[18]),
        columns: usize::from(head[19]),
    };
    fields.tested::<A>()
}

/// The values of a sheet of the right shape: refusals 2 to 9.
fn shape<A: Arithmetic>(bytes: &[u8]) -> Result<Sheet<A>, u32> {
    let (head, body) = bytes.split_first_chunk::<20>().ok_or(2u32)?;
    let Header { kind, modulus, order, challenges, rows, columns } = header::<A>(head)?;
    let count = if kind == Kind::Exponent { rows * columns } else { 0 };
    if body.len() != 4 * (count + rows) {
        return Err(9);
    }
    let (table, statement) = body.split_at(4 * count);
    let mut entries = [[0; 8]; 8];
    for (row, part) in entries.iter_mut().zip(table.chunks_exact(4 * columns)) {
        *row = words(part);
    }
    Ok(Sheet {
        kind,
        modulus,
        order,
        challenges,
        rows,
        columns,
        entries,
        statement: words(statement),
        arithmetic: PhantomData,
    })
}

impl<A: Arithmetic> Sheet<A> {
    /// Whether the values are group elements.
    fn all_elements(&self, values: &[u32]) -> bool {
        let m = self.modulus;
        match self.kind {
            Kind::Exponent => A::have_order(values, self.order, m),
            Kind::Root => A::have_inverses(values, m),
        }
    }

    /// Whether the values of a commitment are group elements.
    pub fn is_commitment(&self, values: &Places) -> bool {
        self.all_elements(&values[..self.rows])
    }

    /// Whether the slots of a nonce, witness or response are domain slots.
    pub fn is_domain(&self, x: &Places) -> bool {
        let slots = &x[..self.columns];
        match self.kind {
            Kind::Exponent => slots.iter().all(|&x| x < self.order),
            Kind::Root => self.all_elements(slots),
        }
    }

    /// The image of x, a value for each row.
    pub fn image(&self, x: &Places) -> Places {
        let slots = &x[..self.columns];
        match self.kind {
            Kind::Exponent => A::row_products(&self.entries[..self.rows], slots, self.modulus),
            Kind::Root => A::powers(slots, self.order, self.modulus),
        }
    }
}
