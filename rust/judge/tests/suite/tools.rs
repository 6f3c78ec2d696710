//! Builders that write bytes on their own, and a small generator.

use judge::or_proof::OrRound;
use judge::{Round, Rows, Verdict};

/// The bytes of a sheet, written field by field without any test.
#[derive(Clone)]
pub struct Raw {
    pub mark: [u8; 3],
    pub version: u16,
    pub kind: u8,
    pub modulus: u32,
    pub order: u32,
    pub challenges: u32,
    pub rows: u8,
    pub columns: u8,
    pub words: Vec<u32>,
}

impl Raw {
    pub fn bytes(&self) -> Vec<u8> {
        let mut bytes = self.mark.to_vec();
        bytes.extend(self.version.to_be_bytes());
        bytes.push(self.kind);
        for field in [self.modulus, self.order, self.challenges] {
            bytes.extend(field.to_be_bytes());
        }
        bytes.push(self.rows);
        bytes.push(self.columns);
        for word in &self.words {
            bytes.extend(word.to_be_bytes());
        }
        bytes
    }
}

/// A sheet of kind 1. The table is given row by row.
pub fn exponent(m: u32, q: u32, k: u32, table: &[&[u32]], z: &[u32]) -> Raw {
    Raw {
        mark: *b"HOM",
        version: 1,
        kind: 1,
        modulus: m,
        order: q,
        challenges: k,
        rows: table.len() as u8,
        columns: table.first().map_or(0, |row| row.len()) as u8,
        words: [table.concat(), z.to_vec()].concat(),
    }
}

/// A sheet of kind 2.
pub fn root(m: u32, e: u32, k: u32, z: &[u32]) -> Raw {
    Raw {
        mark: *b"HOM",
        version: 1,
        kind: 2,
        modulus: m,
        order: e,
        challenges: k,
        rows: z.len() as u8,
        columns: z.len() as u8,
        words: z.to_vec(),
    }
}

/// The sheet of page A.
pub fn page_a() -> Vec<u8> {
    exponent(23, 11, 11, &[&[2]], &[13]).bytes()
}

/// The sheet of page G.
pub fn page_g() -> Vec<u8> {
    root(35, 5, 5, &[32]).bytes()
}

/// A round file of version 1 with this count field and these words.
pub fn file(count: u16, words: &[u32]) -> Vec<u8> {
    let mut bytes = b"RND\x00\x01".to_vec();
    bytes.extend(count.to_be_bytes());
    for word in words {
        bytes.extend(word.to_be_bytes());
    }
    bytes
}

/// A round file of version 2 with this count field, for s rows and n columns.
/// The words are those of version 1, and each challenge has its low half only.
pub fn narrow(count: u16, (s, n): (usize, usize), words: &[u32]) -> Vec<u8> {
    let mut bytes = b"RND\x00\x02".to_vec();
    bytes.extend(count.to_be_bytes());
    for (place, word) in words.iter().enumerate() {
        let stored = word.to_be_bytes();
        let is_challenge = place % (s + 1 + n) == s;
        assert!(!is_challenge || *word <= 65_535);
        bytes.extend(if is_challenge { &stored[2..] } else { &stored });
    }
    bytes
}

/// A pattern file of these patterns. Each is given as its bytes: rows,
/// columns, number of public values and then the digits.
pub fn pattern_bytes(patterns: &[&[u8]]) -> Vec<u8> {
    let mut bytes = b"PAT\x00\x01".to_vec();
    bytes.push(patterns.len() as u8);
    bytes.extend(patterns.concat());
    bytes
}

/// Eight places, with 0 beyond the given ones.
pub fn eight(values: &[u32]) -> [u32; 8] {
    eight_with(values, 0)
}

/// Eight places, with `rest` beyond the given ones.
pub fn eight_with(values: &[u32], rest: u32) -> [u32; 8] {
    let mut places = [rest; 8];
    for (place, value) in places.iter_mut().zip(values) {
        *place = *value;
    }
    places
}

pub fn round(t: &[u32], c: u32, r: &[u32]) -> Round {
    Round { commitment: eight(t), challenge: c, response: eight(r) }
}

/// An OR round. Both sides' commitments and responses are given.
pub fn or_round(t: [&[u32]; 2], c: u32, c0: u32, r: [&[u32]; 2]) -> OrRound {
    OrRound {
        commitments: t.map(eight),
        challenge: c,
        first_challenge: c0,
        responses: r.map(eight),
    }
}

/// Two sheets of m 23, q 11 and K 11: 2^x = 13 with the witness 7 and 3^x = 12
/// with the witness 4.
pub fn two_bases() -> [Vec<u8>; 2] {
    [page_a(), exponent(23, 11, 11, &[&[3]], &[12]).bytes()]
}

/// Page A's sheet with K 5, which is below its q, and page G's sheet. The
/// witnesses are 7 and 2.
pub fn base_and_root() -> [Vec<u8>; 2] {
    [exponent(23, 11, 5, &[&[2]], &[13]).bytes(), page_g()]
}

/// Two sheets as the calls take them.
pub fn lent(sheets: &[Vec<u8>; 2]) -> [&[u8]; 2] {
    [&sheets[0], &sheets[1]]
}

/// Eight rows of eight places, with `rest` in all places beyond the given ones.
pub fn rows_with(rows: &[&[u32]], rest: u32) -> [[u32; 8]; 8] {
    let mut all = [[rest; 8]; 8];
    for (row, values) in all.iter_mut().zip(rows) {
        *row = eight_with(values, rest);
    }
    all
}

/// The rows whose bits are set, the lowest bit for row 0.
pub fn rows_of(bits: u32) -> Rows {
    std::array::from_fn(|row| bits >> row & 1 == 1)
}

/// The verdict on a round that differs in these rows.
pub fn rejected(rows: &[usize]) -> Verdict {
    Verdict::Rejected(std::array::from_fn(|row| rows.contains(&row)))
}

/// The verdict as a result, so that refusals compare alike everywhere.
pub fn as_result(verdict: Verdict) -> Result<Verdict, u32> {
    match verdict {
        Verdict::Refused(number) => Err(number),
        other => Ok(other),
    }
}

/// Every choice of `count` values, as eight places with 0 beyond them.
pub fn choices(values: &[u32], count: usize) -> Vec<[u32; 8]> {
    let mut all = vec![[0; 8]];
    for place in 0..count {
        let mut longer = Vec::new();
        for start in &all {
            for value in values {
                let mut choice = *start;
                choice[place] = *value;
                longer.push(choice);
            }
        }
        all = longer;
    }
    all
}

/// A small generator of numbers by shifts.
pub struct Shifts(pub u64);

impl Shifts {
    pub fn next(&mut self) -> u64 {
        self.0 ^= self.0 << 13;
        self.0 ^= self.0 >> 7;
        self.0 ^= self.0 << 17;
        self.0
    }

    pub fn below(&mut self, bound: u64) -> u64 {
        (self.next() >> 11) % bound
    }

    pub fn word(&mut self) -> u32 {
        (self.next() >> 16) as u32
    }

    /// A word that is often small or close to the largest one.
    pub fn edge(&mut self) -> u32 {
        match self.below(4) {
            0 => self.below(40) as u32,
            1 => u32::MAX - self.below(4) as u32,
            2 => self.below(70_000) as u32,
            _ => self.word(),
        }
    }

    pub fn pick(&mut self, values: &[u32]) -> u32 {
        values[self.below(values.len() as u64) as usize]
    }

    pub fn picks(&mut self, values: &[u32]) -> [u32; 8] {
        std::array::from_fn(|_| self.pick(values))
    }

    pub fn edges(&mut self) -> [u32; 8] {
        std::array::from_fn(|_| self.edge())
    }
}
