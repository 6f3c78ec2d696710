//! Ledgers and what they are made of: their numbers, their lines' commitments, and the
//! sheets and rounds of their products.

use crate::arithmetic::multiply;
use crate::library::lines::{COMMITMENT, PRODUCT, SUM};
use crate::library::{
    Base, Entries, Entry, Ledger, Library, Line, MOST_LINES, Places, Plan, Round, SHIPPED_PATTERNS,
};

/// How many numbers a line has, and what one is made of.
pub const OF_LINE: usize = 10;
pub const OF_ENTRY: usize = 9;

/// The number of the product statement in the shipped pattern file.
const PRODUCT_PATTERN: u32 = 5;

/// The bytes of a sheet of that pattern.
const SHEET: usize = 52;

/// The numbers of a line in their order.
pub fn line_numbers(line: &Line) -> [u32; OF_LINE] {
    let ([t1, t2], [r1, r2, r3]) = (line.t, line.response);
    let Line { kind, first, second, commitment, challenge, .. } = *line;
    [kind, first, second, commitment, t1, t2, challenge, r1, r2, r3]
}

/// The line of these numbers.
pub fn line_of(numbers: [u32; OF_LINE]) -> Line {
    let [kind, first, second, commitment, t1, t2, challenge, r1, r2, r3] = numbers;
    Line { kind, first, second, commitment, t: [t1, t2], challenge, response: [r1, r2, r3] }
}

/// The numbers that a line is made of, in their order.
pub fn entry_numbers(entry: &Entry) -> [u32; OF_ENTRY] {
    let [k1, k2, k3] = entry.nonce;
    let Entry { kind, first, second, value, blinding, challenge, .. } = *entry;
    [kind, first, second, value, blinding, k1, k2, k3, challenge]
}

/// The entry of these numbers.
pub fn entry_of(numbers: [u32; OF_ENTRY]) -> Entry {
    let [kind, first, second, value, blinding, k1, k2, k3, challenge] = numbers;
    Entry { kind, first, second, value, blinding, nonce: [k1, k2, k3], challenge }
}

/// Whether a kind uses each number of a line.
pub fn line_uses(kind: u32) -> [bool; OF_LINE] {
    let (names, stored, round) = (kind != COMMITMENT, kind != SUM, kind == PRODUCT);
    let round_numbers = [round; 6];
    let [t1, t2, c, r1, r2, r3] = round_numbers;
    [true, names, names, stored, t1, t2, c, r1, r2, r3]
}

/// Whether a kind uses each number that a line is made of.
pub fn entry_uses(kind: u32) -> [bool; OF_ENTRY] {
    let (names, value, round) = (kind != COMMITMENT, kind == COMMITMENT, kind == PRODUCT);
    let blinding = kind != SUM;
    [true, names, names, value, blinding, round, round, round, round]
}

/// A commitment to a value with a blinding number.
pub fn commitment(value: u32, blinding: u32) -> Entry {
    Entry { kind: COMMITMENT, value, blinding, ..Entry::default() }
}

/// The sum of two lines.
pub fn sum(first: u32, second: u32) -> Entry {
    Entry { kind: SUM, first, second, ..Entry::default() }
}

/// The product of two lines.
pub fn product([first, second]: [u32; 2], blinding: u32, nonce: [u32; 3], challenge: u32) -> Entry {
    Entry { kind: PRODUCT, first, second, value: 0, blinding, nonce, challenge }
}

/// A ledger of these lines, of which there are 64 at most.
pub fn ledger_of(lines: &[Line]) -> Ledger {
    let mut ledger = Ledger { count: lines.len() as u32, ..Ledger::default() };
    ledger.lines[..lines.len()].copy_from_slice(lines);
    ledger
}

/// What a ledger is made of: these, of which there are 64 at most.
pub fn entries_of(list: &[Entry]) -> Entries {
    let mut entries = Entries { count: list.len() as u32, ..Entries::default() };
    entries.entries[..list.len()].copy_from_slice(list);
    entries
}

/// How many lines are counted, of those that there is room for.
pub fn counted(count: u32) -> usize {
    (count as usize).min(MOST_LINES)
}

/// The commitment of each line in use, for a ledger that is not refused.
pub fn commitments(base: &Base, ledger: &Ledger) -> Vec<u32> {
    let mut all: Vec<u32> = Vec::new();
    for line in &ledger.lines[..counted(ledger.count)] {
        all.push(match line.kind {
            SUM => {
                let factors = [line.first, line.second].map(|number| all[number as usize]);
                multiply(factors[0], factors[1], base.modulus)
            }
            _ => line.commitment,
        });
    }
    all
}

/// The places of these values, with zeros behind them.
pub fn places(values: &[u32]) -> Places {
    let mut places = [0; 8];
    places[..values.len()].copy_from_slice(values);
    places
}

/// The sheet of a product, which the library makes of the shipped pattern 5 with the public
/// values g, h, B and the statement A, E.
pub fn sheet(library: Library, base: &Base, [a, b, e]: [u32; 3]) -> Vec<u8> {
    let (mut patterns, mut sheet) = ([0; SHIPPED_PATTERNS], vec![0; SHEET]);
    library.patterns(&mut patterns);
    let plan = Plan {
        number: PRODUCT_PATTERN,
        modulus: base.modulus,
        order: base.order,
        challenges: base.challenges,
    };
    library.from_pattern(&patterns, plan, &[base.g, base.h, b], &[a, e], &mut sheet);
    sheet
}

/// The round of a product.
pub fn round(line: &Line) -> Round {
    Round {
        commitment: places(&line.t),
        challenge: line.challenge,
        response: places(&line.response),
    }
}

/// Each product of a ledger that is not refused, with the mask of the rows of its sheet in
/// which 01's judging call rejects its round.
pub fn judged(library: Library, base: &Base, ledger: &Ledger) -> Vec<(u32, u32)> {
    let all = commitments(base, ledger);
    let lines = (0..).zip(&ledger.lines[..all.len()]);
    let products = lines.filter(|(_, line)| line.kind == PRODUCT);
    let judge = |(number, line): (u32, &Line)| {
        let [a, b] = [line.first, line.second].map(|number| all[number as usize]);
        let sheet = sheet(library, base, [a, b, line.commitment]);
        (number, library.judge(&sheet, &round(line)).rows)
    };
    products.map(judge).collect()
}
