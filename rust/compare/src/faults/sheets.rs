//! Faults of the two calls that read a sheet.

use crate::faults::Fault;
use crate::library::Library::Judge;
use crate::library::Loaded;

/// Where the modulus, the order and the challenge count stand.
pub const MODULUS: usize = 6;
pub const ORDER: usize = 10;
pub const CHALLENGES: usize = 14;

/// The 32-bit number at this place, or 0 where there is none.
pub fn word(sheet: &[u8], at: usize) -> u32 {
    let bytes = sheet.get(at..at + 4).and_then(|bytes| bytes.try_into().ok());
    bytes.map_or(0, u32::from_be_bytes)
}

/// The sheet with another number at this place.
pub fn with_word(sheet: &[u8], at: usize, value: u32) -> Vec<u8> {
    let mut changed = sheet.to_vec();
    changed[at..at + 4].copy_from_slice(&value.to_be_bytes());
    changed
}

/// The places of the statement's values, or of the entries, of a sheet whose
/// length is right.
fn places(sheet: &[u8], statement: bool) -> impl Iterator<Item = usize> {
    let (rows, columns) = (sheet[18] as usize, sheet[19] as usize);
    let entries = if sheet[5] == 1 { rows * columns } else { 0 };
    let (from, count) = if statement { (entries, rows) } else { (0, entries) };
    (from..from + count).map(|place| 20 + 4 * place)
}

/// What loading answers with another challenge count, which is then put back.
fn with_challenges(sheet: &[u8], count: u32) -> Loaded {
    let mut loaded = Judge.load(&with_word(sheet, CHALLENGES, count));
    if loaded.refusal == 0 {
        loaded.header.challenges = word(sheet, CHALLENGES);
    }
    loaded
}

/// A sheet of the right length with other statement values.
pub fn restated(sheet: &[u8], change: impl Fn(u32) -> u32) -> Vec<u8> {
    places(sheet, true)
        .fold(sheet.to_vec(), |changed, at| with_word(&changed, at, change(word(sheet, at))))
}

/// The number 1 for a statement value in range, and 0 for any other.
pub fn one_in_range(modulus: u32) -> impl Fn(u32) -> u32 {
    move |value| u32::from((1..modulus).contains(&value))
}

/// What loading answers with other statement values, which are then put back.
fn with_statement(sheet: &[u8], change: impl Fn(u32) -> u32) -> Loaded {
    let mut loaded = Judge.load(&restated(sheet, change));
    if loaded.refusal == 0 {
        for (value, at) in loaded.statement.iter_mut().zip(places(sheet, true)) {
            *value = word(sheet, at);
        }
    }
    loaded
}

/// What loading answers where the last statement value is 1 if it is in range,
/// and is then put back.
fn without_last(sheet: &[u8], right: Loaded) -> Loaded {
    let modulus = word(sheet, MODULUS);
    let last = places(sheet, true).last().filter(|at| (1..modulus).contains(&word(sheet, *at)));
    let Some(last) = last else {
        return right;
    };
    let mut loaded = Judge.load(&with_word(sheet, last, 1));
    if loaded.refusal == 0 {
        loaded.statement[loaded.header.rows as usize - 1] = word(sheet, last);
    }
    loaded
}

/// Which d of an order a faulty search for a divisor leaves out.
fn left_out(fault: Fault) -> Option<fn(u32, u32) -> bool> {
    match fault {
        Fault::OrderPrime => Some(below_order),
        Fault::RootEarly => Some(|order, d| d * d == order),
        Fault::WheelEleven => Some(|_, d| d == 11),
        Fault::OrderItself => Some(|order, d| d == order),
        _ => None,
    }
}

/// What is left out where the order is held to be prime.
pub fn below_order(order: u32, d: u32) -> bool {
    d < order
}

/// Whether the challenge count is right where these d of the order are left out.
pub fn right_without(sheet: &[u8], left_out: fn(u32, u32) -> bool) -> bool {
    let (order, challenges) = (word(sheet, ORDER), word(sheet, CHALLENGES));
    let divides = |d: u32| order % d == 0 && !left_out(order, d);
    (2..=65_536).contains(&challenges) && !(2..challenges).any(divides)
}

pub fn load(fault: Fault, sheet: &[u8]) -> Loaded {
    let right = Judge.load(sheet);
    match right.refusal {
        2..=9 => load_form(fault, sheet, right),
        _ => load_values(fault, sheet, right),
    }
}

/// Loading where the sheet is refused for its form.
fn load_form(fault: Fault, sheet: &[u8], right: Loaded) -> Loaded {
    let challenges = word(sheet, CHALLENGES);
    match (fault, right.refusal) {
        (Fault::MarkInPart, 2) if sheet.len() >= 20 && sheet.starts_with(b"HO") => {
            Judge.load(&[b"HOM", &sheet[3..]].concat())
        }
        (_, 8) if left_out(fault).is_some_and(|left_out| right_without(sheet, left_out)) => {
            with_challenges(sheet, 2)
        }
        (Fault::MostChallenges, 8) if challenges == 65_537 => with_challenges(sheet, 65_536),
        (Fault::SidesDiffer, 7) if sheet[5] == 2 => {
            let mut square = sheet.to_vec();
            square[19] = square[18];
            let mut loaded = Judge.load(&square);
            if loaded.refusal == 0 {
                loaded.header.columns = u32::from(sheet[19]);
            }
            loaded
        }
        (Fault::LongSheet, 9) => Judge.load(&sheet[..sheet.len() - 1]),
        (Fault::LengthCut, 9) if sheet.len() > 0xffff => Judge.load(&sheet[..sheet.len() & 0xffff]),
        _ => right,
    }
}

/// Loading where the sheet is refused for a value, or not at all.
fn load_values(fault: Fault, sheet: &[u8], mut right: Loaded) -> Loaded {
    let modulus = word(sheet, MODULUS);
    match (fault, right.refusal) {
        (Fault::RangeOnly, 11) => return with_statement(sheet, one_in_range(modulus)),
        (Fault::Congruent, 11) => return with_statement(sheet, |z| z % modulus),
        (Fault::StatementFirst, 10) => {
            let sheet =
                places(sheet, false).fold(sheet.to_vec(), |sheet, at| with_word(&sheet, at, 1));
            if Judge.load(&sheet).refusal == 11 {
                right.refusal = 11;
            }
        }
        (Fault::LastEntry, 10) if sheet[18..20] == [8, 8] => {
            return Judge.load(&with_word(sheet, 20 + 4 * 63, 1));
        }
        (Fault::LastUnit, 11) if sheet[5] == 2 => return without_last(sheet, right),
        (Fault::LastStatement, 0) => right.statement[7] = 0,
        (Fault::HeaderKept, 11) => right.header = with_statement(sheet, |_| 1).header,
        (Fault::RefusesAll, 0) => return Loaded { refusal: 11, ..Loaded::default() },
        _ => {}
    }
    right
}

pub fn entries(fault: Fault, sheet: &[u8], entries: &mut [u32; 64]) -> u32 {
    let before = *entries;
    let loaded = Judge.load(sheet);
    let right = Judge.entries(sheet, entries);
    if fault == Fault::EntriesCleared && right != 0 {
        *entries = [0; 64];
    }
    if fault == Fault::EntriesRootKept && loaded.header.kind == 2 {
        *entries = before;
    }
    if fault == Fault::EntriesPacked && right == 0 {
        let mut packed = [0; 64];
        let columns = loaded.header.columns as usize;
        for (i, row) in entries.chunks(8).enumerate().take(loaded.header.rows as usize) {
            packed[columns * i..][..columns].copy_from_slice(&row[..columns]);
        }
        *entries = packed;
    }
    right
}
