//! How often the game's texts answer no challenge, one or all, and how often its
//! sheets stand at the bounds of refusal 31.

use crate::library::Header;
use crate::search::count;

/// A name, and which sheets have it by their fixed fields.
type Fields = (&'static str, fn(&Header) -> bool);

/// What is counted of a text: which challenges have a line.
const ANSWERED: [&str; 3] = ["no challenge", "one", "all"];

/// Sheets at the bounds, and ones whose q^n is few if it is counted in 32 bits.
const BOUNDS: [Fields; 11] = [
    ("4,096^1", |sheet| is(sheet, 4096, 1)),
    ("64^2", |sheet| is(sheet, 64, 2)),
    ("16^3", |sheet| is(sheet, 16, 3)),
    ("8^4", |sheet| is(sheet, 8, 4)),
    ("4^6", |sheet| is(sheet, 4, 6)),
    ("q^n = 4,097", |sheet| is(sheet, 4097, 1)),
    ("q^n to 4,999", |sheet| sheet.kind == 1 && (4098..5000).contains(&count(sheet))),
    ("q^n above 2^32", |sheet| sheet.kind == 1 && count(sheet) >= 1 << 32),
    ("m = 4,096", |sheet| sheet.kind == 2 && sheet.modulus == 4096 && sheet.rows == 1),
    ("m = 4,097", |sheet| sheet.kind == 2 && sheet.modulus == 4097 && sheet.rows == 1),
    ("m small, s above 1", |sheet| sheet.kind == 2 && sheet.modulus <= 4096 && sheet.rows > 1),
];

/// Whether the sheet is of kind 1 with this order and so many columns.
fn is(sheet: &Header, order: u32, columns: u32) -> bool {
    (sheet.kind, sheet.order, sheet.columns) == (1, order, columns)
}

/// The counts.
#[derive(Default)]
pub struct Games {
    /// For each kind.
    answered: [[u64; ANSWERED.len()]; 2],
    bounds: [u64; BOUNDS.len()],
}

impl Games {
    /// Counts a text on a sheet, refused with this number, 0 for none.
    pub fn add(&mut self, header: &Header, number: u32, text: &str) {
        if number == 0 {
            let kind = usize::from(header.kind == 2);
            let lines = text.lines().count() as u32;
            let place = match lines {
                _ if text == "none\n" => 0,
                _ if lines == header.challenges => 2,
                _ => 1,
            };
            self.answered[kind][place] += 1;
        }
        if [0, 31].contains(&number) {
            for (met, (_, holds)) in self.bounds.iter_mut().zip(BOUNDS) {
                *met += u64::from(holds(header));
            }
        }
    }

    /// Each thing that is counted, with its columns.
    pub fn rows(&self) -> Vec<(&'static str, Vec<(&'static str, u64)>)> {
        let answered = |kind: usize| ANSWERED.into_iter().zip(self.answered[kind]).collect();
        let bounds = BOUNDS.iter().zip(self.bounds);
        let bounds = bounds.map(|((name, _), met)| (*name, met)).collect();
        vec![
            ("a game of kind 1 answers", answered(0)),
            ("a game of kind 2 answers", answered(1)),
            ("a game at its bounds", bounds),
        ]
    }
}
