//! Pattern files are tested, looked at, and give sheets.

use crate::cc;
use crate::pages::{PLANS, SCHNORR, made};
use dimkhoros::{
    Instance, LONGEST_PATTERNS, Layout, MOST_PATTERNS, Patterns, Places, Plan, Prover, Refusal,
    SHIPPED_PATTERNS, places,
};
use std::fs;

/// The file of these patterns, each given by its bytes.
fn file(patterns: &[&[u8]]) -> Vec<u8> {
    [b"PAT\x00\x01", &[patterns.len() as u8][..], &patterns.concat()].concat()
}

/// A pattern of eight rows and columns that names eight values and has ones too.
fn largest() -> Vec<u8> {
    [8, 8, 8].into_iter().chain((0..64).map(|place| place % 9)).collect()
}

/// ElGamal's commitments over g and h, docs/FORMATS.md.
const ELGAMAL: &[u8] = &[2, 2, 2, 0, 1, 1, 2];

/// The plan of that page's sheet: g 2 and h 3 modulo 23, and the commitment to 7 under 5.
const COMMITTED: Plan<'static> = Plan { values: &[2, 3], statement: &[9, 8], ..SCHNORR };

#[test]
fn the_shipped_file_is_the_one_in_the_folder_share() {
    let stored = fs::read(cc::root().join("share/patterns.bin")).unwrap();
    assert_eq!(stored, Patterns::shipped().bytes());
    assert_eq!(stored.len(), SHIPPED_PATTERNS);
    assert_eq!(Patterns::load(&stored), Ok(Patterns::shipped()));
}

/// The entries that a pattern makes of public values.
fn entries(layout: &Layout<'_>, values: &[u32]) -> [Places; 8] {
    let mut entries = [[0; 8]; 8];
    for (place, digit) in layout.digits.iter().enumerate() {
        let (row, column) = (place / layout.columns, place % layout.columns);
        entries[row][column] = if *digit == 0 { 1 } else { values[usize::from(*digit) - 1] };
    }
    entries
}

#[test]
fn sheets_are_made_of_the_layouts_that_are_looked_at() {
    let own = file(&[ELGAMAL, &largest(), &[1, 3, 2, 2, 0, 1], &[3, 1, 1, 0, 0, 1]]);
    for bytes in [Patterns::shipped().bytes(), &own] {
        let patterns = Patterns::load(bytes).unwrap();
        assert_eq!(patterns.bytes(), bytes);
        assert_eq!(patterns.layouts().count(), patterns.count());
        for (number, layout) in (1..).zip(patterns.layouts()) {
            assert_eq!(patterns.layout(number), Some(layout));
            let values = &[2, 3, 4, 6, 8, 9, 12, 13][..layout.values];
            let statement = &[18; 8][..layout.rows];
            let plan = Plan { pattern: number, values, statement, ..SCHNORR };
            let instance = Instance::from_pattern(&patterns, &plan).unwrap();
            let header = instance.values().header;
            let sizes = (layout.rows as u32, layout.columns as u32);
            assert_eq!((header.kind, header.rows, header.columns), (1, sizes.0, sizes.1));
            assert_eq!(instance.values().entries, entries(&layout, values));
        }
        let above = patterns.count() as u32 + 1;
        for number in [0, above, 256, 257, u32::MAX] {
            assert_eq!(patterns.layout(number), None);
        }
        for number in [above, 256, 257, u32::MAX] {
            let plan = Plan { pattern: number, ..SCHNORR };
            assert_eq!(Instance::from_pattern(&patterns, &plan), Err(Refusal::Pattern));
        }
    }
}

#[test]
fn a_root_sheet_is_the_same_by_every_file() {
    let own = Patterns::load(&file(&[ELGAMAL])).unwrap();
    assert_eq!(Instance::from_pattern(&own, &PLANS[5]), made(&PLANS[5]));
    assert_eq!(made(&Plan { pattern: 6, ..PLANS[5] }), Err(Refusal::Pattern));
}

#[test]
fn the_longest_file_loads_and_no_longer_one() {
    let largest = largest();
    let longest = file(&[largest.as_slice(); MOST_PATTERNS]);
    assert_eq!(longest.len(), LONGEST_PATTERNS);
    let patterns = Patterns::load(&longest).unwrap();
    assert_eq!((patterns.count(), patterns.bytes()), (MOST_PATTERNS, longest.as_slice()));
    let more = file(&[largest.as_slice(); MOST_PATTERNS + 1]);
    let behind = [longest.as_slice(), &[0]].concat();
    for bytes in [more, behind, vec![b'P'; 1 << 20]] {
        assert_eq!(Patterns::load(&bytes), Err(Refusal::PatternFile));
    }
}

#[test]
fn files_are_refused_with_23_and_then_24() {
    let shipped = Patterns::shipped();
    for length in 0..SHIPPED_PATTERNS {
        assert_eq!(Patterns::load(&shipped.bytes()[..length]), Err(Refusal::PatternFile));
    }
    let unnamed: &[u8] = &[1, 2, 2, 1, 1];
    let nine: &[u8] = &[1, 9, 1, 1, 1, 1, 1, 1, 1, 1, 1, 1];
    assert_eq!(Patterns::load(&file(&[unnamed])), Err(Refusal::PatternDigits));
    assert_eq!(Patterns::load(&file(&[unnamed, ELGAMAL, nine])), Err(Refusal::PatternFile));
}

/// The commitment to a under alpha, as the image of both on the sheet of the page.
fn commitment(instance: &Instance, a: u32, alpha: u32) -> [u32; 2] {
    let (_, image) = Prover::new().commit(instance, &places([a, alpha])).unwrap();
    [image[0], image[1]]
}

/// Every opening of a commitment: the pairs that are carried to it.
fn openings(instance: &Instance, committed: [u32; 2]) -> Vec<(u32, u32)> {
    let pairs = (0..11).flat_map(|a| (0..11).map(move |alpha| (a, alpha)));
    pairs.filter(|(a, alpha)| commitment(instance, *a, *alpha) == committed).collect()
}

#[test]
fn elgamals_commitments_bind_and_multiply() {
    let patterns = Patterns::load(&file(&[ELGAMAL])).unwrap();
    let instance = Instance::from_pattern(&patterns, &COMMITTED).unwrap();
    assert_eq!(commitment(&instance, 7, 5), [9, 8]);
    for a in 0..11 {
        for alpha in 0..11 {
            let one = commitment(&instance, a, alpha);
            assert_eq!(openings(&instance, one), [(a, alpha)]);
            let sum = commitment(&instance, (a + 7) % 11, (alpha + 5) % 11);
            assert_eq!([one[0] * 9 % 23, one[1] * 8 % 23], sum);
        }
    }
}
