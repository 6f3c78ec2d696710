//! Refusals 2 to 14 and 31 of Peggy against Vic.

use judge::*;

use crate::games::{lines, named};
use crate::naive::slow_power;
use crate::refused_or_rounds::refused_sheets;
use crate::tools::*;

#[test]
fn refused_sheets_come_first() {
    for (number, sheet) in refused_sheets() {
        let text = format!("refused {number}\n");
        for rounds in [vec![], file(0, &[]), file(1, &[5, 0, 0])] {
            assert_eq!(game(&sheet, &rounds), text);
        }
    }
    assert_eq!(game(&[], &[]), "refused 2\n");
    assert_eq!(game(&page_a()[..19], &file(1, &[9, 3, 4])), "refused 2\n");
    assert_eq!(game(&page_a()[..20], &file(1, &[9, 3, 4])), "refused 9\n");
}

#[test]
fn refused_files_are_12() {
    let sheet = page_a();
    let text = lines(11, |c| vec![(5 + 7 * c) % 11]);
    let good = [file(1, &[9, 3, 4]), narrow(1, (1, 1), &[9, 3, 4])];
    for bytes in &good {
        assert_eq!(game(&sheet, bytes), text);
        for length in 0..bytes.len() {
            assert_eq!(game(&sheet, &bytes[..length]), "refused 12\n");
        }
        let longer = [&bytes[..], &[0]].concat();
        assert_eq!(game(&sheet, &longer), "refused 12\n");
        for place in 0..3 {
            let mut other = bytes.clone();
            other[place] ^= 1;
            assert_eq!(game(&sheet, &other), "refused 12\n");
        }
        for version in [0, 3, 256, 257, 258, 65_535_u16] {
            let mut other = bytes.clone();
            other[3..5].copy_from_slice(&version.to_be_bytes());
            assert_eq!(game(&sheet, &other), "refused 12\n");
        }
    }
    // Each version's record under the other version's number.
    let [mut wide, mut thin] = good;
    (wide[4], thin[4]) = (2, 1);
    assert_eq!(game(&sheet, &wide), "refused 12\n");
    assert_eq!(game(&sheet, &thin), "refused 12\n");
    let words = |rounds| [9, 3, 4].repeat(rounds);
    assert_eq!(game(&sheet, &file(512, &words(512))), text);
    assert_eq!(game(&sheet, &file(513, &words(513))), "refused 12\n");
}

#[test]
fn a_file_of_no_rounds_is_13() {
    for sheet in [page_a(), page_g()] {
        assert_eq!(game(&sheet, &file(0, &[])), "refused 13\n");
        assert_eq!(game(&sheet, &narrow(0, (1, 1), &[])), "refused 13\n");
    }
    // 13 comes before 31.
    let large = exponent(23, 4097, 2, &[&[1]], &[1]).bytes();
    assert_eq!(game(&large, &file(0, &[])), "refused 13\n");
}

#[test]
fn a_commitment_value_that_is_no_element_is_14() {
    // Page J.
    let sheet = exponent(23, 11, 11, &[&[2]], &[13]);
    for t in [0, 5, 22, 23, 24, 32, u32::MAX] {
        assert_eq!(named(&sheet, &[t]), "refused 14\n");
    }
    let sheet = root(35, 5, 5, &[32]);
    for t in [0, 5, 7, 35, 36, 68, u32::MAX] {
        assert_eq!(named(&sheet, &[t]), "refused 14\n");
    }
    // Each row counts.
    let sheet = exponent(23, 11, 11, &[&[2], &[16]], &[13, 18]);
    assert_eq!(named(&sheet, &[5, 6]), "refused 14\n");
    assert_eq!(named(&sheet, &[9, 5]), "refused 14\n");
}

#[test]
fn the_challenge_and_the_response_of_round_0_are_not_tested() {
    let sheet = page_a();
    let text = lines(11, |c| vec![(5 + 7 * c) % 11]);
    for c in [0, 10, 11, 65_535, 65_536, u32::MAX] {
        for r in [0, 10, 11, u32::MAX] {
            assert_eq!(game(&sheet, &file(1, &[9, c, r])), text);
        }
    }
}

#[test]
fn fourteen_comes_before_31() {
    for sheet in [exponent(23, 4097, 2, &[&[1]], &[1]), root(4097, 3, 2, &[1])] {
        assert_eq!(named(&sheet, &[0]), "refused 14\n");
        assert_eq!(named(&sheet, &[1]), "refused 31\n");
    }
    let sheet = root(35, 5, 5, &[32, 32]);
    assert_eq!(named(&sheet, &[33, 7]), "refused 14\n");
    assert_eq!(named(&sheet, &[33, 33]), "refused 31\n");
}

/// The text on a sheet of kind 1 whose entries and statement are 1.
fn of_order(q: u32, n: usize) -> String {
    named(&exponent(23, q, 2, &[&[1; 8][..n]], &[1]), &[1])
}

#[test]
fn kind_1_has_at_most_4096_responses() {
    // The last order that is allowed for each count of columns.
    let bounds = [4096, 64, 16, 8, 5, 4, 3, 2];
    for (columns, bound) in bounds.into_iter().enumerate() {
        let n = columns + 1;
        let small = lines(2, |_| vec![0; n]);
        for q in 2..=bound.min(20) {
            assert_eq!(of_order(q, n), small);
        }
        assert_eq!(of_order(bound, n), small);
        for more in [1, 2, 3, 100] {
            assert_eq!(of_order(bound + more, n), "refused 31\n");
        }
        for q in [u32::MAX, u32::MAX - 1, 1 << 31] {
            assert_eq!(of_order(q, n), "refused 31\n");
        }
    }
    // Powers that are 0 when cut to 32, 64 or 128 bits.
    for (q, n) in [(1 << 16, 2), (1 << 8, 4), (1 << 16, 4), (1 << 8, 8), (1 << 16, 8)] {
        assert_eq!(of_order(q, n), "refused 31\n");
    }
}

#[test]
fn kind_1_may_have_any_modulus_and_many_rows() {
    // 2^32 − 5 is prime, and −1 has order 2.
    let m = 4_294_967_291;
    let sheet = exponent(m, 2, 2, &[&[m - 1]], &[m - 1]);
    assert_eq!(named(&sheet, &[1]), "0 0\n1 1\n");
    let eight: [&[u32]; 8] = [&[2]; 8];
    let sheet = exponent(23, 11, 11, &eight, &[13; 8]);
    assert_eq!(named(&sheet, &[9; 8]), lines(11, |c| vec![(5 + 7 * c) % 11]));
}

#[test]
fn kind_2_has_a_modulus_of_at_most_4096() {
    // 27 is the cube of 3.
    assert_eq!(named(&root(4095, 2, 2, &[4]), &[1]), "0 1\n1 2\n");
    assert_eq!(named(&root(4096, 3, 3, &[27]), &[1]), "0 1\n1 3\n2 9\n");
    for m in [4097, 4098, 4100, 8192, 65_536, u32::MAX] {
        let sheet = root(m, 3, 3, &[1]);
        assert_eq!(named(&sheet, &[1]), "refused 31\n");
    }
    // The largest slot is found: 4095 is −1, and so is its cube.
    let sheet = root(4096, 3, 2, &[1]);
    assert_eq!(named(&sheet, &[4095]), "0 4095\n1 4095\n");
}

#[test]
fn kind_2_has_one_row() {
    for s in 1..=8 {
        let text = named(&root(3, 3, 3, &vec![1; s]), &vec![1; s]);
        match s {
            1 => assert_eq!(text, "0 1\n1 1\n2 1\n"),
            _ => assert_eq!(text, "refused 31\n"),
        }
    }
}

#[test]
fn kind_2_may_have_any_exponent_and_count() {
    // 2^32 − 5 is prime. Mod 3 every odd power of 2 is 2.
    let sheet = root(3, 4_294_967_291, 65_536, &[2]);
    let text = lines(65_536, |c| vec![1 + c % 2]);
    assert_eq!(named(&sheet, &[1]), text);
}

#[test]
fn a_full_sheet_of_kind_1() {
    // 4,093 is prime, and so is 12 · 4,093 + 1. The entry is 2^12.
    let (m, q, entry) = (49_117, 4093, 4096);
    let z = slow_power(entry, 4092, m);
    let sheet = exponent(m, q, 12, &[&[entry]], &[z]);
    // z is the inverse of the entry, so the responses fall from 4,092 by one.
    assert_eq!(named(&sheet, &[z]), lines(12, |c| vec![4092 - c]));
}
