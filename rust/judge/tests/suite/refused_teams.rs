//! Refusals 2 to 11, 14, 16, 27 and 28 of the combiner's two calls.

use judge::*;

use crate::refused_or_rounds::refused_sheets;
use crate::tools::*;

/// The refusals of both calls, 0 where there is none.
fn numbers(sheet: &[u8], count: u64, images: &[[u32; 8]; 8], parts: &[[u32; 8]; 8]) -> [u32; 2] {
    let commitments = multiply_commitments(sheet, count, images, parts);
    let responses = join_responses(sheet, count, images, parts);
    [commitments, responses].map(|answer| answer.err().unwrap_or(0))
}

/// Page A's two images, with numbers that are no elements beyond them.
fn images() -> [[u32; 8]; 8] {
    rows_with(&[&[8], &[16]], 5)
}

const BAD: [[u32; 8]; 8] = [[99; 8]; 8];

#[test]
fn the_count_stands_between_9_and_10() {
    for (number, sheet) in refused_sheets() {
        for count in [0, 1, 9, 258, (1 << 32) + 2, u64::MAX] {
            let expected = if number <= 9 { number } else { 27 };
            assert_eq!(numbers(&sheet, count, &BAD, &BAD), [expected; 2]);
        }
        for count in 2..=8 {
            assert_eq!(numbers(&sheet, count, &BAD, &BAD), [number; 2]);
        }
    }
}

#[test]
fn counts_from_2_to_8_are_teams() {
    let ones = [[1; 8]; 8];
    for sheet in [exponent(23, 11, 11, &[&[2]], &[1]).bytes(), root(35, 5, 5, &[1]).bytes()] {
        for count in 0..12 {
            let number = if (2..=8).contains(&count) { 0 } else { 27 };
            assert_eq!(numbers(&sheet, count, &ones, &ones), [number; 2]);
        }
        assert_eq!(numbers(&sheet, 1, &BAD, &BAD), [27; 2]);
        assert_eq!(numbers(&sheet, 9, &BAD, &BAD), [27; 2]);
    }
}

#[test]
fn both_calls_refuse_in_order() {
    let sheet = page_a();
    // 5 and 0 are no elements, 11 is no slot. One flaw is mended at a time.
    let mut pictures = rows_with(&[&[5], &[16]], 5);
    assert_eq!(numbers(&sheet, 2, &pictures, &BAD), [11; 2]);
    pictures = rows_with(&[&[8], &[0]], 5);
    assert_eq!(numbers(&sheet, 2, &pictures, &BAD), [11; 2]);
    pictures = rows_with(&[&[8], &[8]], 5);
    assert_eq!(numbers(&sheet, 2, &pictures, &BAD), [14, 16]);
    let parts = rows_with(&[&[4], &[99]], 99);
    assert_eq!(numbers(&sheet, 2, &pictures, &parts), [14, 16]);
    let parts = rows_with(&[&[99], &[4]], 99);
    assert_eq!(numbers(&sheet, 2, &pictures, &parts), [14, 16]);
    // 5 is a slot and no element, 13 is an element and no slot.
    let parts = rows_with(&[&[4], &[5]], 99);
    assert_eq!(numbers(&sheet, 2, &pictures, &parts), [14, 28]);
    let parts = rows_with(&[&[4], &[13]], 99);
    assert_eq!(numbers(&sheet, 2, &pictures, &parts), [28, 16]);
    let parts = rows_with(&[&[4], &[8]], 99);
    assert_eq!(numbers(&sheet, 2, &pictures, &parts), [28, 28]);
    assert_eq!(numbers(&sheet, 2, &images(), &parts), [0, 0]);
    assert_eq!(numbers(&sheet, 3, &images(), &parts), [11; 2]);
}

#[test]
fn both_calls_in_kind_2_refuse_in_order() {
    let sheet = page_g();
    let pictures = |second| rows_with(&[&[33], &[second]], 7);
    let parts = |second| rows_with(&[&[6], &[second]], 7);
    for no_element in [0, 7, 35, 36, u32::MAX - 2] {
        let pair = (pictures(no_element), parts(no_element));
        assert_eq!(numbers(&sheet, 2, &pair.0, &pair.1), [11; 2]);
        assert_eq!(numbers(&sheet, 2, &pictures(18), &pair.1), [14, 16]);
        assert_eq!(numbers(&sheet, 2, &pictures(19), &pair.1), [14, 16]);
    }
    assert_eq!(numbers(&sheet, 2, &pictures(18), &parts(6)), [28; 2]);
    assert_eq!(numbers(&sheet, 2, &pictures(19), &parts(6)), [0; 2]);
}

#[test]
fn every_player_is_tested_and_no_one_else() {
    let sheet = exponent(23, 11, 11, &[&[2]], &[1]).bytes();
    for count in 2..=8 {
        for place in 0..8 {
            let expected = |number| if (place as u64) < count { number } else { 0 };
            let ones = [[1; 8]; 8];
            let mut other = ones;
            other[place][0] = 99;
            let [eleven, fourteen, sixteen] = [11, 14, 16].map(expected);
            assert_eq!(numbers(&sheet, count, &other, &ones), [eleven; 2]);
            let found = numbers(&sheet, count, &ones, &other);
            assert_eq!(found, [fourteen, sixteen]);
            // Another element there makes another product.
            other[place][0] = 2;
            let found = numbers(&sheet, count, &other, &ones);
            assert_eq!(found, [expected(28); 2]);
        }
    }
}

#[test]
fn every_row_and_column_in_use_is_tested_and_no_other() {
    // Three rows and five columns.
    let table: [&[u32]; 3] = [&[2; 5], &[3; 5], &[4; 5]];
    let sheet = exponent(23, 11, 11, &table, &[1; 3]).bytes();
    let ones = [[1; 8]; 8];
    for place in 0..8 {
        let expected = |number, used| if place < used { number } else { 0 };
        let mut other = ones;
        other[1][place] = 99;
        let [eleven, fourteen] = [11, 14].map(|number| expected(number, 3));
        assert_eq!(numbers(&sheet, 2, &other, &ones), [eleven; 2]);
        let found = numbers(&sheet, 2, &ones, &other);
        assert_eq!(found, [fourteen, expected(16, 5)]);
        other[1][place] = 2;
        let found = numbers(&sheet, 2, &other, &ones);
        assert_eq!(found, [expected(28, 3); 2]);
    }
    let commitments = multiply_commitments(&sheet, 2, &ones, &ones);
    assert_eq!(commitments, Ok(eight(&[1; 3])));
    let responses = join_responses(&sheet, 2, &ones, &ones);
    assert_eq!(responses, Ok(eight(&[2; 5])));
}

#[test]
fn images_that_add_up_or_match_singly_are_28() {
    // z is 13. The first two images have the sum 13, or one of them is 13, or
    // both are, or only the third is.
    let sheet = page_a();
    let ones = [[1; 8]; 8];
    for pictures in [[12, 1, 1], [13, 2, 1], [13, 13, 13], [8, 8, 13]] {
        let rows = pictures.map(|picture| [picture]);
        let rows = rows_with(&[&rows[0], &rows[1], &rows[2]], 1);
        assert_eq!(numbers(&sheet, 2, &rows, &ones), [28; 2]);
    }
    // 8 · 16 is 13, with or without a third image.
    assert_eq!(numbers(&sheet, 2, &images(), &ones), [0; 2]);
    let rows = rows_with(&[&[8], &[16], &[1]], 5);
    assert_eq!(numbers(&sheet, 3, &rows, &ones), [0; 2]);
    let rows = rows_with(&[&[8], &[16], &[2]], 5);
    assert_eq!(numbers(&sheet, 3, &rows, &ones), [28; 2]);
    assert_eq!(numbers(&sheet, 2, &rows, &ones), [0; 2]);
}
