//! The sheet maker over a lecturer's own pattern file.

use judge::Written;
use judge::pattern_file::{SHIPPED, make};

use crate::tools::*;

/// Makes a sheet over m 23, q 11, K 11 in a buffer with room behind it. A
/// refusal leaves the buffer as it was.
pub fn made(file: &[u8], number: u32, values: &[u32], statement: &[u32]) -> Result<Vec<u8>, u32> {
    let mut buffer = [0xAA; 400];
    let answer: Written = make(file, number, 23, 11, 11, values, statement, &mut buffer);
    let length = answer.unwrap_or(0);
    assert!(buffer[length..].iter().all(|byte| *byte == 0xAA));
    answer.map(|length| buffer[..length].to_vec())
}

/// What a pattern file is refused by, or 0. The number is never a pattern's,
/// so a file that reads gives 1.
pub fn refusal(file: &[u8]) -> u32 {
    match made(file, u32::MAX, &[], &[]) {
        Err(1) => 0,
        answer => answer.unwrap_err(),
    }
}

#[test]
fn the_papers_example_of_linear_relations() {
    // Section 6.5 of Maurer: z1 = h1^x3 h2^x1 and z2 = h1^x2 h2^x4 h3^x1.
    let file = pattern_bytes(&[&[2, 4, 3, 2, 0, 1, 0, 3, 1, 0, 2]]);
    let table: [&[u32]; 2] = [&[3, 1, 2, 1], &[4, 2, 1, 3]];
    let expected = exponent(23, 11, 11, &table, &[12, 9]).bytes();
    assert_eq!(made(&file, 1, &[2, 3, 4], &[12, 9]), Ok(expected));
}

#[test]
fn a_pattern_is_found_by_its_number() {
    // The patterns differ in length, and a value may be named twice.
    let file = pattern_bytes(&[
        &[1, 1, 1, 1],
        &[2, 2, 1, 1, 0, 0, 1],
        &[1, 3, 3, 3, 1, 2],
        &[3, 1, 2, 2, 1, 2],
    ]);
    let sheet = |table: &[&[u32]], z: &[u32]| Ok(exponent(23, 11, 11, table, z).bytes());
    assert_eq!(made(&file, 1, &[2], &[13]), sheet(&[&[2]], &[13]));
    let square: [&[u32]; 2] = [&[2, 1], &[1, 2]];
    assert_eq!(made(&file, 2, &[2], &[13, 6]), sheet(&square, &[13, 6]));
    let row = sheet(&[&[4, 2, 3]], &[18]);
    assert_eq!(made(&file, 3, &[2, 3, 4], &[18]), row);
    let column = sheet(&[&[3], &[2], &[3]], &[1, 2, 3]);
    assert_eq!(made(&file, 4, &[2, 3], &[1, 2, 3]), column);
    assert_eq!(made(&file, 5, &[2], &[13]), Err(1));
}

#[test]
fn the_largest_pattern_and_the_longest_file() {
    let mut largest: Vec<u8> = vec![8, 8, 8];
    largest.extend((0..64).map(|place| place % 9));
    let file = pattern_bytes(&[largest.as_slice(); 32]);
    assert_eq!(file.len(), 6 + 32 * 67);
    let values = [2, 3, 4, 6, 8, 9, 12, 13];
    let all = [1, 2, 3, 4, 6, 8, 9, 12, 13];
    let table: Vec<Vec<u32>> =
        (0..8).map(|i| (0..8).map(|j| all[(8 * i + j) % 9]).collect()).collect();
    let rows: Vec<&[u32]> = table.iter().map(Vec::as_slice).collect();
    let expected = exponent(23, 11, 11, &rows, &[18; 8]).bytes();
    for number in 1..=32 {
        assert_eq!(made(&file, number, &values, &[18; 8]), Ok(expected.clone()));
    }
    for number in [33, 256, 257, 65_537, u32::MAX] {
        assert_eq!(made(&file, number, &values, &[18; 8]), Err(1));
    }
}

#[test]
fn a_root_sheet_is_asked_for_as_0() {
    for file in [SHIPPED.to_vec(), pattern_bytes(&[&[1, 1, 1, 1]])] {
        let mut buffer = [0xAA; 30];
        assert_eq!(make(&file, 0, 35, 5, 5, &[], &[32], &mut buffer), Ok(24));
        assert_eq!(buffer[..24], page_g());
        assert_eq!(buffer[24..], [0xAA; 6]);
        for (values, z) in [(1, 1), (0, 0), (0, 2), (1, 0)] {
            assert_eq!(made(&file, 0, &[1; 3][..values], &[1; 3][..z]), Err(1));
        }
    }
}

#[test]
fn refusal_23_the_header() {
    let good = pattern_bytes(&[&[1, 1, 1, 1]]);
    assert_eq!(refusal(&good), 0);
    for place in 0..5 {
        for value in (0..=255).filter(|value| *value != good[place]) {
            let mut bytes = good.clone();
            bytes[place] = value;
            assert_eq!(refusal(&bytes), 23);
        }
    }
    // A count is wrong by itself, also with as many patterns behind it.
    for count in 0..=255_u8 {
        let file = pattern_bytes(&vec![&[1, 1, 1, 1][..]; count.into()]);
        let expected = if (1..=32).contains(&count) { 0 } else { 23 };
        assert_eq!(refusal(&file), expected);
    }
}

#[test]
fn refusal_23_the_counts_of_a_pattern() {
    for count in 0..=255_u8 {
        let in_range = (1..=8).contains(&count);
        let expected = if in_range { 0 } else { 23 };
        let digits = vec![1; count.into()];
        let tall = [vec![count, 1, 1], digits.clone()].concat();
        let wide = [vec![1, count, 1], digits.clone()].concat();
        assert_eq!(refusal(&pattern_bytes(&[&tall])), expected);
        assert_eq!(refusal(&pattern_bytes(&[&wide])), expected);
        // As many values as digits, named in order. Nine or more in two rows.
        let named: Vec<u8> = (1..=count).collect();
        let many = if in_range {
            [vec![1, count, count], named].concat()
        } else {
            [vec![2, 8, count], vec![1; 16]].concat()
        };
        assert_eq!(refusal(&pattern_bytes(&[&many])), expected);
        // In the second pattern too.
        let second = pattern_bytes(&[&[1, 1, 1, 1], &many]);
        assert_eq!(refusal(&second), expected);
    }
}

#[test]
fn refusal_23_lengths() {
    for length in 0..34 {
        assert_eq!(refusal(&SHIPPED[..length]), 23);
    }
    assert_eq!(refusal(&SHIPPED), 0);
    for extra in 1..10 {
        let longer = [SHIPPED.to_vec(), vec![1; extra]].concat();
        assert_eq!(refusal(&longer), 23);
    }
    // One pattern more or less than the count says.
    for count in [4, 6] {
        let mut bytes = SHIPPED;
        bytes[5] = count;
        assert_eq!(refusal(&bytes), 23);
    }
}

#[test]
fn refusal_24_digits_and_values() {
    let one = |pattern: &[u8]| refusal(&pattern_bytes(&[pattern]));
    assert_eq!(one(&[1, 2, 2, 1, 2]), 0);
    assert_eq!(one(&[1, 2, 2, 2, 1]), 0);
    // A digit above the number of values.
    assert_eq!(one(&[1, 2, 1, 1, 2]), 24);
    assert_eq!(one(&[1, 2, 1, 255, 1]), 24);
    assert_eq!(one(&[1, 3, 2, 1, 2, 3]), 24);
    // A value that no digit names.
    assert_eq!(one(&[1, 1, 1, 0]), 24);
    assert_eq!(one(&[1, 2, 2, 1, 1]), 24);
    assert_eq!(one(&[1, 2, 2, 0, 2]), 24);
    assert_eq!(one(&[2, 2, 4, 1, 2, 3, 0]), 24);
    assert_eq!(one(&[1, 1, 8, 1]), 24);
    // In a later pattern than the one asked for, and for a root sheet.
    let file = pattern_bytes(&[&[1, 1, 1, 1], &[1, 1, 1, 2]]);
    assert_eq!(made(&file, 1, &[2], &[13]), Err(24));
    assert_eq!(made(&file, 0, &[], &[13]), Err(24));
    // A fault of length behind it comes first.
    let longer = [file, vec![0]].concat();
    assert_eq!(made(&longer, 1, &[2], &[13]), Err(23));
    let file = pattern_bytes(&[&[1, 1, 1, 2], &[1, 9, 1, 1]]);
    assert_eq!(refusal(&file), 23);
}

#[test]
fn the_makers_refusals_in_order() {
    let good: &[u8] = &[b'P', b'A', b'T', 0, 1, 1, 1, 1, 1, 1];
    let digit: &[u8] = &[b'P', b'A', b'T', 0, 1, 1, 1, 1, 1, 2];
    let mark: &[u8] = &[b'P', b'A', b'X', 0, 1, 1, 1, 1, 1, 2];
    // Each step mends one flaw and leaves all the later ones.
    let steps = [
        (mark, 2, 2, 1, 1, 5, 5, 0, 23),
        (digit, 2, 2, 1, 1, 5, 5, 0, 24),
        (good, 2, 2, 1, 1, 5, 5, 0, 1),
        (good, 1, 2, 1, 1, 5, 5, 0, 5),
        (good, 1, 23, 1, 1, 5, 5, 0, 6),
        (good, 1, 23, 11, 1, 5, 5, 0, 8),
        (good, 1, 23, 11, 12, 5, 5, 0, 8),
        (good, 1, 23, 11, 11, 5, 5, 0, 10),
        (good, 1, 23, 11, 11, 2, 5, 0, 11),
        (good, 1, 23, 11, 11, 2, 13, 27, 22),
    ];
    for (file, number, m, q, k, value, z, length, refusal) in steps {
        let mut buffer = vec![0xAA; length];
        let answer = make(file, number, m, q, k, &[value], &[z], &mut buffer);
        assert_eq!(answer, Err(refusal));
        assert_eq!(buffer, vec![0xAA; length]);
    }
    let mut buffer = [0xAA; 28];
    let answer = make(good, 1, 23, 11, 11, &[2], &[13], &mut buffer);
    assert_eq!(answer, Ok(28));
    assert_eq!(buffer[..], page_a());
    // A root sheet too: first the file, then the counts.
    for (file, refusal) in [(mark, 23), (digit, 24), (good, 1)] {
        let answer = make(file, 0, 2, 1, 1, &[5], &[5], &mut []);
        assert_eq!(answer, Err(refusal));
    }
}
