//! The shipped pattern file: its bytes, and its sheets beside 01's.

use judge::pattern_file::{self, SHIPPED, shipped};
use judge::*;

use crate::tools::*;

/// 01's number for what the shipped file has under this one. Root sheets were
/// 6 and are 0. A number above the file's five was none then, as 7 was.
fn old_number(number: u32) -> u64 {
    match number {
        0 => 6,
        1..=5 => u64::from(number),
        _ => u64::from(number) + 1,
    }
}

/// The numbers of public and of statement values, by 01's table.
fn counts(number: u32) -> (usize, usize) {
    match number {
        0 => (0, 1),
        1 => (1, 1),
        2 => (2, 1),
        3 | 4 => (2, 2),
        _ => (3, 2),
    }
}

#[test]
fn the_shipped_bytes() {
    let expected = pattern_bytes(&[
        &[1, 1, 1, 1],
        &[1, 2, 2, 1, 2],
        &[2, 1, 2, 1, 2],
        &[2, 1, 2, 1, 2],
        &[2, 3, 3, 1, 2, 0, 3, 0, 2],
    ]);
    assert_eq!(SHIPPED[..], expected);
    assert_eq!(SHIPPED[..6], *b"PAT\x00\x01\x05");
}

#[test]
fn the_shipped_file_is_written_at_the_buffers_start() {
    for length in 0..34 {
        let mut buffer = vec![0xAA; length];
        assert_eq!(shipped(&mut buffer), Err(22));
        assert_eq!(buffer, vec![0xAA; length]);
    }
    for room in 0..5 {
        let mut buffer = vec![0xAA; 34 + room];
        assert_eq!(shipped(&mut buffer), Ok(34));
        assert_eq!(buffer[..34], SHIPPED);
        assert_eq!(buffer[34..], vec![0xAA; room]);
    }
}

#[test]
fn the_papers_pages_from_the_shipped_file() {
    let made = |number, values: &[u32], z: &[u32]| {
        let mut buffer = [0; 80];
        let answer = pattern_file::make(&SHIPPED, number, 23, 11, 11, values, z, &mut buffer);
        buffer[..answer.unwrap()].to_vec()
    };
    let sheet = |table: &[&[u32]], z: &[u32]| exponent(23, 11, 11, table, z).bytes();
    assert_eq!(made(1, &[2], &[13]), page_a());
    assert_eq!(made(2, &[2, 3], &[18]), sheet(&[&[2, 3]], &[18]));
    let column: [&[u32]; 2] = [&[2], &[16]];
    assert_eq!(made(3, &[2, 16], &[13, 18]), sheet(&column, &[13, 18]));
    assert_eq!(made(4, &[2, 16], &[13, 18]), sheet(&column, &[13, 18]));
    let product: [&[u32]; 2] = [&[2, 3, 1], &[4, 1, 3]];
    assert_eq!(made(5, &[2, 3, 4], &[12, 9]), sheet(&product, &[12, 9]));
}

#[test]
fn refusal_1_numbers_and_counts() {
    let ones = [1; 10];
    for number in 0..=5 {
        for v in 0..10 {
            for z in 0..10 {
                let mut buffer = [0xAA; 80];
                let (values, statement) = (&ones[..v], &ones[..z]);
                let answer = pattern_file::make(
                    &SHIPPED,
                    number,
                    23,
                    11,
                    11,
                    values,
                    statement,
                    &mut buffer,
                );
                let good = (v, z) == counts(number);
                assert_eq!(answer.err(), if good { None } else { Some(1) });
                assert_eq!(buffer == [0xAA; 80], !good);
            }
        }
    }
    for number in [6, 7, 33, 255, 256, 257, 65_536, 65_537, u32::MAX] {
        let answer = pattern_file::make(&SHIPPED, number, 23, 11, 11, &[2], &[13], &mut [0; 80]);
        assert_eq!(answer, Err(1));
    }
}

/// A number that is mostly the first of these, sometimes another of them and
/// seldom any.
fn mostly(shifts: &mut Shifts, values: &[u32]) -> u32 {
    match shifts.below(24) {
        0 => shifts.edge(),
        1..=3 => shifts.pick(values),
        _ => values[0],
    }
}

/// Values that are mostly group elements mod 23 and of the right number.
fn some(shifts: &mut Shifts, count: usize) -> Vec<u32> {
    let count = match shifts.below(20) {
        0 => shifts.below(10) as usize,
        _ => count,
    };
    let elements = [1, 2, 3, 4, 6, 8, 9, 12, 13, 16, 18];
    let values = (0..count).map(|_| match shifts.below(16) {
        0 => shifts.edge(),
        _ => shifts.pick(&elements),
    });
    values.collect()
}

#[test]
fn sheets_from_the_shipped_file_are_the_old_ones() {
    let mut shifts = Shifts(0x01D0_01D0_01D0_01D1);
    let mut seen = [0; 25];
    let mut written = [0; 6];
    for _ in 0..60_000 {
        let number = match shifts.below(20) {
            0 => shifts.edge(),
            _ => shifts.below(6) as u32,
        };
        let m = mostly(&mut shifts, &[23, 2, 31, 35, 69]);
        let l = mostly(&mut shifts, &[11, 1, 5, 15, 22]);
        let k = mostly(&mut shifts, &[11, 2, 3, 1, 12]);
        let (v, z) = counts(number);
        let (values, z) = (some(&mut shifts, v), some(&mut shifts, z));
        // Some buffers are too short, and all hold other bytes before.
        let room = shifts.below(20) + if shifts.below(4) == 0 { 15 } else { 52 };
        let mut old: Vec<u8> = (0..room).map(|_| shifts.word() as u8).collect();
        let mut new = old.clone();
        let before = old.clone();
        let expected = make(old_number(number), m, l, k, &values, &z, &mut old);
        let answer = pattern_file::make(&SHIPPED, number, m, l, k, &values, &z, &mut new);
        assert_eq!(answer, expected);
        assert_eq!(new, old);
        match answer {
            Ok(_) => written[number as usize] += 1,
            Err(refusal) => {
                assert_eq!(new, before);
                seen[refusal as usize] += 1;
            }
        }
    }
    assert!(written.iter().all(|count| *count > 500), "{written:?}");
    for refusal in [1, 5, 6, 8, 10, 11, 22] {
        assert!(seen[refusal] > 200, "{seen:?}");
    }
}
