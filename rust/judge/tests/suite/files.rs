//! Round files of version 1: refusals 12, 13 and 22, and files written and
//! read back.

use judge::*;

use crate::tools::*;

/// A sheet of two rows and three columns, with records of 24 bytes.
fn wide() -> Vec<u8> {
    let table: [&[u32]; 2] = [&[2, 3, 1], &[3, 1, 3]];
    exponent(23, 11, 11, &table, &[12, 9]).bytes()
}

#[test]
fn refusal_12_files_that_do_not_read() {
    let sheet = page_a();
    let good = file(2, &[9, 3, 4, 9, 1, 1]);
    assert_eq!(count(&sheet, &good), Ok(2));
    let mut bad: Vec<Vec<u8>> = (0..good.len()).map(|n| good[..n].to_vec()).collect();
    for place in 0..5 {
        let mut other = good.clone();
        other[place] ^= 1;
        bad.push(other);
    }
    bad.push([good.clone(), vec![0]].concat());
    bad.push(file(1, &[9, 3, 4, 9, 1, 1]));
    bad.push(file(3, &[9, 3, 4, 9, 1, 1]));
    bad.push(file(0, &[9]));
    bad.push(file(513, &[9, 3, 4].repeat(513)));
    bad.push(file(65_535, &[]));
    for bytes in bad {
        assert_eq!(count(&sheet, &bytes), Err(12));
        for number in [0, 1, 2, u64::MAX] {
            assert_eq!(check(&sheet, &bytes, number), 12);
            assert!(part(&sheet, &bytes, number).is_empty());
            assert_eq!(read(&sheet, &bytes, number), Err(12));
        }
    }
}

#[test]
fn refusal_13_round_numbers() {
    let (sheet, bytes) = (page_a(), file(2, &[9, 3, 4, 9, 1, 1]));
    for number in [2, 3, 1 << 16, 1 << 32, 1 << 61, u64::MAX] {
        assert_eq!(check(&sheet, &bytes, number), 13);
        assert!(part(&sheet, &bytes, number).is_empty());
        assert_eq!(read(&sheet, &bytes, number), Err(13));
    }
    assert_eq!(check(&sheet, &file(0, &[]), 0), 13);
}

#[test]
fn rounds_are_read_untested_and_parts_lie_in_the_file() {
    let sheet = wide();
    let words: Vec<u32> = (1..=12).map(|n| n * 300_000_007).collect();
    let bytes = file(2, &words);
    assert_eq!(count(&sheet, &bytes), Ok(2));
    for number in 0..2_usize {
        let at = number * 6;
        let expected = round(&words[at..at + 2], words[at + 2], &words[at + 3..at + 6]);
        assert_eq!(read(&sheet, &bytes, number as u64), Ok(expected));
        let found = part(&sheet, &bytes, number as u64);
        let place = 7 + number * 24;
        assert_eq!(found, &bytes[place..place + 24]);
        assert_eq!(found.as_ptr(), bytes[place..].as_ptr());
    }
}

#[test]
fn an_empty_file_is_made() {
    for length in 0..7 {
        let mut buffer = vec![0xAA; length];
        assert_eq!(empty(1, &mut buffer), Err(22));
        assert_eq!(buffer, vec![0xAA; length]);
    }
    let mut buffer = [0xAA; 9];
    assert_eq!(empty(1, &mut buffer), Ok(7));
    assert_eq!(buffer[..7], file(0, &[]));
    assert_eq!(buffer[7..], [0xAA; 2]);
}

#[test]
fn records_are_added_behind_the_bytes_in_use() {
    let sheet = wide();
    let mut buffer = [0xAA; 60];
    let mut used = empty(1, &mut buffer).unwrap() as u64;
    for number in 0..2_u32 {
        let next = Round {
            commitment: eight_with(&[u32::MAX, number], 77),
            challenge: u32::MAX - number,
            response: eight_with(&[1, 2, 3], 77),
        };
        used = append(&sheet, &mut buffer, used, &next).unwrap();
        assert_eq!(used, 7 + 24 * u64::from(number + 1));
    }
    let words = [u32::MAX, 0, u32::MAX, 1, 2, 3, u32::MAX, 1, u32::MAX - 1, 1, 2, 3];
    assert_eq!(buffer[..55], file(2, &words));
    assert_eq!(buffer[55..], [0xAA; 5]);
}

#[test]
fn the_record_writers_refusals_in_order() {
    let sheet = page_a();
    let next = round(&[9], 3, &[4]);
    let one = file(1, &[9, 1, 1]);
    let refused = |bytes: &[u8], used: u64, number: u32| {
        let mut buffer = bytes.to_vec();
        assert_eq!(append(&sheet, &mut buffer, used, &next), Err(number));
        assert_eq!(buffer, bytes);
    };
    // More bytes in use than the buffer has, and other wrong counts.
    for used in [20, 21, 1 << 32, (1 << 32) + 19, u64::MAX] {
        refused(&one, used, 12);
    }
    for used in 0..19 {
        refused(&[one.clone(), vec![0xAA; 50]].concat(), used, 12);
    }
    // A bad file without room is 12, a good one without room 22.
    for room in 0..12 {
        let bytes = [one.clone(), vec![0xAA; room]].concat();
        refused(&bytes, 19, 22);
        let mut bad = bytes.clone();
        bad[0] = 0;
        refused(&bad, 19, 12);
    }
    let mut exact = [one, vec![0xAA; 12]].concat();
    assert_eq!(append(&sheet, &mut exact, 19, &next), Ok(31));
    assert_eq!(exact, file(2, &[9, 1, 1, 9, 3, 4]));
}

#[test]
fn a_file_takes_512_rounds_and_no_more() {
    let sheet = page_a();
    let next = round(&[9], 3, &[4]);
    let mut buffer = vec![0xAA; 7 + 12 * 513];
    let mut used = empty(1, &mut buffer).unwrap() as u64;
    for _ in 0..512 {
        used = append(&sheet, &mut buffer, used, &next).unwrap();
    }
    let full = file(512, &[9, 3, 4].repeat(512));
    assert_eq!(buffer[..used as usize], full);
    let before = buffer.clone();
    assert_eq!(append(&sheet, &mut buffer, used, &next), Err(12));
    assert_eq!(buffer, before);
    // Full and without room is 12 too.
    assert_eq!(append(&sheet, &mut full.clone(), used, &next), Err(12));
}

#[test]
fn a_file_that_reads_is_written_back_as_the_same_bytes() {
    let sheet = wide();
    let mut shifts = Shifts(0x1234_5678_9ABC_DEF1);
    for rounds in 0..20_u16 {
        let words: Vec<u32> = (0..6 * rounds).map(|_| shifts.word()).collect();
        let bytes = file(rounds, &words);
        let mut buffer = vec![0xAA; bytes.len()];
        let mut used = empty(1, &mut buffer).unwrap() as u64;
        for number in 0..count(&sheet, &bytes).unwrap() {
            let next = read(&sheet, &bytes, u64::from(number)).unwrap();
            used = append(&sheet, &mut buffer, used, &next).unwrap();
        }
        assert_eq!(used as usize, bytes.len());
        assert_eq!(buffer, bytes);
    }
}
