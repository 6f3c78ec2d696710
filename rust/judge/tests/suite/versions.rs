//! The two versions of the round file: reading, writing, marking and the
//! reason's offsets.

use judge::*;

use crate::tools::*;

/// The rounds of 01's example for the marker.
const EXAMPLE: [u32; 12] = [9, 3, 4, 9, 1, 1, 9, 1, 2, 5, 0, 0];

/// A sheet of two rows and three columns, with records of 24 bytes in version
/// 1 and 22 in version 2.
fn wide() -> Vec<u8> {
    let table: [&[u32]; 2] = [&[2, 3, 1], &[3, 1, 3]];
    exponent(23, 11, 11, &table, &[12, 9]).bytes()
}

/// A sheet of kind 1 with this K, from 2 to 65,536, and the witness 7. The
/// modulus 917,519 is prime and is 14 · 65,537 + 1. The entry is 2^14 and the
/// statement 2^98.
fn many_powers(challenges: u32) -> Vec<u8> {
    exponent(917_519, 65_537, challenges, &[&[16_384]], &[237_963]).bytes()
}

/// A sheet of kind 2 with this K, from 2 to 65,536, and the witness 2. In the
/// group of 35 every twelfth power is 1, and 65,537 leaves 5.
fn many_roots(challenges: u32) -> Vec<u8> {
    root(35, 65_537, challenges, &[32]).bytes()
}

/// Files with this version in place of a file's own.
fn with_version(bytes: &[u8], version: u16) -> Vec<u8> {
    let mut other = bytes.to_vec();
    other[3..5].copy_from_slice(&version.to_be_bytes());
    other
}

#[test]
fn version_2_byte_by_byte() {
    let bytes = [
        0x52, 0x4E, 0x44, 0, 2, 0, 2, // mark, version, count
        0, 0, 0, 9, 0, 3, 0, 0, 0, 4, // t 9, c 3, r 4
        0, 0, 0, 9, 1, 2, 0, 0, 0, 1, // t 9, c 258, r 1
    ];
    assert_eq!(bytes[..], narrow(2, (1, 1), &[9, 3, 4, 9, 258, 1]));
    let sheet = page_a();
    assert_eq!(count(&sheet, &bytes), Ok(2));
    assert_eq!(read(&sheet, &bytes, 0), Ok(round(&[9], 3, &[4])));
    assert_eq!(read(&sheet, &bytes, 1), Ok(round(&[9], 258, &[1])));
    for (number, place) in [(0, 7), (1, 17)] {
        assert_eq!(check(&sheet, &bytes, number), 0);
        let found = part(&sheet, &bytes, number);
        assert_eq!(found, &bytes[place..place + 10]);
        assert_eq!(found.as_ptr(), bytes[place..].as_ptr());
    }
    for number in [2, 256, 1 << 32, u64::MAX] {
        assert_eq!(check(&sheet, &bytes, number), 13);
        assert!(part(&sheet, &bytes, number).is_empty());
        assert_eq!(read(&sheet, &bytes, number), Err(13));
    }
    assert_eq!(same_commitment(&sheet, &bytes, 0, 1), Ok(true));
    assert_eq!(same_commitment(&sheet, &bytes, 0, 2), Err(13));
}

#[test]
fn records_of_every_size() {
    for s in 1..=8_usize {
        for n in 1..=8_usize {
            let table = vec![&[2; 8][..n]; s];
            let sheet = exponent(23, 11, 11, &table, &vec![13; s]).bytes();
            // No two values are the same, and no word has a zero byte.
            let mut words: Vec<u32> =
                (1..=3 * (s + 1 + n) as u32).map(|place| 0x8181_8100 + place).collect();
            for number in 0..3 {
                words[number * (s + 1 + n) + s] &= 0xFFFF;
            }
            let bytes = narrow(3, (s, n), &words);
            assert_eq!(bytes.len(), 7 + 3 * (4 * (s + n) + 2));
            assert_eq!(count(&sheet, &bytes), Ok(3));
            for (number, record) in words.chunks(s + 1 + n).enumerate() {
                let expected = round(&record[..s], record[s], &record[s + 1..]);
                assert_eq!(read(&sheet, &bytes, number as u64), Ok(expected));
                let length = part(&sheet, &bytes, number as u64).len();
                assert_eq!(length, 4 * (s + n) + 2);
            }
            for length in (0..bytes.len()).chain([bytes.len() + 1, bytes.len() + 2]) {
                let mut other = bytes.clone();
                other.resize(length, 0);
                assert_eq!(count(&sheet, &other), Err(12));
            }
        }
    }
}

#[test]
fn only_versions_1_and_2_are_read() {
    let sheet = page_a();
    let first = file(2, &[9, 3, 4, 9, 1, 1]);
    let second = narrow(2, (1, 1), &[9, 3, 4, 9, 1, 1]);
    let refused = |bytes: &[u8]| {
        assert_eq!(count(&sheet, bytes), Err(12));
        for number in [0, 1, 2, u64::MAX] {
            assert_eq!(check(&sheet, bytes, number), 12);
            assert!(part(&sheet, bytes, number).is_empty());
            assert_eq!(read(&sheet, bytes, number), Err(12));
            assert_eq!(same_commitment(&sheet, bytes, 0, number), Err(12));
        }
        assert_eq!(marker(&sheet, bytes, &[1]), "file 12\n");
        let mut buffer = [bytes, &[0xAA; 12]].concat();
        let next = round(&[9], 3, &[4]);
        let answer = append(&sheet, &mut buffer, bytes.len() as u64, &next);
        assert_eq!(answer, Err(12));
        assert_eq!(buffer, [bytes, &[0xAA; 12]].concat());
    };
    for bytes in [&first, &second, &first[..7], &second[..7]] {
        for version in [0, 3, 4, 255, 256, 257, 258, 512, 513, 514, 65_535] {
            refused(&with_version(bytes, version));
            let line = reason(&sheet, &with_version(bytes, version));
            assert_eq!(line, "refused 12 3\n");
        }
    }
    // The records of one version in a file of the other do not fit.
    refused(&with_version(&first, 2));
    refused(&with_version(&second, 1));
    let line = reason(&sheet, &with_version(&first, 2));
    assert_eq!(line, "refused 12 length 31\n");
    let line = reason(&sheet, &with_version(&second, 1));
    assert_eq!(line, "refused 12 length 27\n");
    // Five records of version 1 are as long as six of version 2.
    let words = [9, 3, 4].repeat(6);
    let five = file(5, &words[..15]);
    let six = narrow(6, (1, 1), &words);
    assert_eq!((five.len(), six.len()), (67, 67));
    assert_eq!(count(&sheet, &five), Ok(5));
    assert_eq!(count(&sheet, &six), Ok(6));
    refused(&with_version(&five, 2));
    refused(&with_version(&six, 1));
}

#[test]
fn empty_files_of_both_versions() {
    for version in [1, 2] {
        for length in 0..7 {
            let mut buffer = vec![0xAA; length];
            assert_eq!(empty(version, &mut buffer), Err(22));
            assert_eq!(buffer, vec![0xAA; length]);
        }
        for length in [7, 8, 20] {
            let mut buffer = vec![0xAA; length];
            assert_eq!(empty(version, &mut buffer), Ok(7));
            let made = [0x52, 0x4E, 0x44, 0, version as u8, 0, 0];
            assert_eq!(buffer[..7], made);
            assert_eq!(buffer[7..], vec![0xAA; length - 7]);
            assert_eq!(count(&page_a(), &made), Ok(0));
            assert_eq!(marker(&page_a(), &made, &[1]), "rounds 0\nfail\n");
            assert_eq!(reason(&page_a(), &made), "refused 13 5\n");
        }
    }
}

#[test]
fn no_empty_file_of_another_version() {
    // The low 8, 16 or 32 bits of many of these are 1 or 2.
    let versions =
        [0, 3, 4, 257, 258, 65_535, 65_536, 65_537, 65_538, (1 << 32) + 1, (1 << 32) + 2, u64::MAX];
    for version in versions {
        // 12 comes before 22.
        for length in [0, 6, 7, 20] {
            let mut buffer = vec![0xAA; length];
            assert_eq!(empty(version, &mut buffer), Err(12));
            assert_eq!(buffer, vec![0xAA; length]);
        }
    }
}

#[test]
fn the_record_writer_keeps_to_version_2() {
    let sheet = wide();
    let mut buffer = [0xAA; 60];
    let mut used = empty(2, &mut buffer).unwrap() as u64;
    for number in 0..2_u32 {
        let next = Round {
            commitment: eight_with(&[u32::MAX, number], 77),
            challenge: 65_535 - number,
            response: eight_with(&[1, 2, 3], 77),
        };
        used = append(&sheet, &mut buffer, used, &next).unwrap();
        assert_eq!(used, 7 + 22 * u64::from(number + 1));
    }
    let expected = [
        0x52, 0x4E, 0x44, 0, 2, 0, 2, // mark, version, count
        255, 255, 255, 255, 0, 0, 0, 0, 255, 255, // t, c
        0, 0, 0, 1, 0, 0, 0, 2, 0, 0, 0, 3, // r
        255, 255, 255, 255, 0, 0, 0, 1, 255, 254, // t, c
        0, 0, 0, 1, 0, 0, 0, 2, 0, 0, 0, 3, // r
    ];
    assert_eq!(buffer[..51], expected);
    assert_eq!(buffer[51..], [0xAA; 9]);
}

/// Page A's empty file of a version and a round with this challenge added.
fn one_added(version: u64, challenge: u32) -> Result<Vec<u8>, u32> {
    let mut buffer = [0xAA; 19];
    let used = empty(version, &mut buffer).unwrap() as u64;
    let before = buffer;
    let added = append(&page_a(), &mut buffer, used, &round(&[9], challenge, &[4]));
    assert!(added.is_ok() || buffer == before);
    added.map(|length| buffer[..length as usize].to_vec())
}

#[test]
fn challenges_around_65535_are_written() {
    // K is 11. The writer tests no value, so K itself and all up to 65,535 go
    // into either version.
    for challenge in [0, 10, 11, 12, 255, 256, 65_534, 65_535] {
        let words = [9, challenge, 4];
        assert_eq!(one_added(1, challenge), Ok(file(1, &words)));
        assert_eq!(one_added(2, challenge), Ok(narrow(1, (1, 1), &words)));
    }
    // The low 16 bits of most of these are a challenge below K.
    for challenge in [65_536, 65_537, 65_539, 131_072, 1 << 31, u32::MAX] {
        assert_eq!(one_added(1, challenge), Ok(file(1, &[9, challenge, 4])));
        assert_eq!(one_added(2, challenge), Err(15));
    }
}

#[test]
fn the_record_writers_refusals_in_version_2() {
    let sheet = page_a();
    let refused = |bytes: &[u8], used: u64, challenge: u32, number: u32| {
        let mut buffer = bytes.to_vec();
        let next = round(&[9], challenge, &[4]);
        assert_eq!(append(&sheet, &mut buffer, used, &next), Err(number));
        assert_eq!(buffer, bytes);
    };
    let one = narrow(1, (1, 1), &[9, 1, 1]);
    let roomy = [one.clone(), vec![0xAA; 50]].concat();
    for challenge in [3, 65_535, 65_536] {
        // More bytes in use than the buffer has, and other wrong counts.
        for used in [18, 19, 1 << 32, (1 << 32) + 17, u64::MAX] {
            refused(&one, used, challenge, 12);
        }
        for used in (0..17).chain(18..30) {
            refused(&roomy, used, challenge, 12);
        }
    }
    for room in 0..10 {
        let bytes = [one.clone(), vec![0xAA; room]].concat();
        // 12 comes before 15, and 15 before 22.
        refused(&with_version(&bytes, 3), 17, 65_536, 12);
        refused(&bytes, 17, 65_536, 15);
        refused(&bytes, 17, 65_535, 22);
    }
    refused(&roomy, 17, 65_536, 15);
    // The record just fits.
    let mut exact = [one, vec![0xAA; 10]].concat();
    let next = round(&[9], 65_535, &[4]);
    assert_eq!(append(&sheet, &mut exact, 17, &next), Ok(27));
    assert_eq!(exact, narrow(2, (1, 1), &[9, 1, 1, 9, 65_535, 4]));
}

#[test]
fn version_2_takes_512_rounds_and_no_more() {
    let sheet = page_a();
    let mut buffer = vec![0xAA; 7 + 10 * 513];
    let mut used = empty(2, &mut buffer).unwrap() as u64;
    for _ in 0..512 {
        used = append(&sheet, &mut buffer, used, &round(&[9], 3, &[4])).unwrap();
    }
    let full = narrow(512, (1, 1), &[9, 3, 4].repeat(512));
    assert_eq!(buffer[..used as usize], full);
    let before = buffer.clone();
    // 12 comes before 15 here too.
    for challenge in [3, 65_535, 65_536] {
        let next = round(&[9], challenge, &[4]);
        assert_eq!(append(&sheet, &mut buffer, used, &next), Err(12));
        assert_eq!(buffer, before);
    }
    assert_eq!(count(&sheet, &full), Ok(512));
    assert_eq!(read(&sheet, &full, 511), Ok(round(&[9], 3, &[4])));
    assert_eq!(check(&sheet, &full, 512), 13);
    let more = narrow(513, (1, 1), &[9, 3, 4].repeat(513));
    assert_eq!(count(&sheet, &more), Err(12));
    assert_eq!(reason(&sheet, &more), "refused 12 5\n");
}

#[test]
fn a_file_of_version_2_is_written_back_as_the_same_bytes() {
    let sheet = wide();
    let mut shifts = Shifts(0x2234_5678_9ABC_DEF1);
    for rounds in 0..20_u16 {
        let mut words: Vec<u32> = (0..6 * rounds).map(|_| shifts.word()).collect();
        words.chunks_mut(6).for_each(|record| record[2] >>= 16);
        let bytes = narrow(rounds, (2, 3), &words);
        let mut buffer = vec![0xAA; bytes.len()];
        let mut used = empty(2, &mut buffer).unwrap() as u64;
        for number in 0..count(&sheet, &bytes).unwrap() {
            let next = read(&sheet, &bytes, u64::from(number)).unwrap();
            used = append(&sheet, &mut buffer, used, &next).unwrap();
        }
        assert_eq!(used as usize, bytes.len());
        assert_eq!(buffer, bytes);
    }
}

#[test]
fn the_markers_text_for_version_2() {
    let rounds = narrow(4, (1, 1), &EXAMPLE);
    assert_eq!(rounds.len(), 47);
    let expected = "rounds 4\n0 accepted\n1 accepted\n2 rejected 0\n3 refused 14\nfail\n";
    assert_eq!(marker(&page_a(), &rounds, &[1]), expected);
    assert_eq!(reason(&page_a(), &rounds), "accepted\n");
    let enough = narrow(2, (1, 1), &EXAMPLE[..6]);
    let expected = "rounds 2\n0 accepted\n1 accepted\npass\n";
    assert_eq!(marker(&page_a(), &enough, &[6]), expected);
    assert_eq!(marker(&page_a(), &enough, &[65]), "level 25\n");
    let full = narrow(512, (1, 1), &[33, 1, 6].repeat(512));
    let text = marker(&page_g(), &full, &[64]);
    assert_eq!(text.lines().count(), 514);
    assert!(text.ends_with("511 accepted\npass\n"));
}

#[test]
fn the_widest_challenges_are_judged() {
    // Kind 1: nonce 5 and t 2^70. For c 65,535 the response is 5 − 2 · 7 mod
    // 65,537. Kind 2: nonce 3 and t 33. 65,535 leaves 3 mod 12 and 2^3 · 3 is
    // 24.
    let rounds = [[576_352, 65_535, 65_528], [33, 65_535, 24]];
    let line = |sheet: &[u8], words: &[u32; 3]| {
        let lines = [file(1, words), narrow(1, (1, 1), words)].map(|file| {
            assert_eq!(count(sheet, &file), Ok(1));
            reason(sheet, &file)
        });
        assert_eq!(lines[0], lines[1]);
        lines[0].clone()
    };
    for (sheet, words) in [many_powers(65_536), many_roots(65_536)].iter().zip(rounds) {
        assert_eq!(line(sheet, &words), "accepted\n");
    }
    // One challenge fewer, and 65,535 is K.
    for (sheet, words) in [many_powers(65_535), many_roots(65_535)].iter().zip(rounds) {
        assert_eq!(line(sheet, &words), "refused 15 11\n");
    }
    // For c 65,534 the responses are 5 − 3 · 7 and 2^2 · 3.
    let rounds = [[576_352, 65_534, 65_521], [33, 65_534, 12]];
    for k in [65_535, 65_536] {
        for (sheet, words) in [many_powers(k), many_roots(k)].iter().zip(rounds) {
            assert_eq!(line(sheet, &words), "accepted\n");
        }
    }
    // Only version 1 has 65,536. It is never below K.
    let rounds = [[576_352, 65_536, 65_535], [33, 65_536, 13]];
    for (sheet, words) in [many_powers(65_536), many_roots(65_536)].iter().zip(rounds) {
        assert_eq!(reason(sheet, &file(1, &words)), "refused 15 11\n");
        let expected = "rounds 1\n0 refused 15\nfail\n";
        assert_eq!(marker(sheet, &file(1, &words), &[1]), expected);
    }
}

#[test]
fn each_value_of_round_0_has_its_offset_in_version_2() {
    // Page F's records are t of two, c, r of three: 7, 11, 15, 17, 21, 25.
    let good = [12, 9, 0, 2, 1, 0];
    let line = |words: &[u32; 6]| reason(&wide(), &narrow(1, (2, 3), words));
    assert_eq!(line(&good), "accepted\n");
    let places = [(14, 7, 5), (14, 11, 5), (15, 15, 11), (16, 17, 11), (16, 21, 11), (16, 25, 11)];
    for (place, (number, offset, bad)) in places.into_iter().enumerate() {
        let mut words = good;
        words[place] = bad;
        assert_eq!(line(&words), format!("refused {number} {offset}\n"));
        // All later values are bad too, and the first is shown.
        words[place..].fill(23);
        assert_eq!(line(&words), format!("refused {number} {offset}\n"));
    }
    // Eight rows of kind 2: t from 7 on, c at 39, r from 41 on.
    let sheet = root(35, 5, 5, &[32; 8]).bytes();
    let mut words = [33; 17];
    words[8] = 1;
    words[9..].fill(6);
    let line = |words: &[u32; 17]| reason(&sheet, &narrow(1, (8, 8), words));
    assert_eq!(line(&words), "accepted\n");
    for place in 0..8 {
        let mut bad = words;
        bad[place] = 7;
        assert_eq!(line(&bad), format!("refused 14 {}\n", 7 + 4 * place));
        let mut bad = words;
        bad[9 + place] = 7;
        assert_eq!(line(&bad), format!("refused 16 {}\n", 41 + 4 * place));
    }
    for challenge in [5, 256, 65_535] {
        words[8] = challenge;
        assert_eq!(line(&words), "refused 15 39\n");
    }
    // The sides of a rejected round are those of version 1.
    let line = reason(&page_a(), &narrow(1, (1, 1), &[9, 1, 2]));
    assert_eq!(line, "rejected 0 4 2\n");
}

#[test]
fn lengths_of_files_of_version_2() {
    let good = narrow(2, (1, 1), &[9, 3, 4, 9, 1, 1]);
    for length in 0..good.len() {
        let line = format!("refused 12 length {length}\n");
        assert_eq!(reason(&page_a(), &good[..length]), line);
    }
    for extra in 1..14 {
        let longer = [good.clone(), vec![0; extra]].concat();
        let line = format!("refused 12 length {}\n", 27 + extra);
        assert_eq!(reason(&page_a(), &longer), line);
    }
    let most = narrow(512, (1, 1), &[]);
    assert_eq!(reason(&page_a(), &most), "refused 12 length 7\n");
    let more = narrow(513, (1, 1), &[]);
    assert_eq!(reason(&page_a(), &more), "refused 12 5\n");
}

#[test]
fn commitments_in_version_2() {
    let rounds = narrow(4, (1, 1), &EXAMPLE);
    let same = |first, second| same_commitment(&page_a(), &rounds, first, second);
    for first in 0..4 {
        for second in 0..4 {
            assert_eq!(same(first, second), Ok((first == 3) == (second == 3)));
        }
    }
    assert_eq!(same(0, 4), Err(13));
    // Every bit of every row counts, and no bit of c or r.
    for rows in 1..=8_usize {
        let table: Vec<&[u32]> = vec![&[2]; rows];
        let sheet = exponent(23, 11, 11, &table, &vec![13; rows]).bytes();
        let record = [vec![0x5A5A_5A5A; rows], vec![3, 4]].concat();
        let good = narrow(3, (rows, 1), &record.repeat(3));
        let length = 4 * rows + 6;
        for bit in 0..8 * length {
            let mut rounds = good.clone();
            rounds[7 + length + bit / 8] ^= 1 << (bit % 8);
            let expected = bit >= 32 * rows;
            for (first, second) in [(0, 1), (1, 0), (1, 2), (2, 1)] {
                let same = same_commitment(&sheet, &rounds, first, second);
                assert_eq!(same, Ok(expected));
            }
            assert_eq!(same_commitment(&sheet, &rounds, 0, 2), Ok(true));
        }
    }
}
