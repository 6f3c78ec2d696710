//! The converter between the two versions of the round file.

use judge::*;

use crate::tools::*;

/// The rounds of 01's example for the marker.
const EXAMPLE: [u32; 12] = [9, 3, 4, 9, 1, 1, 9, 1, 2, 5, 0, 0];

/// The file in its other version, from a buffer that is long enough.
fn converted(sheet: &[u8], file: &[u8]) -> Result<Vec<u8>, u32> {
    let mut buffer = vec![0xAA; 2 * file.len() + 7];
    let length = convert(sheet, file, &mut buffer)?;
    assert!(buffer[length..].iter().all(|byte| *byte == 0xAA));
    buffer.truncate(length);
    Ok(buffer)
}

/// Asserts that this call is refused with this number and that the buffer,
/// of this length, keeps its bytes.
fn refused(sheet: &[u8], file: &[u8], length: usize, number: u32) {
    let mut buffer = vec![0xAA; length];
    assert_eq!(convert(sheet, file, &mut buffer), Err(number));
    assert_eq!(buffer, vec![0xAA; length]);
}

#[test]
fn the_papers_example_both_ways() {
    let first = [
        0x52, 0x4E, 0x44, 0, 1, 0, 4, // mark, version, count
        0, 0, 0, 9, 0, 0, 0, 3, 0, 0, 0, 4, // t 9, c 3, r 4
        0, 0, 0, 9, 0, 0, 0, 1, 0, 0, 0, 1, // t 9, c 1, r 1
        0, 0, 0, 9, 0, 0, 0, 1, 0, 0, 0, 2, // t 9, c 1, r 2
        0, 0, 0, 5, 0, 0, 0, 0, 0, 0, 0, 0, // t 5, c 0, r 0
    ];
    let second = [
        0x52, 0x4E, 0x44, 0, 2, 0, 4, // mark, version, count
        0, 0, 0, 9, 0, 3, 0, 0, 0, 4, // t 9, c 3, r 4
        0, 0, 0, 9, 0, 1, 0, 0, 0, 1, // t 9, c 1, r 1
        0, 0, 0, 9, 0, 1, 0, 0, 0, 2, // t 9, c 1, r 2
        0, 0, 0, 5, 0, 0, 0, 0, 0, 0, // t 5, c 0, r 0
    ];
    let sheet = page_a();
    assert_eq!(converted(&sheet, &first), Ok(second.to_vec()));
    assert_eq!(converted(&sheet, &second), Ok(first.to_vec()));
    let text = marker(&sheet, &first, &[1]);
    assert_eq!(marker(&sheet, &second, &[1]), text);
    assert!(text.contains("\n2 rejected 0\n3 refused 14\n"));
}

#[test]
fn files_of_no_rounds_and_of_512() {
    for (sheet, record) in [(page_a(), [9, 3, 4]), (page_g(), [33, 1, 6])] {
        for count in [0, 1, 2, 511, 512] {
            let words = record.repeat(count.into());
            let (first, second) = (file(count, &words), narrow(count, (1, 1), &words));
            assert_eq!(converted(&sheet, &first), Ok(second.clone()));
            assert_eq!(converted(&sheet, &second), Ok(first));
        }
    }
}

#[test]
fn buffers_that_just_fit() {
    let table: [&[u32]; 2] = [&[2, 3, 1], &[3, 1, 3]];
    let sheet = exponent(23, 11, 11, &table, &[12, 9]).bytes();
    for count in 0..4_u16 {
        let words = [12, 9, 0, 2, 1, 0].repeat(count.into());
        let (first, second) = (file(count, &words), narrow(count, (2, 3), &words));
        assert_eq!(first.len() - second.len(), 2 * usize::from(count));
        for (from, to) in [(&first, &second), (&second, &first)] {
            for length in 0..to.len() {
                refused(&sheet, from, length, 22);
            }
            for extra in [0, 1, 2, 9] {
                let mut buffer = vec![0xAA; to.len() + extra];
                assert_eq!(convert(&sheet, from, &mut buffer), Ok(to.len()));
                assert_eq!(&buffer[..to.len()], &to[..]);
                assert_eq!(buffer[to.len()..], vec![0xAA; extra]);
            }
        }
    }
}

#[test]
fn challenges_around_65535() {
    // Page A's K is 11, and K up to 65,535 is a challenge that 15 refuses only
    // when the round is judged. The roots have the largest K.
    for sheet in [page_a(), root(35, 65_537, 65_536, &[32]).bytes()] {
        for challenge in [0, 10, 11, 255, 256, 257, 65_534, 65_535] {
            let words = [9, challenge, 4];
            let (first, second) = (file(1, &words), narrow(1, (1, 1), &words));
            assert_eq!(converted(&sheet, &first), Ok(second.clone()));
            assert_eq!(converted(&sheet, &second), Ok(first));
        }
        for challenge in [65_536, 65_537, 65_539, 131_072, 1 << 31, u32::MAX] {
            let words = [9, challenge, 4];
            assert_eq!(count(&sheet, &file(1, &words)), Ok(1));
            for length in [0, 7, 16, 17, 18, 60] {
                refused(&sheet, &file(1, &words), length, 15);
            }
        }
    }
}

#[test]
fn a_challenge_is_refused_wherever_it_stands() {
    let sheet = page_a();
    for count in [1, 2, 5, 512_u16] {
        let rounds = usize::from(count);
        for place in [0, 1, rounds / 2, rounds - 1] {
            if place >= rounds {
                continue;
            }
            let mut words = [9, 3, 4].repeat(rounds);
            words[3 * place + 1] = 65_535;
            let narrow = narrow(count, (1, 1), &words);
            assert_eq!(converted(&sheet, &file(count, &words)), Ok(narrow));
            words[3 * place + 1] = 65_536;
            for length in [0, 7, 7 + 10 * rounds, 7 + 12 * rounds] {
                refused(&sheet, &file(count, &words), length, 15);
            }
        }
    }
}

#[test]
fn no_other_value_is_tested() {
    // Values that 14 and 16 would refuse are carried over whole.
    let words = [u32::MAX, 0, 65_535, 65_536, u32::MAX, 0x0102_0304];
    let sheet = exponent(23, 11, 11, &[&[2, 3, 4], &[3, 2, 4]], &[18, 12]).bytes();
    let (first, second) = (file(1, &words), narrow(1, (2, 3), &words));
    assert_eq!(converted(&sheet, &first), Ok(second.clone()));
    assert_eq!(converted(&sheet, &second), Ok(first));
}

#[test]
fn refusals_in_order() {
    let good = page_a();
    let bad_file = file(2, &[9, 65_536, 4]);
    // A bad sheet, a bad file and a wide challenge, without room.
    let mut sheet = good.clone();
    sheet[27] = 5;
    for file in [&bad_file[..], &bad_file[..6], &[]] {
        refused(&sheet, file, 3, 11);
        refused(&sheet[..27], file, 3, 9);
        refused(&[], file, 3, 2);
        refused(&good, file, 3, 12);
        refused(&good, file, 60, 12);
    }
    let wide = file(1, &[9, 65_536, 4]);
    refused(&good, &wide, 3, 15);
    refused(&good, &wide, 60, 15);
    refused(&good, &file(1, &[9, 65_535, 4]), 3, 22);
    // Other versions, and records of the other version or of another sheet.
    for bytes in [file(1, &[9, 3, 4]), narrow(1, (1, 1), &[9, 3, 4])] {
        for version in [0, 3, 255] {
            let mut other = bytes.clone();
            other[4] = version;
            refused(&good, &other, 3, 12);
            refused(&good, &other, 60, 12);
        }
        let mut other = bytes.clone();
        other[4] = 3 - other[4];
        refused(&good, &other, 60, 12);
        for length in 0..bytes.len() {
            refused(&good, &bytes[..length], 60, 12);
        }
        refused(&good, &[bytes, vec![0]].concat(), 60, 12);
    }
    refused(&good, &file(513, &[9, 3, 4].repeat(513)), 9000, 12);
    refused(&good, &narrow(513, (1, 1), &[9, 3, 4].repeat(513)), 9000, 12);
}

#[test]
fn a_converted_file_takes_more_rounds() {
    let sheet = page_a();
    for (bytes, record) in [(file(4, &EXAMPLE), 10), (narrow(4, (1, 1), &EXAMPLE), 12)] {
        let mut buffer = [0xAA; 90];
        let used = convert(&sheet, &bytes, &mut buffer).unwrap() as u64;
        assert_eq!(used, 7 + 4 * record);
        let next = round(&[9], 10, &[9]);
        let used = append(&sheet, &mut buffer, used, &next).unwrap();
        assert_eq!(used, 7 + 5 * record);
        assert_eq!(read(&sheet, &buffer[..used as usize], 4), Ok(next));
    }
}

#[test]
fn the_reason_moves_with_the_response_only() {
    let lines = |words: &[u32; 3]| {
        let first = file(1, words);
        let second = converted(&page_a(), &first).unwrap();
        [first, second].map(|bytes| reason(&page_a(), &bytes))
    };
    for (words, line) in [
        ([9, 3, 4], "accepted\n"),
        ([9, 1, 2], "rejected 0 4 2\n"),
        ([5, 0, 0], "refused 14 7\n"),
        ([9, 11, 4], "refused 15 11\n"),
    ] {
        assert_eq!(lines(&words), [line, line]);
    }
    assert_eq!(lines(&[9, 3, 11]), ["refused 16 15\n", "refused 16 13\n"]);
}
