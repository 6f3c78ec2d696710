//! The reason's line where several values are wrong.

use judge::*;

use crate::tools::*;

/// Mends one flaw.
type Mend = fn(&mut Raw);

#[test]
fn a_sheet_with_many_faults() {
    let mut raw = Raw {
        mark: *b"HON",
        version: 2,
        kind: 3,
        modulus: 2,
        order: 1,
        challenges: 1,
        rows: 9,
        columns: 0,
        words: vec![5; 9],
    };
    // A short header comes before its mark.
    assert_eq!(reason(&raw.bytes()[..19], &[]), "refused 2 length 19\n");
    let mends: [(&str, Mend); 15] = [
        ("refused 2 0\n", |raw| raw.mark = *b"HOM"),
        ("refused 3 3\n", |raw| raw.version = 1),
        ("refused 4 5\n", |raw| raw.kind = 1),
        ("refused 5 6\n", |raw| raw.modulus = 23),
        ("refused 6 10\n", |raw| raw.order = 11),
        ("refused 7 18\n", |raw| raw.rows = 2),
        // 7 comes before 8, though 14 comes before 19.
        ("refused 7 19\n", |raw| raw.columns = 2),
        ("refused 8 14\n", |raw| raw.challenges = 11),
        ("refused 9 length 56\n", |raw| raw.words.truncate(6)),
        ("refused 10 20\n", |raw| raw.words[0] = 2),
        ("refused 10 24\n", |raw| raw.words[1] = 3),
        ("refused 10 28\n", |raw| raw.words[2] = 3),
        ("refused 10 32\n", |raw| raw.words[3] = 2),
        ("refused 11 36\n", |raw| raw.words[4] = 18),
        ("refused 11 40\n", |raw| raw.words[5] = 12),
    ];
    for (line, mend) in mends {
        assert_eq!(reason(&raw.bytes(), b"XYZ"), line);
        mend(&mut raw);
    }
    // Now the file's own fault shows.
    assert_eq!(reason(&raw.bytes(), b"XYZ"), "refused 12 length 3\n");
}

#[test]
fn a_file_with_many_faults() {
    // Two rows and two columns of kind 1 with the witness (1, 2).
    let sheet = exponent(23, 11, 11, &[&[2, 3], &[3, 2]], &[18, 12]).bytes();
    let mut bytes = b"RNX\x00\x03\x02\x01".to_vec();
    let words: [u32; 5] = [5, 5, 11, 11, 11];
    let step = |bytes: &mut Vec<u8>, line: &str, place: usize, value: u8| {
        assert_eq!(reason(&sheet, bytes), line);
        bytes[place] = value;
    };
    assert_eq!(reason(&sheet, &bytes[..6]), "refused 12 length 6\n");
    step(&mut bytes, "refused 12 0\n", 2, b'D');
    step(&mut bytes, "refused 12 3\n", 4, 1);
    step(&mut bytes, "refused 12 5\n", 5, 0);
    bytes.extend(words.iter().flat_map(|word| word.to_be_bytes()));
    bytes.push(0);
    // The count 0 is for 13, but the length is 12.
    step(&mut bytes, "refused 12 length 28\n", 6, 0);
    step(&mut bytes, "refused 12 length 28\n", 6, 1);
    bytes.pop();
    step(&mut bytes, "refused 14 7\n", 10, 1);
    step(&mut bytes, "refused 14 11\n", 14, 1);
    step(&mut bytes, "refused 15 15\n", 18, 1);
    step(&mut bytes, "refused 16 19\n", 22, 1);
    step(&mut bytes, "refused 16 23\n", 26, 2);
    step(&mut bytes, "accepted\n", 26, 0);
}

#[test]
fn round_0_of_kind_2_with_many_faults() {
    let sheet = root(35, 5, 5, &[32, 32]).bytes();
    let line = |words: [u32; 5]| reason(&sheet, &file(1, &words));
    assert_eq!(line([0, 5, 5, 7, 7]), "refused 14 7\n");
    assert_eq!(line([33, 5, 5, 7, 7]), "refused 14 11\n");
    assert_eq!(line([33, 33, 5, 7, 7]), "refused 15 15\n");
    assert_eq!(line([33, 33, 1, 7, 7]), "refused 16 19\n");
    assert_eq!(line([33, 33, 1, 6, 7]), "refused 16 23\n");
    assert_eq!(line([33, 33, 1, 6, 3]), "rejected 1 33 6\n");
    assert_eq!(line([33, 33, 1, 6, 6]), "accepted\n");
}
