//! All the rows that differ, and no other: of a sheet of eight rows each of the 255 masks.

use crate::pages::{page_a, round};
use dimkhoros::{
    Header, Instance, LONGEST_FILE, LONGEST_REASON, LONGEST_TEXT, MOST_ROUNDS, OrRound, OrVerdict,
    Pair, ROOT, Round, RoundWriter, Rows, Values, Verdict, Verifier, mark, places, reason,
};

/// A sheet of so many rows and one column, with page A's numbers.
fn sheet(rows: u32) -> Instance {
    let mut values = *page_a().values();
    values.header.rows = rows;
    for row in 0..rows as usize {
        values.entries[row][0] = 2;
        values.statement[row] = 13;
    }
    Instance::encode(&values).unwrap()
}

/// The round with the challenge 0 and the response 4, whose image is 16 in each row: t is 4 in the rows of a mask and 16 in the
/// others. Behind the rows in use it has 4, which is not read.
fn differing(mask: u32) -> Round {
    let commitment = core::array::from_fn(|row| if mask >> row & 1 == 1 { 4 } else { 16 });
    Round { commitment, ..round(0, 0, 4) }
}

/// The file of these rounds.
fn file(instance: &Instance, rounds: &[Round]) -> Vec<u8> {
    let mut buffer = vec![0; LONGEST_FILE];
    let mut writer = RoundWriter::start(instance, 1, &mut buffer).unwrap();
    for round in rounds {
        writer.append(round).unwrap();
    }
    writer.file().bytes().to_vec()
}

/// A verdict as the marker's line has it.
fn words(mask: u32) -> String {
    let rows = (0..8).filter(|row| mask >> row & 1 == 1);
    rows.fold(String::from("rejected"), |line, row| line + &format!(" {row}"))
}

/// The reason's line.
fn reasons(mask: u32) -> String {
    let rows = (0..8).filter(|row| mask >> row & 1 == 1);
    rows.fold(String::from("rejected"), |line, row| line + &format!(" {row} 16 4")) + "\n"
}

#[test]
fn every_mask_is_told_in_a_session_and_out_of_one() {
    let instance = sheet(8);
    assert_eq!(instance.judge(&differing(0)), Ok(Verdict::Accepted));
    for mask in 1..256 {
        let (round, rejected) =
            (differing(mask), Verdict::Rejected { rows: Rows::from_mask(mask) });
        assert_eq!(instance.judge(&round), Ok(rejected));
        let vic = Verifier::new().take_commitment(&instance, &round.commitment).unwrap();
        let vic = vic.take_challenge(&instance, 0).unwrap();
        let (_, verdict) = vic.take_response(&instance, &round.response).unwrap();
        assert_eq!(verdict, rejected);
    }
}

#[test]
fn every_mask_is_told_by_the_marker_and_the_reason() {
    let instance = sheet(8);
    for mask in 1..256 {
        let file = file(&instance, &[differing(0), differing(mask)]);
        let text = format!("rounds 2\n0 accepted\n1 {}\nfail\n", words(mask));
        assert_eq!(mark(instance.bytes(), &file, &[1], &mut [0; LONGEST_TEXT]), text);
        let file = self::file(&instance, &[differing(mask), differing(0)]);
        let line = reasons(mask);
        assert_eq!(reason(instance.bytes(), &file, &mut [0; LONGEST_REASON]), line);
    }
    assert_eq!(reasons(0b101), "rejected 0 16 4 2 16 4\n");
    assert_eq!(words(0b1000_0101), "rejected 0 2 7");
}

#[test]
fn rows_beyond_those_of_the_sheet_are_never_told() {
    for rows in 1..=8 {
        let instance = sheet(rows);
        for mask in [1, 0x55, 0xaa, 0x80, 0xff] {
            let seen = mask & ((1 << rows) - 1);
            let expected = match seen {
                0 => Verdict::Accepted,
                _ => Verdict::Rejected { rows: Rows::from_mask(seen) },
            };
            assert_eq!(instance.judge(&differing(mask)), Ok(expected));
        }
    }
}

#[test]
fn each_side_of_the_or_proof_has_its_own_rows() {
    let (first, second) = (sheet(3), sheet(8));
    let pair = Pair::new(&first, &second).unwrap();
    for (one, two) in (0..8).flat_map(|one| (0..256).map(move |two| (one, two))) {
        let round = OrRound {
            commitment0: differing(one).commitment,
            commitment1: differing(two).commitment,
            response0: places([4]),
            response1: places([4]),
            challenge: 0,
            challenge0: 0,
        };
        let (first, second) = (Rows::from_mask(one), Rows::from_mask(two));
        let expected = match one | two {
            0 => OrVerdict::Accepted,
            _ => OrVerdict::Rejected { first, second },
        };
        assert_eq!(pair.judge(&round), Ok(expected));
    }
}

#[test]
fn the_longest_text_and_the_longest_line_fit() {
    let instance = sheet(8);
    let file = file(&instance, &[differing(255); MOST_ROUNDS]);
    let mut text = [0xee; LONGEST_TEXT];
    let marked = mark(instance.bytes(), &file, &[64], &mut text);
    assert_eq!(marked.lines().count(), MOST_ROUNDS + 2);
    assert!(marked.ends_with("511 rejected 0 1 2 3 4 5 6 7\nfail\n"));
    // `rounds 512`, the lines of rounds 0 to 9, 10 to 99 and 100 to 511, and `fail`.
    let length = 11 + 10 * 27 + 90 * 28 + 412 * 29 + 5;
    assert_eq!((marked.len(), length), (14_754, 14_754));
    assert!(text[length..].iter().all(|byte| *byte == 0xee));

    // Both sides of each row have ten digits: m is 2^32 - 1, [r] is its largest unit and t · z^0 one of ten digits.
    let header =
        Header { kind: ROOT, modulus: u32::MAX, order: 65_537, challenges: 2, rows: 8, columns: 8 };
    let values = Values { header, statement: [1; 8], ..Values::default() };
    let roots = Instance::encode(&values).unwrap();
    let round = Round { commitment: [u32::MAX - 2; 8], challenge: 0, response: [u32::MAX - 1; 8] };
    let file = self::file(&roots, &[round]);
    let mut text = [0; LONGEST_REASON];
    let line = reason(roots.bytes(), &file, &mut text);
    assert!(line.starts_with("rejected 0 4294967294 4294967293 1 4294967294 "), "{line}");
    assert_eq!(line.len(), LONGEST_REASON);
}

#[test]
fn rows_rise_and_are_counted() {
    for mask in (0..256).chain([u32::MAX]) {
        let rows = Rows::from_mask(mask);
        let numbers: Vec<usize> = rows.into_iter().collect();
        assert!(numbers.windows(2).all(|pair| pair[0] < pair[1]));
        assert_eq!(numbers.iter().map(|row| 1u32 << row).sum::<u32>(), rows.mask());
        assert_eq!(rows.into_iter().len(), numbers.len());
        assert_eq!(rows.first(), numbers.first().copied());
        assert_eq!(rows.is_empty(), numbers.is_empty());
        assert!((0..40).all(|row| rows.contains(row) == numbers.contains(&row)));
    }
    assert_eq!(format!("{:?}", Rows::from_mask(0b101)), "{0, 2}");
    assert_eq!(Rows::default().to_string(), "no row");
}
