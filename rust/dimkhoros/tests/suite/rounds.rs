//! Rounds are judged, simulated and extracted from, and round files read and written.

use crate::pages::{PLANS, made, page_a, round};
use dimkhoros::{
    EMPTY_FILE, Instance, LONGEST_FILE, MOST_ROUNDS, Refusal, Round, RoundFile, RoundWriter, Rows,
    Values, Verdict, places,
};

#[test]
fn a_verdict_names_the_rows_that_differ() {
    let instance = made(&PLANS[3]).unwrap();
    let right = Round { commitment: places([9, 6]), challenge: 3, response: places([4]) };
    assert_eq!(instance.judge(&right), Ok(Verdict::Accepted));
    for (commitment, mask) in [([6, 6], 0b01), ([9, 9], 0b10), ([6, 9], 0b11)] {
        let round = Round { commitment: places(commitment), ..right };
        let rows = Rows::from_mask(mask);
        assert_eq!(instance.judge(&round), Ok(Verdict::Rejected { rows }));
    }
}

#[test]
fn the_witness_is_the_same_either_way_round() {
    let a = page_a();
    assert_eq!(a.extract(&round(9, 3, 4), &round(9, 1, 1)), Ok(places([7])));
    assert_eq!(a.extract(&round(9, 1, 1), &round(9, 3, 4)), Ok(places([7])));
    let root = made(&PLANS[5]).unwrap();
    assert_eq!(root.extract(&round(33, 1, 6), &round(33, 3, 24)), Ok(places([2])));
}

#[test]
fn simulated_rounds_are_all_accepted_rounds() {
    let a = page_a();
    for c in 0..11 {
        for r in 0..11 {
            let t = a.simulate(c, &places([r])).unwrap()[0];
            for other in 1..23 {
                let accepted = a.judge(&round(other, c, r)) == Ok(Verdict::Accepted);
                assert_eq!(accepted, other == t);
            }
        }
    }
}

#[test]
fn a_part_lies_in_the_callers_own_file() {
    let a = page_a();
    let mut buffer = [0; 100];
    let mut writer = RoundWriter::start(&a, 1, &mut buffer).unwrap();
    writer.append(&round(9, 3, 4)).unwrap();
    writer.append(&round(9, 1, 1)).unwrap();
    let bytes = writer.file().bytes().to_vec();
    let file = RoundFile::open(&a, &bytes).unwrap();
    assert_eq!(file.part(1).unwrap().as_ptr_range(), bytes[19..31].as_ptr_range());
    assert_eq!(file.part(2), Err(Refusal::RoundNumber));
    assert_eq!(file.part(usize::MAX), Err(Refusal::RoundNumber));
}

#[test]
fn commitments_are_compared_byte_for_byte() {
    let instance = made(&PLANS[4]).unwrap();
    let first = Round { commitment: places([12, 9]), challenge: 1, response: places([2, 1, 0]) };
    let second = Round { challenge: 2, response: places([0, 0, 7]), ..first };
    let last_byte = Round { commitment: places([12, 8]), ..first };
    let high_byte = Round { commitment: places([12, 9 + (1 << 24)]), ..first };
    let mut buffer = [0; 200];
    let mut writer = RoundWriter::start(&instance, 1, &mut buffer).unwrap();
    for round in [first, second, last_byte, high_byte] {
        writer.append(&round).unwrap();
    }
    let file = writer.file();
    for i in 0..4 {
        for j in 0..4 {
            let same = file.read(i).unwrap().commitment == file.read(j).unwrap().commitment;
            assert_eq!(file.same_commitment(i, j), Ok(same));
            assert_eq!(same, i == j || i + j == 1);
        }
        for beyond in [4, 65536, 1 << 32, usize::MAX] {
            assert_eq!(file.same_commitment(i, beyond), Err(Refusal::RoundNumber));
            assert_eq!(file.same_commitment(beyond, i), Err(Refusal::RoundNumber));
        }
    }
}

#[test]
fn only_the_count_and_the_record_are_written() {
    let a = page_a();
    let mut buffer = [0xee; 40];
    let mut writer = RoundWriter::start(&a, 1, &mut buffer).unwrap();
    writer.append(&round(9, 3, 4)).unwrap();
    let mut expected = [0xee; 40];
    expected[..19].copy_from_slice(b"RND\0\x01\0\x01\0\0\0\x09\0\0\0\x03\0\0\0\x04");
    assert_eq!(buffer, expected);
    let mut writer = RoundWriter::resume(&a, &mut buffer[..30], 19).unwrap();
    assert_eq!(writer.append(&round(9, 1, 1)), Err(Refusal::Buffer));
    assert_eq!(writer.file().count(), 1);
    assert_eq!(buffer, expected);
}

#[test]
fn bytes_that_are_no_file_are_refused() {
    let a = page_a();
    let mut buffer = *b"RND\0\x01\0\0";
    assert!(RoundWriter::resume(&a, &mut buffer, 7).is_ok());
    for used in [0, 6, 8, usize::MAX] {
        assert_eq!(RoundWriter::resume(&a, &mut buffer, used).unwrap_err(), Refusal::File);
    }
    assert_eq!(RoundFile::open(&a, &[]).unwrap_err(), Refusal::File);
    assert_eq!(RoundFile::open(&a, &vec![b'R'; 1 << 20]).unwrap_err(), Refusal::File);
    assert_eq!(RoundWriter::start(&a, 1, &mut []).unwrap_err(), Refusal::Buffer);
}

#[test]
fn the_longest_file_is_full() {
    let mut values = Values { statement: [1; 8], entries: [[1; 8]; 8], ..*page_a().values() };
    (values.header.rows, values.header.columns) = (8, 8);
    let instance = Instance::encode(&values).unwrap();
    let mut buffer = vec![0; LONGEST_FILE + 100];
    let mut writer = RoundWriter::start(&instance, 1, &mut buffer).unwrap();
    let numbered = |k| Round { commitment: [k; 8], challenge: k + 1, response: [k + 2; 8] };
    for k in 0..MOST_ROUNDS as u32 {
        writer.append(&numbered(k)).unwrap();
    }
    assert_eq!(writer.append(&numbered(0)), Err(Refusal::File));
    let file = writer.file();
    assert_eq!((file.count(), file.bytes().len()), (MOST_ROUNDS, LONGEST_FILE));
    assert!(file.rounds().eq((0..MOST_ROUNDS as u32).map(numbered)));
    assert_eq!(file.part(0).unwrap().as_ptr(), file.bytes()[EMPTY_FILE..].as_ptr());
}
