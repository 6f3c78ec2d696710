//! Refusals 14 to 16 and 18 to 20 of the calls on rounds.

use judge::*;

use crate::tools::*;

/// Two rows and two columns of kind 1 with the witness (1, 2).
fn square() -> Vec<u8> {
    exponent(23, 11, 11, &[&[2, 3], &[3, 2]], &[18, 12]).bytes()
}

#[test]
fn judging_refuses_in_order() {
    let sheet = square();
    let verdict = |t: [u32; 2], c, r: [u32; 2]| judge(&sheet, &round(&t, c, &r));
    assert_eq!(verdict([1, 5], 11, [1, 11]), Verdict::Refused(14));
    assert_eq!(verdict([0, 1], 11, [1, 11]), Verdict::Refused(14));
    assert_eq!(verdict([1, 23], 11, [1, 11]), Verdict::Refused(14));
    assert_eq!(verdict([1, 1], 11, [1, 11]), Verdict::Refused(15));
    assert_eq!(verdict([1, 1], u32::MAX, [1, 11]), Verdict::Refused(15));
    assert_eq!(verdict([1, 1], 10, [1, 11]), Verdict::Refused(16));
    assert_eq!(verdict([1, 1], 10, [u32::MAX, 1]), Verdict::Refused(16));
    // 18 against 18^10 = 9, and 12 against 12^10 = 2.
    assert_eq!(verdict([1, 1], 10, [1, 2]), rejected(&[0, 1]));
    assert_eq!(verdict([1, 1], 1, [1, 2]), Verdict::Accepted);
}

#[test]
fn judging_kind_2_refuses_in_order() {
    let sheet = page_g();
    let verdict = |t, c, r| judge(&sheet, &round(&[t], c, &[r]));
    assert_eq!(verdict(5, 5, 7), Verdict::Refused(14));
    assert_eq!(verdict(33, 5, 7), Verdict::Refused(15));
    assert_eq!(verdict(33, 1, 7), Verdict::Refused(16));
    assert_eq!(verdict(33, 1, 0), Verdict::Refused(16));
    assert_eq!(verdict(33, 1, 41), Verdict::Refused(16));
    assert_eq!(verdict(33, 1, 3), rejected(&[0]));
    assert_eq!(verdict(33, 1, 6), Verdict::Accepted);
}

#[test]
fn unused_places_of_a_round_are_not_read() {
    for (sheet, t, c, r) in [(page_a(), 9, 3, 4), (page_g(), 33, 1, 6)] {
        let full = Round {
            commitment: eight_with(&[t], u32::MAX),
            challenge: c,
            response: eight_with(&[r], u32::MAX),
        };
        assert_eq!(judge(&sheet, &full), Verdict::Accepted);
        assert_eq!(simulate(&sheet, c, &full.response), Ok(eight(&[t])));
    }
    let first =
        Round { commitment: eight_with(&[9], 1), challenge: 3, response: eight_with(&[4], 50) };
    let second =
        Round { commitment: eight_with(&[9], 0), challenge: 1, response: eight_with(&[1], 60) };
    assert_eq!(extract(&page_a(), &first, &second), Ok(eight(&[7])));
}

#[test]
fn simulating_refuses_in_order() {
    let sheet = square();
    assert_eq!(simulate(&sheet, 11, &eight(&[1, 11])), Err(15));
    assert_eq!(simulate(&sheet, 10, &eight(&[1, 11])), Err(16));
    assert!(simulate(&sheet, 10, &eight(&[1, 10])).is_ok());
    assert_eq!(simulate(&page_g(), 5, &eight(&[7])), Err(15));
    assert_eq!(simulate(&page_g(), 4, &eight(&[7])), Err(16));
    assert!(simulate(&page_g(), 4, &eight(&[6])).is_ok());
}

#[test]
fn extracting_refuses_in_order() {
    let sheet = page_a();
    let number = |one: (u32, u32, u32), other: (u32, u32, u32)| {
        let first = round(&[one.0], one.1, &[one.2]);
        let second = round(&[other.0], other.1, &[other.2]);
        let there = extract(&sheet, &first, &second);
        let back = extract(&sheet, &second, &first);
        assert_eq!(there, back);
        there.err()
    };
    // One flaw is mended at a time, each in the round it comes from.
    assert_eq!(number((9, 11, 11), (5, 11, 4)), Some(14));
    assert_eq!(number((9, 11, 11), (2, 11, 4)), Some(15));
    assert_eq!(number((9, 3, 11), (2, 11, 4)), Some(15));
    assert_eq!(number((9, 3, 11), (2, 3, 4)), Some(16));
    assert_eq!(number((9, 3, 5), (2, 3, 11)), Some(16));
    assert_eq!(number((9, 3, 5), (2, 3, 5)), Some(18));
    assert_eq!(number((9, 3, 5), (9, 3, 5)), Some(19));
    assert_eq!(number((9, 3, 4), (9, 3, 4)), Some(19));
    assert_eq!(number((9, 3, 5), (9, 1, 1)), Some(20));
    assert_eq!(number((9, 3, 4), (9, 1, 2)), Some(20));
    assert_eq!(number((9, 3, 4), (9, 1, 1)), None);
}

#[test]
fn extracting_kind_2_refuses_in_order() {
    let sheet = page_g();
    let number = |one: (u32, u32, u32), other: (u32, u32, u32)| {
        let first = round(&[one.0], one.1, &[one.2]);
        let second = round(&[other.0], other.1, &[other.2]);
        extract(&sheet, &first, &second).err()
    };
    assert_eq!(number((33, 5, 7), (7, 1, 6)), Some(14));
    assert_eq!(number((33, 5, 7), (1, 1, 6)), Some(15));
    assert_eq!(number((33, 1, 7), (1, 1, 6)), Some(16));
    assert_eq!(number((33, 1, 3), (1, 1, 6)), Some(18));
    assert_eq!(number((33, 1, 3), (33, 1, 6)), Some(19));
    assert_eq!(number((33, 1, 3), (33, 3, 24)), Some(20));
    assert_eq!(number((33, 1, 6), (33, 3, 24)), None);
}

#[test]
fn a_later_row_alone_makes_18_and_20() {
    let sheet = square();
    let first = round(&[1, 1], 1, &[1, 2]);
    let second = round(&[1, 1], 2, &[2, 4]);
    assert_eq!(extract(&sheet, &first, &second), Ok(eight(&[1, 2])));
    let other = round(&[1, 2], 2, &[2, 4]);
    assert_eq!(extract(&sheet, &first, &other), Err(18));
    let first = round(&[1, 2], 1, &[1, 2]);
    assert_eq!(judge(&sheet, &first), rejected(&[1]));
    assert_eq!(extract(&sheet, &first, &other), Err(20));
}
