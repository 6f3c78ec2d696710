//! Refusals 2 to 11, 14 to 16, 18 to 20 and 26 of the calls on OR rounds.

use judge::load;
use judge::or_proof::*;

use crate::tools::*;

/// A good round on `two_bases`.
fn good() -> OrRound {
    or_round([&[9], &[16]], 5, 3, [&[4], &[3]])
}

/// For each number from 2 to 11, a sheet that is refused so.
pub fn refused_sheets() -> Vec<(u32, Vec<u8>)> {
    let good = exponent(23, 11, 11, &[&[2]], &[13]);
    let with = |change: fn(&mut Raw)| {
        let mut raw = good.clone();
        change(&mut raw);
        raw.bytes()
    };
    let sheets = vec![
        (2, with(|raw| raw.mark = *b"HON")),
        (3, with(|raw| raw.version = 2)),
        (4, with(|raw| raw.kind = 3)),
        (5, with(|raw| raw.modulus = 2)),
        (6, with(|raw| raw.order = 1)),
        (7, with(|raw| raw.rows = 0)),
        (8, with(|raw| raw.challenges = 12)),
        (9, with(|raw| raw.words.push(1))),
        (10, with(|raw| raw.words[0] = 5)),
        (11, with(|raw| raw.words[1] = 5)),
    ];
    for (number, sheet) in &sheets {
        assert_eq!(load(sheet), Err(*number));
    }
    sheets
}

#[test]
fn the_lowest_number_of_both_sheets_is_given() {
    let [first, second] = two_bases();
    let refused = |sheets: [&[u8]; 2], number| {
        assert_eq!(judge(sheets, &good()), OrVerdict::Refused(number));
        assert_eq!(extract(sheets, &good(), &good()), Err(number));
    };
    for (number, bad) in refused_sheets() {
        refused([&bad, &second], number);
        refused([&first, &bad], number);
        for (other, worse) in refused_sheets() {
            refused([&bad, &worse], number.min(other));
        }
        // A refused sheet comes before two counts that differ.
        refused([&bad, &page_g()], number);
        refused([&page_g(), &bad], number);
    }
}

#[test]
fn different_counts_are_26() {
    let [first, second] = two_bases();
    let root = page_g();
    // Every value of the round is refused as well.
    let bad = or_round([&[0], &[0]], 99, 99, [&[99], &[99]]);
    for sheets in [[&first[..], &root], [&root, &first], [&root, &second]] {
        assert_eq!(judge(sheets, &bad), OrVerdict::Refused(26));
        assert_eq!(extract(sheets, &bad, &bad), Err(26));
    }
    // m and q may differ where the counts do not.
    let sheets = base_and_root();
    assert_eq!(judge(lent(&sheets), &bad), OrVerdict::Refused(14));
}

#[test]
fn judging_refuses_in_order() {
    let sheets = two_bases();
    let refused = |numbers: [u32; 6], number| {
        let [t0, t1, c, c0, r0, r1] = numbers;
        let round = or_round([&[t0], &[t1]], c, c0, [&[r0], &[r1]]);
        assert_eq!(judge(lent(&sheets), &round), OrVerdict::Refused(number));
    };
    // One flaw is mended at a time, on each side.
    refused([5, 5, 11, 11, 11, 11], 14);
    refused([5, 16, 11, 11, 11, 11], 14);
    refused([9, 5, 11, 11, 11, 11], 14);
    refused([9, 0, 11, 11, 11, 11], 14);
    refused([23, 16, 11, 11, 11, 11], 14);
    refused([9, 16, 11, 11, 11, 11], 15);
    refused([9, 16, 11, 10, 11, 11], 15);
    refused([9, 16, 10, 11, 11, 11], 15);
    refused([9, 16, u32::MAX, 10, 4, 3], 15);
    refused([9, 16, 0, u32::MAX, 4, 3], 15);
    refused([9, 16, 10, 10, 11, 11], 16);
    refused([9, 16, 10, 10, 11, 10], 16);
    refused([9, 16, 10, 10, 10, 11], 16);
    refused([9, 16, 10, 10, 10, u32::MAX], 16);
}

#[test]
fn each_side_is_tested_by_its_own_sheet() {
    // 5 is an element of neither. 33 and 6 are numbers of the root only, 0
    // is a slot of the base only.
    let sheets = base_and_root();
    let verdict = |t: [u32; 2], c, c0, r: [u32; 2]| {
        let round = or_round([&t[..1], &t[1..]], c, c0, [&r[..1], &r[1..]]);
        judge(lent(&sheets), &round)
    };
    assert_eq!(verdict([33, 9], 4, 3, [4, 6]), OrVerdict::Refused(14));
    assert_eq!(verdict([9, 33], 4, 3, [4, 6]), OrVerdict::Accepted);
    assert_eq!(verdict([9, 33], 5, 3, [4, 6]), OrVerdict::Refused(15));
    assert_eq!(verdict([9, 33], 4, 5, [4, 6]), OrVerdict::Refused(15));
    assert_eq!(verdict([9, 33], 4, 3, [24, 6]), OrVerdict::Refused(16));
    assert_eq!(verdict([9, 33], 4, 3, [4, 0]), OrVerdict::Refused(16));
    assert_eq!(verdict([9, 33], 4, 3, [4, 7]), OrVerdict::Refused(16));
    let rejected = OrVerdict::Rejected([rows_of(1), rows_of(0)]);
    assert_eq!(verdict([9, 33], 4, 3, [0, 6]), rejected);
}

#[test]
fn extracting_refuses_in_order() {
    let sheets = two_bases();
    let refused = |one: [u32; 6], other: [u32; 6], number| {
        let [one, other] = [one, other]
            .map(|[t0, t1, c, c0, r0, r1]| or_round([&[t0], &[t1]], c, c0, [&[r0], &[r1]]));
        assert_eq!(extract(lent(&sheets), &one, &other), Err(number));
        assert_eq!(extract(lent(&sheets), &other, &one), Err(number));
    };
    // One flaw is mended at a time, each in the round that it comes from.
    refused([5, 16, 11, 11, 11, 11], [9, 16, 11, 11, 11, 11], 14);
    refused([9, 5, 11, 11, 11, 11], [9, 16, 11, 11, 11, 11], 14);
    refused([8, 16, 11, 3, 11, 11], [9, 18, 5, 3, 11, 11], 15);
    refused([8, 16, 5, 11, 11, 11], [9, 18, 5, 3, 11, 11], 15);
    refused([8, 16, 5, 3, 11, 3], [9, 18, 5, 3, 4, 3], 16);
    refused([8, 16, 5, 3, 4, 11], [9, 18, 5, 3, 4, 3], 16);
    refused([8, 16, 5, 3, 4, 3], [9, 16, 5, 3, 4, 3], 18);
    refused([9, 18, 5, 3, 4, 3], [9, 16, 5, 3, 4, 3], 18);
    refused([9, 16, 5, 3, 4, 2], [9, 16, 5, 9, 2, 2], 19);
    refused([9, 16, 5, 3, 4, 3], [9, 16, 5, 3, 4, 3], 19);
    // Only c counts for 19: here c0 and c1 differ and both are accepted.
    refused([9, 16, 5, 3, 4, 3], [9, 16, 5, 9, 2, 1], 19);
}

#[test]
fn either_side_of_either_round_makes_20() {
    let sheets = two_bases();
    let right =
        [or_round([&[9], &[16]], 5, 3, [&[4], &[3]]), or_round([&[9], &[16]], 0, 9, [&[2], &[3]])];
    let given = extract(lent(&sheets), &right[0], &right[1]);
    assert_eq!(given.map(|given| given.side), Ok(0));
    for which in 0..2 {
        for side in 0..2 {
            let mut rounds = right.clone();
            rounds[which].responses[side][0] += 1;
            let given = extract(lent(&sheets), &rounds[0], &rounds[1]);
            assert_eq!(given, Err(20));
        }
    }
}

#[test]
fn a_later_row_makes_18() {
    let tall = |z| exponent(23, 11, 11, &[&[2], &[2]], &[z; 2]).bytes();
    let sheets = [tall(13), tall(1)];
    let one = or_round([&[9, 9], &[9, 9]], 3, 3, [&[4], &[5]]);
    let mut other = or_round([&[9, 9], &[9, 9]], 1, 1, [&[1], &[5]]);
    let given = extract(lent(&sheets), &one, &other);
    assert_eq!(given.map(|given| given.witness), Ok(eight(&[7])));
    for side in 0..2 {
        other.commitments[side][1] = 8;
        assert_eq!(extract(lent(&sheets), &one, &other), Err(18));
        other.commitments[side][1] = 9;
    }
}
