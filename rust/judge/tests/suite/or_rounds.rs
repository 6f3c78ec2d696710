//! OR rounds and what they give, with numbers worked by hand.

use judge::or_proof::*;

use crate::tools::*;

const ACCEPTED: OrVerdict = OrVerdict::Accepted;

/// The verdict on a round of two one by one sheets whose sides these are.
fn with(first: bool, second: bool) -> OrVerdict {
    OrVerdict::Rejected([first, second].map(|differs| rows_of(differs.into())))
}

/// A round on two one by one sheets, as t0, t1, c, c0, r0, r1.
fn short(numbers: [u32; 6]) -> OrRound {
    let [t0, t1, c, c0, r0, r1] = numbers;
    or_round([&[t0], &[t1]], c, c0, [&[r0], &[r1]])
}

/// The witness of a one by one sheet.
fn found(side: u32, witness: u32) -> Result<OrWitness, u32> {
    Ok(OrWitness { side, witness: eight(&[witness]) })
}

#[test]
fn two_bases_are_judged() {
    // c1 is 2. Side 0 has 2^4 = 16 = 9 · 13^3 and side 1 has 3^3 = 4 =
    // 16 · 12^2.
    let sheets = two_bases();
    let verdict = |numbers| judge(lent(&sheets), &short(numbers));
    assert_eq!(verdict([9, 16, 5, 3, 4, 3]), ACCEPTED);
    // c is below c0, and c1 is 2 again in the first and 9 in the second.
    assert_eq!(verdict([9, 16, 0, 9, 2, 3]), ACCEPTED);
    assert_eq!(verdict([9, 16, 1, 3, 4, 9]), ACCEPTED);
    // c and c0 are equal, so c1 is 0 and 3^6 = 16.
    assert_eq!(verdict([9, 16, 3, 3, 4, 6]), ACCEPTED);
    // Each number counts.
    let (first, second, both) = (with(true, false), with(false, true), with(true, true));
    assert_eq!(verdict([8, 16, 5, 3, 4, 3]), first);
    assert_eq!(verdict([9, 18, 5, 3, 4, 3]), second);
    assert_eq!(verdict([9, 16, 6, 3, 4, 3]), second);
    assert_eq!(verdict([9, 16, 5, 3, 5, 3]), first);
    assert_eq!(verdict([9, 16, 5, 3, 4, 2]), second);
    assert_eq!(verdict([9, 16, 5, 3, 5, 2]), both);
    // Another c0 makes another c1. 3^3 = 4, and 16 · 12 = 8.
    assert_eq!(verdict([9, 16, 5, 4, 4, 3]), both);
    // The sheets have an order. Side 0 has 12 against 4, side 1 has 8 against
    // 13.
    let other_way = [&sheets[1][..], &sheets[0][..]];
    assert_eq!(judge(other_way, &short([9, 16, 5, 3, 4, 3])), both);
    assert_eq!(judge(other_way, &short([16, 9, 5, 2, 3, 4])), ACCEPTED);
}

#[test]
fn a_base_and_a_root_are_judged() {
    // K is 5, below q. c1 is 1 in the first and 3 in the second.
    let sheets = base_and_root();
    let verdict = |numbers| judge(lent(&sheets), &short(numbers));
    assert_eq!(verdict([9, 33, 4, 3, 4, 6]), ACCEPTED);
    assert_eq!(verdict([9, 33, 1, 3, 4, 24]), ACCEPTED);
    // c0 is 4 and c1 is 1, not −4 mod 11.
    assert_eq!(verdict([9, 33, 0, 4, 0, 6]), ACCEPTED);
    assert_eq!(verdict([9, 33, 0, 4, 0, 24]), with(false, true));
    assert_eq!(verdict([9, 33, 4, 3, 5, 6]), with(true, false));
    // 24^5 mod 35 is 19, and 33 · 32 mod 35 is 6.
    assert_eq!(verdict([9, 33, 4, 3, 5, 24]), with(true, true));
}

#[test]
fn different_c0_give_the_witness_of_side_0() {
    let sheets = two_bases();
    let given = |one, other| extract(lent(&sheets), &short(one), &short(other));
    // 9 · (3 − 9) = 1 mod 11, and 9 · (4 − 2) = 7.
    let (one, other) = ([9, 16, 5, 3, 4, 3], [9, 16, 0, 9, 2, 3]);
    assert_eq!(given(one, other), found(0, 7));
    assert_eq!(given(other, one), found(0, 7));
    // The c1 differ too, by 2 and 9.
    let other = [9, 16, 7, 9, 2, 9];
    assert_eq!(given(one, other), found(0, 7));
    assert_eq!(given(other, one), found(0, 7));
}

#[test]
fn equal_c0_give_the_witness_of_side_1() {
    let sheets = two_bases();
    let given = |one, other| extract(lent(&sheets), &short(one), &short(other));
    // The c1 are 2 and 4. 5 · (2 − 4) = 1 mod 11, and 5 · (3 − 0) = 4.
    let (one, other) = ([9, 16, 5, 3, 4, 3], [9, 16, 7, 3, 4, 0]);
    assert_eq!(given(one, other), found(1, 4));
    assert_eq!(given(other, one), found(1, 4));
    // The c1 are 2 and 9, with c below c0 in the second.
    let other = [9, 16, 1, 3, 4, 9];
    assert_eq!(given(one, other), found(1, 4));
    assert_eq!(given(other, one), found(1, 4));
}

#[test]
fn a_base_and_a_root_give_either_witness() {
    let sheets = base_and_root();
    let given = |one, other| extract(lent(&sheets), &short(one), &short(other));
    let one = [9, 33, 4, 3, 4, 6];
    // The c1 are 1 and 3, as on page H, though the c are 4 and 1.
    let other = [9, 33, 1, 3, 4, 24];
    assert_eq!(given(one, other), found(1, 2));
    assert_eq!(given(other, one), found(1, 2));
    let other = [9, 33, 0, 4, 0, 6];
    assert_eq!(given(one, other), found(0, 7));
    assert_eq!(given(other, one), found(0, 7));
}

#[test]
fn unused_places_are_not_read() {
    let sheets = base_and_root();
    let filled = |numbers, rest| {
        let mut round = short(numbers);
        for side in 0..2 {
            round.commitments[side][1..].fill(rest);
            round.responses[side][1..].fill(rest);
        }
        round
    };
    let one = filled([9, 33, 4, 3, 4, 6], u32::MAX);
    assert_eq!(judge(lent(&sheets), &one), ACCEPTED);
    let other = filled([9, 33, 1, 3, 4, 24], 5);
    assert_eq!(extract(lent(&sheets), &one, &other), found(1, 2));
    let other = filled([9, 33, 0, 4, 0, 6], 5);
    assert_eq!(extract(lent(&sheets), &one, &other), found(0, 7));
}

#[test]
fn one_sheet_may_stand_on_both_sides() {
    let sheets = [page_a(), page_a()];
    // Both commitments are 2^5. c0 is 3 and c1 is 1.
    let one = short([9, 9, 4, 3, 4, 1]);
    assert_eq!(judge(lent(&sheets), &one), ACCEPTED);
    let other = short([9, 9, 6, 3, 4, 4]);
    assert_eq!(extract(lent(&sheets), &one, &other), found(1, 7));
    let other = short([9, 9, 2, 1, 1, 1]);
    assert_eq!(extract(lent(&sheets), &one, &other), found(0, 7));
}
