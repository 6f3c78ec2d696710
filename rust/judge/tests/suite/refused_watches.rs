//! Refusals 2 to 11, 14 to 16 and 21 of a watch, and watches made by hand.

use judge::watch::*;
use judge::*;

use crate::refused_or_rounds::refused_sheets;
use crate::tools::*;
use crate::watches::*;

/// A round that 14 to 16 refuse, in all its values.
fn bad() -> Round {
    round(&[5], 99, &[99])
}

/// A watch on page A's sheet that remembers these rounds, newest first. The
/// round in each place beyond them would be named and is not accepted.
fn holding(rounds: &[Round]) -> Watch {
    let mut watch = opened(&page_a());
    watch.count = rounds.len() as u32;
    watch.rounds = std::array::from_fn(|place| round(&[9], 99, &[99 + place as u32]));
    for (place, held) in watch.rounds.iter_mut().zip(rounds) {
        *place = held.clone();
    }
    watch
}

/// The watch after this round is remembered, with the older ones moved on.
fn moved(watch: &Watch, newest: Round) -> Watch {
    let mut next = watch.clone();
    for place in (1..63).rev() {
        next.rounds[place] = watch.rounds[place - 1].clone();
    }
    next.rounds[0] = newest;
    next.count = if watch.count < 63 { watch.count + 1 } else { 63 };
    next
}

/// The number, after a test that the rest of the answer is as for every
/// refusal. It is 0 if the call is not refused.
fn number(sheet: &[u8], watch: &Watch, round: &Round) -> u32 {
    let (answer, after) = take_round(sheet, watch.clone(), round);
    match answer.verdict {
        Verdict::Refused(number) => {
            assert_eq!(answer, no_name(Verdict::Refused(number)));
            assert_eq!(&after, watch);
            number
        }
        _ => 0,
    }
}

#[test]
fn a_refused_opening_hands_back_a_watch_of_no_bytes() {
    for (number, sheet) in refused_sheets() {
        let (answer, watch) = open(&sheet);
        assert_eq!(answer, Err(number));
        assert_eq!((watch.length, watch.count), (0, 0));
        assert_eq!(watch.sheet, [0; 308]);
        assert!(watch.rounds.iter().all(|held| *held == round(&[], 0, &[])));
    }
    assert_eq!(open(&[]).0, Err(2));
    assert_eq!(open(&[0x48; 5000]).0, Err(2));
    // A sheet's bytes with many more after them.
    let mut long = page_a();
    long.resize(5000, 0);
    assert_eq!(open(&long), (Err(9), open(&[]).1));
}

#[test]
fn a_watch_of_no_bytes_takes_no_round() {
    let (_, watch) = open(&[]);
    assert_eq!(number(&[], &watch, &nine(3)), 2);
    assert_eq!(number(&page_a(), &watch, &bad()), 14);
    assert_eq!(number(&page_a(), &watch, &nine(3)), 21);
    assert_eq!(number(&page_g(), &watch, &round(&[33], 1, &[6])), 21);
}

#[test]
fn a_round_is_refused_in_order() {
    // The watch is on another sheet and counts too many rounds.
    let mut watch = opened(&page_g());
    watch.count = 64;
    for (refusal, sheet) in refused_sheets() {
        assert_eq!(number(&sheet, &watch, &bad()), refusal);
    }
    // One flaw is mended at a time.
    let sheet = page_a();
    assert_eq!(number(&sheet, &watch, &bad()), 14);
    assert_eq!(number(&sheet, &watch, &round(&[9], 11, &[99])), 15);
    assert_eq!(number(&sheet, &watch, &round(&[9], 10, &[11])), 16);
    assert_eq!(number(&sheet, &watch, &round(&[9], 10, &[10])), 21);
    watch.count = 0;
    assert_eq!(number(&sheet, &watch, &round(&[9], 10, &[10])), 21);
    watch = opened(&sheet);
    watch.count = 64;
    assert_eq!(number(&sheet, &watch, &round(&[9], 10, &[10])), 21);
    watch.count = 0;
    let answer = take_round(&sheet, watch.clone(), &round(&[9], 10, &[10]));
    assert_eq!(answer, (no_name(rejected(&[0])), watch));
}

#[test]
fn a_round_is_tested_by_the_sheet_that_is_handed_in() {
    // 33 is an element and 24 a slot of page G's sheet only. 9 is an element of
    // both sheets, and 7 is a slot of page A's sheet only.
    let watch = opened(&page_a());
    assert_eq!(number(&page_g(), &watch, &round(&[33], 3, &[24])), 21);
    assert_eq!(number(&page_g(), &watch, &round(&[7], 3, &[24])), 14);
    assert_eq!(number(&page_g(), &watch, &round(&[9], 5, &[24])), 15);
    assert_eq!(number(&page_g(), &watch, &round(&[9], 4, &[7])), 16);
    let watch = opened(&page_g());
    assert_eq!(number(&page_a(), &watch, &round(&[33], 3, &[24])), 14);
    assert_eq!(number(&page_a(), &watch, &round(&[9], 5, &[7])), 21);
}

#[test]
fn other_bytes_are_21() {
    let sheet = page_a();
    // Other sheets on which the round is accepted too, and one that rejects.
    let others = [
        exponent(23, 11, 10, &[&[2]], &[13]).bytes(),
        exponent(23, 11, 11, &[&[2], &[1]], &[13, 1]).bytes(),
        exponent(23, 11, 11, &[&[2, 1]], &[13]).bytes(),
        exponent(23, 11, 11, &[&[3]], &[13]).bytes(),
    ];
    let right = round(&[9, 1], 3, &[4, 0]);
    let verdicts = [Verdict::Accepted, Verdict::Accepted, Verdict::Accepted, rejected(&[0])];
    for (other, verdict) in others.iter().zip(verdicts) {
        assert_eq!(judge(other, &right), verdict);
        assert_eq!(number(other, &opened(&sheet), &right), 21);
        assert_eq!(number(&sheet, &opened(other), &right), 21);
        assert_eq!(take_round(other, opened(other), &right).0.verdict, verdict);
    }
    assert_eq!(number(&sheet, &opened(&sheet), &right), 0);
}

#[test]
fn every_held_byte_and_the_length_count() {
    let sheet = page_a();
    let watch = opened(&sheet);
    for place in 0..308 {
        for bit in 0..8 {
            let mut other = watch.clone();
            other.sheet[place] ^= 1 << bit;
            let expected = if place < 28 { 21 } else { 0 };
            assert_eq!(number(&sheet, &other, &nine(3)), expected);
            assert_eq!(number(&sheet, &other, &bad()), 14);
        }
    }
    for length in (0..400).chain([28 + (1 << 8), 28 + (1 << 32), u64::MAX]) {
        let mut other = watch.clone();
        other.length = length;
        let expected = if length == 28 { 0 } else { 21 };
        assert_eq!(number(&sheet, &other, &nine(3)), expected);
        assert_eq!(number(&sheet, &other, &round(&[9], 1, &[2])), expected);
    }
}

#[test]
fn bytes_after_the_length_are_not_read_and_stay() {
    let sheet = page_a();
    let mut watch = opened(&sheet);
    for byte in &mut watch.sheet[28..] {
        *byte = 0xA5;
    }
    let (answer, next) = take_round(&sheet, watch.clone(), &nine(3));
    assert_eq!(answer, no_name(Verdict::Accepted));
    assert_eq!(next, moved(&watch, nine(3)));
    assert_eq!((next.sheet, next.length), (watch.sheet, 28));
}

#[test]
fn a_count_above_63_is_21() {
    let sheet = page_a();
    let right = std::array::from_fn::<Round, 63, _>(|_| two());
    for count in [64, 65, 127, 255, 256, 319, 65_536, 1 << 31, u32::MAX] {
        let mut watch = holding(&right);
        watch.count = count;
        // For an accepted round, for one that would be named and for a
        // rejected one.
        assert_eq!(number(&sheet, &watch, &two()), 21);
        assert_eq!(number(&sheet, &watch, &nine(3)), 21);
        assert_eq!(number(&sheet, &watch, &round(&[9], 1, &[2])), 21);
        assert_eq!(number(&sheet, &watch, &round(&[9], 11, &[2])), 15);
        watch.rounds[0] = nine(1);
        assert_eq!(number(&sheet, &watch, &nine(3)), 21);
        watch.count = 63;
        assert_eq!(number(&sheet, &watch, &nine(3)), 0);
    }
}

#[test]
fn a_named_round_that_is_not_accepted_is_21() {
    let sheet = page_a();
    let flawed = [
        // A rejected round, then two responses that are no slots, then four
        // challenges of K or more. The response 12 and the challenges 12 and
        // 11 would be accepted if they counted mod 11.
        round(&[9], 1, &[2]),
        round(&[9], 1, &[11]),
        round(&[9], 1, &[12]),
        round(&[9], 12, &[1]),
        round(&[9], 11, &[5]),
        round(&[9], 3 + (1 << 16), &[4]),
        round(&[9], u32::MAX, &[0]),
    ];
    for flaw in flawed {
        // A farther round that is accepted does not mend it.
        for rest in [vec![], vec![nine(1)], vec![two(), nine(0), nine(1)]] {
            let mut rounds = vec![two(), flaw.clone()];
            rounds.extend(rest);
            assert_eq!(number(&sheet, &holding(&rounds), &nine(3)), 21);
        }
        // A nearer one does, for then the flawed round is not named.
        let watch = holding(&[two(), nine(0), flaw.clone()]);
        let (answer, next) = take_round(&sheet, watch.clone(), &nine(3));
        assert_eq!((answer, next), (names(2, &[7]), moved(&watch, nine(3))));
        // For a round with another commitment it is not named either, nor for
        // one that is rejected or refused.
        let watch = holding(&[flaw]);
        let (answer, next) = take_round(&sheet, watch.clone(), &two());
        let expected = no_name(Verdict::Accepted);
        assert_eq!((answer, next), (expected, moved(&watch, two())));
        let (answer, next) = take_round(&sheet, watch.clone(), &round(&[9], 3, &[5]));
        assert_eq!((answer, &next), (no_name(rejected(&[0])), &watch));
        assert_eq!(number(&sheet, &watch, &round(&[9], 3, &[11])), 16);
    }
}

#[test]
fn a_held_round_with_the_same_challenge_is_not_tested() {
    let sheet = page_a();
    // Rejected, or with a response that is no slot.
    for r in [5, 11, u32::MAX] {
        let watch = holding(&[round(&[9], 3, &[r]), nine(1)]);
        let (answer, next) = take_round(&sheet, watch.clone(), &nine(3));
        // The flawed round stands between and counts as one back.
        assert_eq!((answer, next), (names(2, &[7]), moved(&watch, nine(3))));
    }
}

#[test]
fn held_rounds_with_other_commitments_are_not_tested() {
    let sheet = page_a();
    let watch = holding(&[bad(), round(&[0], 0, &[0]), round(&[32], 1, &[1]), nine(1)]);
    let (answer, next) = take_round(&sheet, watch.clone(), &nine(3));
    // 32 is 9 mod 23 and yet another commitment.
    assert_eq!((answer, next), (names(4, &[7]), moved(&watch, nine(3))));
}

#[test]
fn rounds_at_or_beyond_the_count_are_not_read_and_move_on() {
    let sheet = page_a();
    for count in 0..=63 {
        // The newest one would be named if it were read.
        let watch = holding(&vec![two(); count]);
        let (answer, next) = take_round(&sheet, watch.clone(), &nine(3));
        let expected = no_name(Verdict::Accepted);
        assert_eq!((answer, &next), (expected, &moved(&watch, nine(3))));
        assert_eq!(next.count as usize, (count + 1).min(63));
        for place in 0..count {
            let mut watch = watch.clone();
            watch.rounds[place] = nine(1);
            let (answer, next) = take_round(&sheet, watch.clone(), &nine(3));
            let expected = names(place as u32 + 1, &[7]);
            assert_eq!((answer, next), (expected, moved(&watch, nine(3))));
        }
    }
}

#[test]
fn unused_places_of_held_rounds_are_not_read_and_stay() {
    let sheet = page_a();
    let held = |c: u32, rest: u32| Round {
        commitment: eight_with(&[9], rest),
        challenge: c,
        response: eight_with(&nine(c).response[..1], rest),
    };
    for rest in [1, 5, 99, u32::MAX] {
        let watch = holding(&[held(3, rest), held(1, rest)]);
        let (answer, next) = take_round(&sheet, watch.clone(), &held(3, 7));
        assert_eq!((answer, &next), (names(2, &[7]), &moved(&watch, nine(3))));
        assert_eq!(next.rounds[1], held(3, rest));
    }
}

#[test]
fn unused_columns_alone_are_not_read() {
    // Two rows and one column, then one row and two columns.
    let sheet = exponent(23, 11, 11, &[&[2], &[16]], &[13, 18]).bytes();
    let mut watch = opened(&sheet);
    watch.rounds[0] =
        Round { commitment: eight_with(&[9, 6], 5), challenge: 3, response: eight_with(&[4], 99) };
    watch.count = 1;
    let given =
        Round { commitment: eight_with(&[9, 6], 8), challenge: 1, response: eight_with(&[1], 98) };
    let (answer, next) = take_round(&sheet, watch.clone(), &given);
    let newest = round(&[9, 6], 1, &[1]);
    assert_eq!((answer, next), (names(1, &[7]), moved(&watch, newest)));
    let sheet = exponent(23, 11, 11, &[&[2, 3]], &[18]).bytes();
    let mut watch = opened(&sheet);
    watch.rounds[0] =
        Round { commitment: eight_with(&[1], 5), challenge: 0, response: eight_with(&[6, 2], 99) };
    watch.count = 1;
    let given =
        Round { commitment: eight_with(&[1], 8), challenge: 1, response: eight_with(&[1, 2], 98) };
    let (answer, next) = take_round(&sheet, watch.clone(), &given);
    let newest = round(&[1], 1, &[1, 2]);
    assert_eq!((answer, next), (names(1, &[6, 0]), moved(&watch, newest)));
}

#[test]
fn kind_2_refuses_held_rounds_too() {
    let sheet = page_g();
    let mut watch = opened(&sheet);
    watch.count = 1;
    let given = round(&[33], 3, &[24]);
    for (held, expected) in [
        (round(&[33], 1, &[6]), 0),
        (round(&[33], 1, &[3]), 21),
        (round(&[33], 1, &[7]), 21),
        (round(&[33], 1, &[41]), 21),
        (round(&[33], 5, &[6]), 21),
        (round(&[32], 5, &[7]), 0),
    ] {
        watch.rounds[0] = held;
        assert_eq!(number(&sheet, &watch, &given), expected);
    }
}
