//! A watch names nonces that were used twice.

use crate::pages::{PLANS, SCHNORR, made, page_a, round};
use dimkhoros::{
    Instance, MOST_REMEMBERED, Plan, Prover, Refusal, Reuse, Round, Rows, Verdict, Watch,
    WatchParts, places,
};

/// What a watch says of an accepted round.
fn accepted(watch: &mut Watch, sheet: &Instance, round: &Round) -> Option<Reuse> {
    let heard = watch.hear(sheet, round).unwrap();
    assert_eq!(heard.verdict, Verdict::Accepted);
    heard.reuse
}

/// A reuse on page A's sheet, whose witness is 7.
fn back(back: usize) -> Option<Reuse> {
    Some(Reuse { back, witness: places([7]) })
}

/// The watch is refused, and stays as it was.
fn refused(watch: &Watch, sheet: &Instance, round: &Round) -> Refusal {
    let mut after = watch.clone();
    let refusal = after.hear(sheet, round).unwrap_err();
    assert_eq!(&after, watch);
    refusal
}

#[test]
fn the_rounds_of_page_a_give_the_witness_in_either_order() {
    let a = page_a();
    for [first, second] in [[round(9, 3, 4), round(9, 1, 1)], [round(9, 1, 1), round(9, 3, 4)]] {
        let mut watch = Watch::open(&a);
        assert_eq!(accepted(&mut watch, &a, &first), None);
        assert_eq!(accepted(&mut watch, &a, &second), back(1));
        assert_eq!(watch.remembered(), [second, first]);
    }
}

#[test]
fn a_round_with_the_same_challenge_is_passed_over_and_counted() {
    let a = page_a();
    let mut watch = Watch::open(&a);
    assert_eq!(accepted(&mut watch, &a, &round(9, 3, 4)), None);
    assert_eq!(accepted(&mut watch, &a, &round(9, 3, 4)), None);
    assert_eq!(accepted(&mut watch, &a, &round(9, 1, 1)), back(1));
    assert_eq!(accepted(&mut watch, &a, &round(9, 1, 1)), back(2));
    assert_eq!(accepted(&mut watch, &a, &round(2, 3, 0)), None);
    assert_eq!(accepted(&mut watch, &a, &round(9, 1, 1)), back(4));
}

#[test]
fn rounds_that_are_not_accepted_are_not_remembered() {
    let a = page_a();
    let mut watch = Watch::open(&a);
    assert_eq!(accepted(&mut watch, &a, &round(9, 3, 4)), None);
    let before = watch.clone();
    let heard = watch.hear(&a, &round(9, 1, 2)).unwrap();
    assert_eq!(heard.verdict, Verdict::Rejected { rows: Rows::from_mask(1) });
    assert_eq!((heard.reuse, &watch), (None, &before));
    assert_eq!(refused(&watch, &a, &round(5, 1, 1)), Refusal::Commitment);
    assert_eq!(refused(&watch, &a, &round(9, 11, 1)), Refusal::Challenge);
    assert_eq!(refused(&watch, &a, &round(9, 1, 11)), Refusal::Coordinate);
    assert_eq!(accepted(&mut watch, &a, &round(9, 1, 1)), back(1));
}

/// Page A's sheet with another K, another statement, or its row twice is another sheet, even if the round is accepted on it.
#[test]
fn a_sheet_of_other_bytes_is_refused() {
    let a = page_a();
    let mut watch = Watch::open(&a);
    assert_eq!(accepted(&mut watch, &a, &round(9, 3, 4)), None);
    let others = [
        made(&Plan { challenges: 10, ..SCHNORR }).unwrap(),
        a.with_statement(&places([3])).unwrap(),
        made(&Plan { pattern: 3, values: &[2, 2], statement: &[13, 13], ..SCHNORR }).unwrap(),
    ];
    let twice = |t, c, r| Round { commitment: places([t, t]), ..round(t, c, r) };
    for other in &others {
        for good in [twice(9, 3, 4), twice(9, 1, 1), twice(9, 1, 2)] {
            assert_eq!(refused(&watch, other, &good), Refusal::Session);
        }
        // What the round itself is refused with stands before.
        assert_eq!(refused(&watch, other, &twice(5, 1, 1)), Refusal::Commitment);
        assert_eq!(refused(&watch, other, &twice(9, 11, 1)), Refusal::Challenge);
        assert_eq!(refused(&watch, other, &twice(9, 1, 11)), Refusal::Coordinate);
    }
    assert_eq!(accepted(&mut watch, &a, &round(9, 1, 1)), back(1));
}

#[test]
fn a_use_63_rounds_back_is_seen_and_one_64_back_is_not() {
    let a = page_a();
    for between in [0, 1, 61, 62, 63, 64, 200] {
        let mut watch = Watch::open(&a);
        assert_eq!(accepted(&mut watch, &a, &round(9, 3, 4)), None);
        for _ in 0..between {
            assert_eq!(accepted(&mut watch, &a, &round(2, 3, 0)), None);
            // What is rejected does not count.
            assert!(!watch.hear(&a, &round(2, 3, 1)).unwrap().verdict.is_accepted());
        }
        assert_eq!(watch.remembered().len(), (between + 1).min(MOST_REMEMBERED));
        let seen = if between < MOST_REMEMBERED { back(between + 1) } else { None };
        assert_eq!(accepted(&mut watch, &a, &round(9, 1, 1)), seen);
    }
}

/// The parts of a watch of page A's sheet that remembers these rounds.
fn by_hand(rounds: &[Round]) -> WatchParts {
    let mut parts = Watch::open(&page_a()).into_parts();
    parts.rounds[..rounds.len()].copy_from_slice(rounds);
    WatchParts { count: rounds.len() as u32, ..parts }
}

#[test]
fn a_watch_by_hand_may_count_63_rounds() {
    let a = page_a();
    let parts = by_hand(&[round(9, 3, 4)]);
    for count in [1, 2, 62, 63] {
        let mut watch = Watch::from_parts(WatchParts { count, ..parts });
        assert_eq!(accepted(&mut watch, &a, &round(9, 1, 1)), back(1));
    }
    for count in [64, 65, u32::MAX] {
        let watch = Watch::from_parts(WatchParts { count, ..parts });
        assert_eq!(watch.remembered().len(), MOST_REMEMBERED);
        for any in [round(9, 1, 1), round(9, 1, 2)] {
            assert_eq!(refused(&watch, &a, &any), Refusal::Session);
        }
        assert_eq!(refused(&watch, &a, &round(9, 1, 11)), Refusal::Coordinate);
    }
    // A round that stands at the count is not read.
    let mut watch = Watch::from_parts(WatchParts { count: 0, ..parts });
    assert_eq!(accepted(&mut watch, &a, &round(9, 1, 1)), None);
    for length in [0, 27, 29, 309, u32::MAX] {
        let watch = Watch::from_parts(WatchParts { length, ..parts });
        assert_eq!(refused(&watch, &a, &round(9, 1, 1)), Refusal::Session);
    }
}

/// The nearest alone counts, and only an accepted round names one.
#[test]
fn a_named_round_that_is_not_accepted_is_refused() {
    let a = page_a();
    for forged in [round(9, 3, 5), round(9, 11, 4), round(9, 3, 11)] {
        let watch = Watch::from_parts(by_hand(&[forged, round(9, 3, 4)]));
        assert_eq!(refused(&watch, &a, &round(9, 1, 1)), Refusal::Session);
        assert!(!watch.clone().hear(&a, &round(9, 1, 2)).unwrap().verdict.is_accepted());
        assert_eq!(accepted(&mut watch.clone(), &a, &round(2, 3, 0)), None);
        let mut watch = Watch::from_parts(by_hand(&[round(9, 3, 4), forged]));
        assert_eq!(accepted(&mut watch, &a, &round(9, 1, 1)), back(1));
    }
}

/// What stands beyond the values in use is not read, and the newest round has zeros there.
#[test]
fn places_beyond_are_not_read() {
    let a = page_a();
    let junk = |t, c, r| Round {
        commitment: [t, 1, 2, 3, 4, 5, 6, 7],
        challenge: c,
        response: [r, 8, 9, 10, 11, 12, 13, 14],
    };
    let mut parts = by_hand(&[junk(9, 3, 4)]);
    parts.sheet[28..].fill(99);
    let mut watch = Watch::from_parts(parts);
    let other = Round { commitment: [9; 8], challenge: 1, response: [1; 8] };
    assert_eq!(accepted(&mut watch, &a, &other), back(1));
    assert_eq!(watch.remembered(), [round(9, 1, 1), junk(9, 3, 4)]);
    assert_eq!(watch.into_parts().sheet, parts.sheet);
}

#[test]
fn two_copies_go_on_apart() {
    let a = page_a();
    let mut watch = Watch::open(&a);
    assert_eq!(accepted(&mut watch, &a, &round(9, 3, 4)), None);
    let mut copy = watch.clone();
    assert_eq!(accepted(&mut watch, &a, &round(2, 3, 0)), None);
    assert_eq!(accepted(&mut watch, &a, &round(9, 1, 1)), back(2));
    assert_eq!(accepted(&mut copy, &a, &round(9, 1, 1)), back(1));
}

/// Numbers that look random.
struct Numbers(u32);

impl Numbers {
    fn below(&mut self, bound: u32) -> u32 {
        self.0 = self.0.wrapping_mul(1_664_525).wrapping_add(1_013_904_223);
        (self.0 >> 16) % bound
    }
}

/// A witness of the sheet of each plan.
const WITNESSES: [[u32; 3]; 6] = [[7, 0, 0], [1, 2, 0], [7, 0, 0], [7, 0, 0], [2, 1, 0], [2, 0, 0]];

/// A round of an honest Peggy with one of few nonces, in which a response may be wrong.
fn any_round(sheet: &Instance, witness: [u32; 3], numbers: &mut Numbers) -> Round {
    let nonce = places([1, 2, 3].map(|value| value + numbers.below(2)));
    let challenge = numbers.below(3);
    let (peggy, commitment) = Prover::new().commit(sheet, &nonce).unwrap();
    let (_, mut response) = peggy.respond(sheet, challenge, &places(witness)).unwrap();
    if numbers.below(8) == 0 {
        response[0] = 1;
    }
    Round { commitment, challenge, response }
}

/// On every page, the reuse is the one that is found by looking through the last 63 accepted rounds, and the witness is the
/// extractor's.
#[test]
fn a_long_run_is_watched_as_its_rounds_are_looked_through() {
    let (mut named, mut none) = (0, 0);
    for (plan, witness) in PLANS.iter().zip(WITNESSES) {
        let sheet = made(plan).unwrap();
        let (mut watch, mut numbers) = (Watch::open(&sheet), Numbers(9));
        let mut heard: Vec<Round> = Vec::new();
        for _ in 0..130 {
            let round = any_round(&sheet, witness, &mut numbers);
            let said = watch.hear(&sheet, &round).unwrap();
            assert_eq!(Ok(said.verdict), sheet.judge(&round));
            if !said.verdict.is_accepted() {
                assert_eq!(said.reuse, None);
                continue;
            }
            let reuses = |other: &&Round| {
                other.commitment == round.commitment && other.challenge != round.challenge
            };
            let window = heard.iter().rev().take(MOST_REMEMBERED);
            let expected =
                window.enumerate().find(|(_, other)| reuses(other)).map(|(place, other)| Reuse {
                    back: place + 1,
                    witness: sheet.extract(&round, other).unwrap(),
                });
            assert_eq!(said.reuse, expected);
            named += usize::from(expected.is_some());
            none += usize::from(expected.is_none());
            heard.push(round);
        }
        assert!(heard.len() > MOST_REMEMBERED);
        assert!(heard.iter().rev().take(MOST_REMEMBERED).eq(watch.remembered()));
    }
    assert!(named > 100 && none > 6, "{named} named, {none} not");
}
