//! Watches that are opened and given rounds, with numbers worked by hand.

use judge::watch::*;
use judge::*;

use crate::tools::*;

/// The watch on a sheet that loads.
pub fn opened(sheet: &[u8]) -> Watch {
    let (answer, watch) = open(sheet);
    assert_eq!(answer, Ok(()));
    watch
}

/// Gives the rounds one by one. Answers what is said to the last of them, and
/// the watch after it.
pub fn given(sheet: &[u8], watch: Watch, rounds: &[Round]) -> (Watched, Watch) {
    let (last, before) = rounds.split_last().unwrap();
    let mut watch = watch;
    for round in before {
        watch = take_round(sheet, watch, round).1;
    }
    take_round(sheet, watch, last)
}

/// What is said to the last of these rounds by a new watch.
fn last(sheet: &[u8], rounds: &[Round]) -> Watched {
    given(sheet, opened(sheet), rounds).0
}

/// The answer that names a round.
pub fn names(back: u32, witness: &[u32]) -> Watched {
    Watched { verdict: Verdict::Accepted, back, witness: eight(witness) }
}

/// The answer that names no round.
pub fn no_name(verdict: Verdict) -> Watched {
    Watched { verdict, back: 0, witness: [0; 8] }
}

const NONE: Watched = Watched { verdict: Verdict::Accepted, back: 0, witness: [0; 8] };

/// The accepted round of page A's sheet with this challenge and t 9. The nonce
/// is 5 and the witness 7.
pub fn nine(c: u32) -> Round {
    round(&[9], c, &[(5 + 7 * c) % 11])
}

/// An accepted round of page A's sheet with t 2.
pub fn two() -> Round {
    round(&[2], 0, &[1])
}

/// Accepted rounds with t 2, as many as wanted.
fn twos(count: usize) -> Vec<Round> {
    vec![two(); count]
}

#[test]
fn a_new_watch_holds_the_sheet_and_no_rounds() {
    let table: Vec<&[u32]> = vec![&[2; 8]; 8];
    let longest = exponent(23, 11, 11, &table, &[13; 8]).bytes();
    let sheets = [page_a(), page_g(), longest];
    for (sheet, length) in sheets.iter().zip([28, 24, 308]) {
        let watch = opened(sheet);
        assert_eq!(watch.length, length);
        assert_eq!(watch.sheet[..length as usize], sheet[..]);
        assert!(watch.sheet[length as usize..].iter().all(|byte| *byte == 0));
        assert!(watch.rounds.iter().all(|held| *held == round(&[], 0, &[])));
        assert_eq!((watch.rounds.len(), watch.count), (63, 0));
    }
}

#[test]
fn the_rounds_of_page_b_in_either_order() {
    let sheet = page_a();
    let [first, second] = [round(&[9], 3, &[4]), round(&[9], 1, &[1])];
    for pair in [[&first, &second], [&second, &first]] {
        let (answer, watch) = take_round(&sheet, opened(&sheet), pair[0]);
        assert_eq!(answer, NONE);
        let (answer, watch) = take_round(&sheet, watch, pair[1]);
        assert_eq!(answer, names(1, &[7]));
        assert_eq!(watch.count, 2);
        assert_eq!([&watch.rounds[0], &watch.rounds[1]], [pair[1], pair[0]]);
        assert!(watch.rounds[2..].iter().all(|held| *held == round(&[], 0, &[])));
    }
}

#[test]
fn the_rounds_of_page_h_in_either_order() {
    let [first, second] = [round(&[33], 1, &[6]), round(&[33], 3, &[24])];
    let rounds = [first.clone(), second.clone()];
    assert_eq!(last(&page_g(), &rounds), names(1, &[2]));
    assert_eq!(last(&page_g(), &[second, first]), names(1, &[2]));
}

#[test]
fn the_marking_rounds_are_given_their_verdicts() {
    let sheet = page_a();
    let (answer, watch) = given(&sheet, opened(&sheet), &[nine(3), nine(1)]);
    assert_eq!(answer, names(1, &[7]));
    let (answer, after) = take_round(&sheet, watch.clone(), &round(&[9], 1, &[2]));
    assert_eq!((answer, &after), (no_name(rejected(&[0])), &watch));
    let (answer, after) = take_round(&sheet, after, &round(&[5], 0, &[0]));
    assert_eq!(answer, no_name(Verdict::Refused(14)));
    assert_eq!(after, watch);
}

#[test]
fn the_nearest_round_is_named() {
    let sheet = page_a();
    let rounds = [nine(1), nine(3), nine(0)];
    assert_eq!(last(&sheet, &rounds), names(1, &[7]));
    let rounds = [nine(1), nine(3), two(), two(), nine(0)];
    assert_eq!(last(&sheet, &rounds), names(3, &[7]));
    // Rounds with the same challenge are passed over, and they count.
    let rounds = [nine(1), nine(3), nine(3), nine(3)];
    assert_eq!(last(&sheet, &rounds), names(3, &[7]));
    let rounds = [nine(1), nine(3), nine(1), nine(3), nine(3)];
    assert_eq!(last(&sheet, &rounds), names(2, &[7]));
    assert_eq!(last(&sheet, &[nine(3), nine(3), nine(3)]), NONE);
    assert_eq!(last(&sheet, &[nine(3), two(), two()]), NONE);
}

#[test]
fn the_witness_is_that_of_the_nearest_round() {
    // Page D has many witnesses. Two rounds with t 1 and c 0 give two.
    let sheet = exponent(23, 11, 11, &[&[2, 3]], &[18]).bytes();
    let [first, second] = [round(&[1], 0, &[0, 0]), round(&[1], 0, &[6, 2])];
    let page = round(&[1], 1, &[1, 2]);
    let rounds = [first.clone(), second.clone(), page.clone()];
    assert_eq!(last(&sheet, &rounds), names(1, &[6, 0]));
    let rounds = [second.clone(), first.clone(), page];
    assert_eq!(last(&sheet, &rounds), names(1, &[1, 2]));
    // One challenge with two responses names nothing.
    assert_eq!(last(&sheet, &[first, second]), NONE);
}

#[test]
fn a_witness_of_zeros_is_named_too() {
    let sheet = exponent(23, 11, 11, &[&[2]], &[1]).bytes();
    let rounds = [round(&[9], 3, &[5]), round(&[9], 1, &[5])];
    assert_eq!(last(&sheet, &rounds), names(1, &[0]));
}

#[test]
fn every_row_of_the_commitment_counts() {
    // The second statement value has no witness in common with the first.
    let sheet = exponent(23, 11, 11, &[&[2], &[16]], &[13, 1]).bytes();
    let simulated = |c, r| {
        let t = simulate(&sheet, c, &eight(&[r])).unwrap();
        round(&t, c, &[r])
    };
    let rounds = [simulated(3, 4), simulated(1, 1)];
    assert_eq!([0, 1].map(|which| rounds[which].commitment[0]), [9, 9]);
    assert_ne!(rounds[0].commitment[1], rounds[1].commitment[1]);
    assert_eq!(last(&sheet, &rounds), NONE);
    // Page E has one.
    let sheet = exponent(23, 11, 11, &[&[2], &[16]], &[13, 18]).bytes();
    let rounds = [round(&[9, 6], 3, &[4]), round(&[9, 6], 1, &[1])];
    assert_eq!(last(&sheet, &rounds), names(1, &[7]));
}

#[test]
fn the_window_has_exactly_63_rounds() {
    let sheet = page_a();
    for others in 0..70 {
        let mut rounds = vec![nine(3)];
        rounds.extend(twos(others));
        rounds.push(nine(1));
        let (answer, watch) = given(&sheet, opened(&sheet), &rounds);
        let expected = match others {
            0..=62 => names(others as u32 + 1, &[7]),
            _ => NONE,
        };
        assert_eq!(answer, expected);
        // The round itself and the last 62 before it are remembered.
        assert_eq!(watch.count as usize, rounds.len().min(63));
        rounds.reverse();
        rounds.resize(63, round(&[], 0, &[]));
        assert_eq!(watch.rounds[..], rounds);
    }
}

#[test]
fn a_full_watch_keeps_counting_63() {
    let sheet = page_a();
    let mut watch = opened(&sheet);
    for number in 0..200_u32 {
        assert_eq!(watch.count, number.min(63));
        let (answer, next) = take_round(&sheet, watch, &nine(number % 11));
        // The round before has another challenge always.
        let expected = if number == 0 { NONE } else { names(1, &[7]) };
        assert_eq!(answer, expected);
        assert_eq!(next.rounds[0], nine(number % 11));
        watch = next;
    }
    assert_eq!(watch.sheet, opened(&sheet).sheet);
    assert_eq!(watch.length, 28);
}

#[test]
fn rejected_and_refused_rounds_are_not_remembered() {
    let sheet = page_a();
    let bad = [
        (round(&[9], 3, &[5]), rejected(&[0])),
        (round(&[5], 3, &[4]), Verdict::Refused(14)),
        (round(&[9], 11, &[4]), Verdict::Refused(15)),
        (round(&[9], 3, &[11]), Verdict::Refused(16)),
    ];
    let mut watch = opened(&sheet);
    for start in [two(), nine(1)] {
        watch = take_round(&sheet, watch, &start).1;
        for (round, verdict) in &bad {
            let (answer, after) = take_round(&sheet, watch.clone(), round);
            assert_eq!((answer, &after), (no_name(*verdict), &watch));
        }
    }
    // They do not count among the rounds back either.
    let mut rounds = vec![nine(1)];
    for (round, _) in bad {
        rounds.extend([round, two()]);
    }
    rounds.push(nine(3));
    assert_eq!(last(&sheet, &rounds), names(5, &[7]));
}

#[test]
fn all_differing_rows_are_given() {
    let table: Vec<&[u32]> = vec![&[2]; 8];
    let sheet = exponent(23, 11, 11, &table, &[13; 8]).bytes();
    let watch = opened(&sheet);
    for bits in 1..256_u32 {
        let t = std::array::from_fn::<u32, 8, _>(|row| [9, 6][(bits >> row & 1) as usize]);
        let (answer, after) = take_round(&sheet, watch.clone(), &round(&t, 3, &[4]));
        assert_eq!(answer, no_name(Verdict::Rejected(rows_of(bits))));
        assert_eq!(after, watch);
    }
}

#[test]
fn places_beyond_the_sheet_are_not_read_and_held_as_0() {
    let sheet = page_a();
    let with = |round: Round, rest| Round {
        commitment: eight_with(&round.commitment[..1], rest),
        challenge: round.challenge,
        response: eight_with(&round.response[..1], rest),
    };
    let rounds = [with(nine(3), 5), with(nine(1), 98)];
    let (answer, watch) = given(&sheet, opened(&sheet), &rounds);
    assert_eq!(answer, names(1, &[7]));
    assert_eq!(watch.rounds[..2], [nine(1), nine(3)]);
}

#[test]
fn every_two_accepted_rounds_of_page_a() {
    let sheet = page_a();
    let mut rounds = Vec::new();
    for c in 0..11 {
        for r in 0..11 {
            let t = simulate(&sheet, c, &eight(&[r])).unwrap();
            rounds.push(round(&t, c, &[r]));
        }
    }
    let mut named = 0;
    for first in &rounds {
        let (answer, watch) = take_round(&sheet, opened(&sheet), first);
        assert_eq!(answer, NONE);
        for second in &rounds {
            let (answer, _) = take_round(&sheet, watch.clone(), second);
            let is_named =
                first.commitment == second.commitment && first.challenge != second.challenge;
            named += u32::from(is_named);
            let expected = if is_named { names(1, &[7]) } else { NONE };
            assert_eq!(answer, expected);
        }
    }
    assert_eq!(named, 11 * 11 * 10);
}
