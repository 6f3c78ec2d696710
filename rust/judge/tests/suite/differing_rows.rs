//! All the rows that differ: in verdicts, in sessions, on OR rounds, on the
//! marker's lines and on the reason's line.

use judge::or_proof::{self, OrVerdict};
use judge::*;

use crate::tools::*;

/// A sheet of kind 1 with so many rows of 2^x = 13.
fn powers(rows: usize) -> Vec<u8> {
    let table: Vec<&[u32]> = vec![&[2]; rows];
    exponent(23, 11, 11, &table, &vec![13; rows]).bytes()
}

/// A round on it that differs in the rows whose bits are set, and in no other.
/// 2^4 is 16, 9 · 13^3 is 16 and 8 · 13^3 is 4.
fn power_round(bits: u32) -> Round {
    let mut wrong = round(&[9; 8], 3, &[4]);
    for (value, differs) in wrong.commitment.iter_mut().zip(rows_of(bits)) {
        *value = if differs { 8 } else { 9 };
    }
    wrong
}

/// A sheet of kind 2 with so many rows of x^5 = 32 mod 35.
fn roots(rows: usize) -> Vec<u8> {
    root(35, 5, 5, &vec![32; rows]).bytes()
}

/// A round on it that differs in the rows whose bits are set, and in no other.
/// 6^5 is 6, 33 · 32 is 6 and 3^5 is 33.
fn root_round(bits: u32) -> Round {
    let mut wrong = round(&[33; 8], 1, &[6; 8]);
    for (slot, differs) in wrong.response.iter_mut().zip(rows_of(bits)) {
        *slot = if differs { 3 } else { 6 };
    }
    wrong
}

/// The verdict with these bits.
fn expected(bits: u32) -> Verdict {
    match bits {
        0 => Verdict::Accepted,
        _ => Verdict::Rejected(rows_of(bits)),
    }
}

/// The numbers of these rows, each with a space before and these words after.
fn listed(bits: u32, words: &str) -> String {
    let numbers = (0..8).filter(|row| bits >> row & 1 == 1);
    numbers.map(|row| format!(" {row}{words}")).collect()
}

/// The words of these rounds as records of s rows and n columns.
fn words(rounds: &[Round], s: usize, n: usize) -> Vec<u32> {
    let mut words = Vec::new();
    for round in rounds {
        words.extend(&round.commitment[..s]);
        words.push(round.challenge);
        words.extend(&round.response[..n]);
    }
    words
}

#[test]
fn the_rows_of_some_bits() {
    let [no, yes] = [false, true];
    assert_eq!(rows_of(0), [no; 8]);
    assert_eq!(rows_of(1), [yes, no, no, no, no, no, no, no]);
    assert_eq!(rows_of(0b1010_0100), [no, no, yes, no, no, yes, no, yes]);
    assert_eq!(rejected(&[2, 5, 7]), expected(0b1010_0100));
    assert_eq!(listed(0b1010_0100, " x"), " 2 x 5 x 7 x");
}

#[test]
fn every_set_of_rows_is_given_by_judging() {
    for bits in 0..256 {
        assert_eq!(judge(&powers(8), &power_round(bits)), expected(bits));
        assert_eq!(judge(&roots(8), &root_round(bits)), expected(bits));
    }
}

#[test]
fn rows_beyond_the_sheet_are_never_given() {
    // The round differs there too, but those places are not read.
    for rows in 1..=8_usize {
        let used = (1 << rows) - 1;
        for bits in 0..256 {
            let verdict = expected(bits & used);
            assert_eq!(judge(&powers(rows), &power_round(bits)), verdict);
            assert_eq!(judge(&roots(rows), &root_round(bits)), verdict);
        }
    }
}

/// What Vic says to a round in a session, and the session's phase after it.
fn in_session(sheet: &[u8], round: &Round) -> (Verdict, VerifierPhase) {
    let (heard, session) = take_commitment(sheet, Verifier::new(), &round.commitment);
    let (asked, session) = take_challenge(sheet, session, round.challenge);
    assert_eq!((heard, asked), (Ok(()), Ok(())));
    let (verdict, session) = take_response(sheet, session, &round.response);
    (verdict, session.phase)
}

#[test]
fn every_set_of_rows_is_given_in_a_session() {
    for bits in 0..256 {
        let judged = (expected(bits), VerifierPhase::Judged);
        assert_eq!(in_session(&powers(8), &power_round(bits)), judged);
        assert_eq!(in_session(&roots(8), &root_round(bits)), judged);
    }
}

#[test]
fn every_set_of_rows_is_marked() {
    // The round with each number differs in the rows of its bits.
    let mut text = String::from("rounds 256\n0 accepted\n");
    for bits in 1..256 {
        text += &format!("{bits} rejected{}\n", listed(bits, ""));
    }
    text += "fail\n";
    assert!(text.contains("\n1 rejected 0\n2 rejected 1\n3 rejected 0 1\n"));
    assert!(text.contains("\n170 rejected 1 3 5 7\n"));
    assert!(text.contains("\n255 rejected 0 1 2 3 4 5 6 7\nfail\n"));
    let rounds: Vec<Round> = (0..256).map(power_round).collect();
    let rounds = file(256, &words(&rounds, 8, 1));
    assert_eq!(marker(&powers(8), &rounds, &[1]), text);
    let rounds: Vec<Round> = (0..256).map(root_round).collect();
    let rounds = file(256, &words(&rounds, 8, 8));
    assert_eq!(marker(&roots(8), &rounds, &[1]), text);
}

#[test]
fn every_set_of_rows_has_its_reason() {
    for bits in 1..256 {
        let rounds = file(1, &words(&[power_round(bits)], 8, 1));
        let line = format!("rejected{}\n", listed(bits, " 16 4"));
        assert_eq!(reason(&powers(8), &rounds), line);
        let rounds = file(1, &words(&[root_round(bits)], 8, 8));
        let line = format!("rejected{}\n", listed(bits, " 33 6"));
        assert_eq!(reason(&roots(8), &rounds), line);
    }
    let rounds = file(1, &words(&[power_round(0b1000_0101)], 8, 1));
    let line = reason(&powers(8), &rounds);
    assert_eq!(line, "rejected 0 16 4 2 16 4 7 16 4\n");
}

#[test]
fn each_row_has_its_own_two_values() {
    // The statement is the entry and c is 1, so 1 is the witness for t 1. The
    // response 2 gives the square against the entry. They agree for 1 alone.
    let entries = [2, 3, 1, 6, 8, 1, 12, 13];
    let table = entries.map(|entry| [entry]);
    let table: Vec<&[u32]> = table.iter().map(|row| &row[..]).collect();
    let sheet = exponent(23, 11, 11, &table, &entries).bytes();
    let wrong = round(&[1; 8], 1, &[2]);
    let rows = [0, 1, 3, 4, 6, 7];
    assert_eq!(judge(&sheet, &wrong), rejected(&rows));
    assert_eq!(in_session(&sheet, &wrong).0, rejected(&rows));
    let rounds = file(1, &words(&[wrong], 8, 1));
    assert_eq!(reason(&sheet, &rounds), "rejected 0 4 2 1 9 3 3 13 6 4 18 8 6 6 12 7 8 13\n");
    assert_eq!(marker(&sheet, &rounds, &[1]), "rounds 1\n0 rejected 0 1 3 4 6 7\nfail\n");
}

#[test]
fn one_bit_makes_a_row_differ() {
    // m is prime. c is 0, so the right side is t, and the left side is 1.
    let m = 4_294_967_291;
    let sheet = root(m, 65_537, 2, &[2; 8]).bytes();
    let t = [1, 1 + (1 << 8), 1 + (1 << 16), 1, 1 + (1 << 24), 3, 1 + (1 << 31), 1];
    let wrong = round(&t, 0, &[1; 8]);
    assert_eq!(judge(&sheet, &wrong), rejected(&[1, 2, 4, 5, 6]));
    let line = reason(&sheet, &file(1, &words(&[wrong], 8, 8)));
    assert_eq!(line, "rejected 1 1 257 2 1 65537 4 1 16777217 5 1 3 6 1 2147483649\n");
}

#[test]
fn any_differing_row_makes_20() {
    // The right commitment is 9 in every row. The rounds agree in theirs.
    for bits in 0..256 {
        let first = power_round(bits);
        let second = Round { challenge: 1, response: eight(&[1]), ..first.clone() };
        let witness = if bits == 0 { Ok(eight(&[7])) } else { Err(20) };
        assert_eq!(extract(&powers(8), &first, &second), witness);
    }
}

/// An OR round of c 4, on eight powers and then on eight roots, or the other
/// way round. The c0 and c1 are 3 and 1, or 1 and 3.
fn or_round_of(first: Round, second: Round) -> or_proof::OrRound {
    or_proof::OrRound {
        commitments: [first.commitment, second.commitment],
        challenge: 4,
        first_challenge: first.challenge,
        responses: [first.response, second.response],
    }
}

#[test]
fn every_set_of_rows_is_given_for_both_sides() {
    // The powers have K 5 here, as the roots do.
    let table: Vec<&[u32]> = vec![&[2]; 8];
    let powers = exponent(23, 11, 5, &table, &[13; 8]).bytes();
    let (there, back) = ([&powers[..], &roots(8)], [&roots(8)[..], &powers]);
    for bits in 0..256_u32 {
        // An accepted side, the same rows, all others, and one row at an end.
        for others in [0, bits, 255 - bits, 1, 128, 255] {
            let verdict = |first, second| match first | second {
                0 => OrVerdict::Accepted,
                _ => OrVerdict::Rejected([first, second].map(rows_of)),
            };
            let round = or_round_of(power_round(bits), root_round(others));
            assert_eq!(or_proof::judge(there, &round), verdict(bits, others));
            let round = or_round_of(root_round(others), power_round(bits));
            assert_eq!(or_proof::judge(back, &round), verdict(others, bits));
        }
    }
}

#[test]
fn every_pair_of_sets_on_sides_of_other_sizes() {
    // Three rows and two. What the round has beyond them is not read.
    let sheets = [powers(3), powers(2)];
    for bits in 0..32_u32 {
        let (first, second) = (bits >> 2, bits & 3);
        let [left, right] = [first | 0b1010_1000, second | 0b0101_0100].map(power_round);
        let round = or_proof::OrRound {
            commitments: [left.commitment, right.commitment],
            challenge: 6,
            first_challenge: 3,
            responses: [left.response, right.response],
        };
        let verdict = match bits {
            0 => OrVerdict::Accepted,
            _ => OrVerdict::Rejected([rows_of(first), rows_of(second)]),
        };
        assert_eq!(or_proof::judge(lent(&sheets), &round), verdict);
    }
}
