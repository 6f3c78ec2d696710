//! OR rounds on small sheets, over all rounds and all choices.

use std::collections::{BTreeMap, BTreeSet};

use judge::or_proof::*;
use judge::{Sheet, load};

use crate::naive::*;
use crate::tools::*;

/// A round as its numbers, in the order t, c, c0, r.
type Numbers = ([[u32; 8]; 2], u32, u32, [[u32; 8]; 2]);

fn numbers(round: &OrRound) -> Numbers {
    (round.commitments, round.challenge, round.first_challenge, round.responses)
}

fn whole_round((commitments, challenge, first_challenge, responses): Numbers) -> OrRound {
    OrRound { commitments, challenge, first_challenge, responses }
}

/// Two sheets and all that can stand in a round on them.
struct Pair {
    bytes: [Vec<u8>; 2],
    sheets: [Sheet; 2],
    commitments: [Vec<[u32; 8]>; 2],
    domains: [Vec<[u32; 8]>; 2],
    witnesses: [Vec<[u32; 8]>; 2],
}

fn pair(raw: [Raw; 2]) -> Pair {
    let bytes = raw.map(|raw| raw.bytes());
    let sheets = [0, 1].map(|side| load(&bytes[side]).unwrap());
    let commitments = [0, 1].map(|side: usize| {
        let sheet = &sheets[side];
        choices(&elements(sheet), sheet.rows as usize)
    });
    let domains = [0, 1].map(|side: usize| {
        let sheet = &sheets[side];
        choices(&slots(sheet), sheet.columns as usize)
    });
    let witnesses = [0, 1].map(|side: usize| {
        let mut all = domains[side].clone();
        all.retain(|x| slow_image(&sheets[side], x) == sheets[side].statement);
        all
    });
    Pair { bytes, sheets, commitments, domains, witnesses }
}

/// The slow verdict of both sides, for values that are in range.
fn slow_or_verdict(sheets: &[Sheet; 2], round: &OrRound) -> OrVerdict {
    let c0 = round.first_challenge;
    // c1 is the one challenge that adds up to c with c0.
    let k = sheets[0].challenges;
    let adds_up = |c1: &u32| (c0 + c1) % k == round.challenge;
    let c1 = (0..k).find(adds_up).unwrap();
    let rows = [(0, c0), (1, c1)].map(|(side, challenge): (usize, u32)| {
        let (t, r) = (&round.commitments[side], &round.responses[side]);
        slow_rows(&sheets[side], t, challenge, r)
    });
    if rows.as_flattened().contains(&true) {
        OrVerdict::Rejected(rows)
    } else {
        OrVerdict::Accepted
    }
}

/// All accepted rounds with challenge c, by judging every choice.
fn accepted(pair: &Pair, c: u32) -> BTreeSet<Numbers> {
    let mut found = BTreeSet::new();
    for t0 in &pair.commitments[0] {
        for t1 in &pair.commitments[1] {
            for c0 in 0..pair.sheets[0].challenges {
                for r0 in &pair.domains[0] {
                    for r1 in &pair.domains[1] {
                        let round = whole_round(([*t0, *t1], c, c0, [*r0, *r1]));
                        let verdict = judge(lent(&pair.bytes), &round);
                        assert_eq!(verdict, slow_or_verdict(&pair.sheets, &round));
                        if verdict == OrVerdict::Accepted {
                            found.insert(numbers(&round));
                        }
                    }
                }
            }
        }
    }
    found
}

/// The rounds that a holder of this side's witness makes for c, over all
/// nonces and simulated values.
fn honest(pair: &Pair, side: usize, x: &[u32; 8], c: u32) -> Vec<Numbers> {
    let mut made = Vec::new();
    for nonce in &pair.domains[side] {
        for challenge in 0..pair.sheets[0].challenges {
            for response in &pair.domains[1 - side] {
                let sheets = lent(&pair.bytes);
                let new = OrProver::new();
                let (t, session) = commit(sheets, new, side as u32, nonce, challenge, response);
                let (answer, _) = respond(sheets, session, c, x);
                let (t, answer) = (t.unwrap(), answer.unwrap());
                made.push((t, c, answer.first_challenge, answer.responses));
            }
        }
    }
    made
}

/// Every two of these rounds with equal commitments and different c give a
/// witness, the same one with the rounds swapped. Answers how often.
fn extracted(pair: &Pair, rounds: &[OrRound]) -> [u32; 2] {
    let mut given = [0; 2];
    for first in rounds {
        for second in rounds {
            let answer = extract(lent(&pair.bytes), first, second);
            assert_eq!(answer, extract(lent(&pair.bytes), second, first));
            if first.challenge == second.challenge {
                assert_eq!(answer, Err(19));
                continue;
            }
            let answer = answer.unwrap();
            let side = usize::from(first.first_challenge == second.first_challenge);
            assert_eq!(answer.side, side as u32);
            assert!(pair.witnesses[side].contains(&answer.witness));
            given[side] += 1;
        }
    }
    given
}

/// Tries it all on sheets that have these many witnesses.
fn whole(raw: [Raw; 2], witness_counts: [usize; 2]) {
    let pair = pair(raw);
    let counts = [0, 1].map(|side: usize| pair.witnesses[side].len());
    assert_eq!(counts, witness_counts);
    let mut by_commitments: BTreeMap<[[u32; 8]; 2], Vec<OrRound>> = BTreeMap::new();
    for c in 0..pair.sheets[0].challenges {
        let accepted = accepted(&pair, c);
        for (side, witnesses) in pair.witnesses.iter().enumerate() {
            for x in witnesses {
                let made = honest(&pair, side, x, c);
                let set: BTreeSet<Numbers> = made.iter().copied().collect();
                assert_eq!(set.len(), made.len());
                assert_eq!(set, accepted);
            }
        }
        for round in accepted {
            let same = by_commitments.entry(round.0).or_default();
            same.push(whole_round(round));
        }
    }
    let mut given = [0; 2];
    for rounds in by_commitments.values() {
        let more = extracted(&pair, rounds);
        given = [given[0] + more[0], given[1] + more[1]];
    }
    // A side gives its witness somewhere exactly when it has one.
    assert_eq!(given.map(|times| times > 0), counts.map(|count| count > 0));
}

#[test]
fn two_bases_over_all_choices() {
    let first = exponent(11, 5, 5, &[&[3]], &[9]);
    whole([first.clone(), exponent(11, 5, 5, &[&[4]], &[3])], [1, 1]);
    whole([first.clone(), first], [1, 1]);
}

#[test]
fn a_count_below_the_order() {
    let first = exponent(11, 5, 3, &[&[3]], &[9]);
    whole([first, exponent(7, 3, 3, &[&[2]], &[4])], [1, 1]);
    let second = exponent(11, 5, 2, &[&[4]], &[3]);
    whole([root(9, 5, 2, &[2]), second], [1, 1]);
}

#[test]
fn a_base_and_a_root_over_all_choices() {
    let base = exponent(11, 5, 5, &[&[3]], &[9]);
    whole([base.clone(), root(9, 5, 5, &[2])], [1, 1]);
    whole([root(9, 5, 5, &[4]), base], [1, 1]);
    whole([root(9, 3, 3, &[8]), root(7, 3, 3, &[6])], [3, 3]);
}

#[test]
fn a_side_without_a_witness() {
    let none = root(9, 3, 3, &[2]);
    let some = exponent(7, 3, 3, &[&[2]], &[4]);
    whole([none.clone(), some.clone()], [0, 1]);
    whole([some, none.clone()], [1, 0]);
    whole([none, exponent(7, 3, 3, &[&[1]], &[2])], [0, 0]);
}

#[test]
fn sheets_of_other_sizes() {
    let wide = exponent(7, 3, 3, &[&[2, 4]], &[2]);
    let tall = exponent(7, 3, 3, &[&[2], &[4]], &[4, 2]);
    whole([wide.clone(), tall.clone()], [3, 1]);
    whole([tall, wide], [1, 3]);
}

#[test]
fn an_order_that_is_no_prime() {
    // 2 has order 3 mod 7, so 2, 5 and 8 are witnesses. The ninth powers mod 9
    // are the cubes, and 8 is the cube of 2, 5 and 8.
    let base = exponent(7, 9, 3, &[&[2]], &[4]);
    whole([base, root(9, 9, 3, &[8])], [3, 3]);
}
