//! Demand 3 on small sheets, over all rounds.

use std::collections::{BTreeMap, BTreeSet};

use judge::*;

use crate::naive::*;
use crate::tools::*;

type Pair = ([u32; 8], [u32; 8]);

/// All accepted rounds (t, r) with challenge c, by judging every choice.
fn accepted(bytes: &[u8], sheet: &Sheet, c: u32, responses: &[[u32; 8]]) -> BTreeSet<Pair> {
    // One row is tried with every number. More rows are tried with every group
    // element and two numbers that are none.
    let mut values = elements(sheet);
    values.extend([0, sheet.modulus]);
    if sheet.rows == 1 {
        values = (0..=sheet.modulus + 1).collect();
    }
    let mut found = BTreeSet::new();
    for t in choices(&values, sheet.rows as usize) {
        let used = &t[..sheet.rows as usize];
        let in_group = used.iter().all(|v| slow_element(sheet, *v));
        for r in responses {
            let verdict = judge(bytes, &round(&t, c, r));
            let expected =
                if in_group { slow_verdict(sheet, &t, c, r) } else { Verdict::Refused(14) };
            assert_eq!(verdict, expected);
            if verdict == Verdict::Accepted {
                found.insert((t, *r));
            }
        }
    }
    found
}

/// The same rounds, each met once.
fn same_rounds(list: &[Pair], accepted: &BTreeSet<Pair>) {
    let set: BTreeSet<Pair> = list.iter().copied().collect();
    assert_eq!(set.len(), list.len());
    assert_eq!(&set, accepted);
}

/// Tries all of demand 3 on a sheet that has this many witnesses.
fn whole(raw: Raw, witness_count: usize) {
    let bytes = raw.bytes();
    let sheet = load(&bytes).unwrap();
    let domain = choices(&slots(&sheet), sheet.columns as usize);
    let witnesses: Vec<[u32; 8]> =
        domain.iter().copied().filter(|x| slow_image(&sheet, x) == sheet.statement).collect();
    assert_eq!(witnesses.len(), witness_count);
    let mut by_commitment: BTreeMap<[u32; 8], Vec<Round>> = BTreeMap::new();
    for c in 0..sheet.challenges {
        let accepted = accepted(&bytes, &sheet, c, &domain);
        let simulated: Vec<Pair> =
            domain.iter().map(|r| (simulate(&bytes, c, r).unwrap(), *r)).collect();
        same_rounds(&simulated, &accepted);
        for x in &witnesses {
            let honest: Vec<Pair> = domain
                .iter()
                .map(|k| {
                    let (t, session) = commit(&bytes, Prover::new(), k);
                    let (r, _) = respond(&bytes, session, c, x);
                    (t.unwrap(), r.unwrap())
                })
                .collect();
            same_rounds(&honest, &accepted);
        }
        for (t, r) in accepted {
            by_commitment.entry(t).or_default().push(round(&t, c, &r));
        }
    }
    let mut extracted = 0;
    for rounds in by_commitment.values() {
        for first in rounds {
            for second in rounds {
                let answer = extract(&bytes, first, second);
                if first.challenge == second.challenge {
                    assert_eq!(answer, Err(19));
                    continue;
                }
                let witness = answer.unwrap();
                assert!(witnesses.contains(&witness));
                assert_eq!(extract(&bytes, second, first), Ok(witness));
                extracted += 1;
            }
        }
    }
    assert_eq!(extracted > 0, witness_count > 0);
}

#[test]
fn one_base() {
    whole(exponent(23, 11, 11, &[&[2]], &[13]), 1);
}

#[test]
fn two_bases() {
    whole(exponent(11, 5, 5, &[&[3, 4]], &[9]), 5);
}

#[test]
fn two_rows_with_and_without_a_witness() {
    whole(exponent(11, 5, 5, &[&[3], &[4]], &[9, 5]), 1);
    whole(exponent(11, 5, 5, &[&[3], &[4]], &[9, 3]), 0);
}

#[test]
fn two_rows_of_two_columns() {
    whole(exponent(7, 3, 3, &[&[2, 4], &[4, 1]], &[2, 4]), 1);
    whole(exponent(7, 3, 3, &[&[2, 4], &[4, 2]], &[2, 2]), 0);
}

#[test]
fn an_order_that_is_no_prime() {
    // 2 has order 5 mod 31, 5 has order 3. 25 is no power of 2.
    whole(exponent(31, 15, 3, &[&[2]], &[16]), 3);
    whole(exponent(31, 15, 3, &[&[2]], &[25]), 0);
    whole(exponent(31, 15, 3, &[&[2, 5]], &[25]), 15);
}

#[test]
fn a_modulus_that_is_no_prime() {
    // 11 and 16 have order 3 mod 35.
    whole(exponent(35, 3, 3, &[&[11], &[16]], &[16, 11]), 1);
    whole(exponent(8, 2, 2, &[&[3, 5]], &[7]), 1);
    whole(exponent(8, 4, 2, &[&[3]], &[5]), 0);
}

#[test]
fn one_root() {
    whole(root(35, 5, 5, &[32]), 1);
    whole(root(23, 11, 11, &[1]), 11);
    whole(root(23, 11, 11, &[5]), 0);
}

#[test]
fn an_exponent_that_is_no_prime() {
    whole(root(16, 15, 3, &[7]), 1);
    whole(root(35, 4, 2, &[1]), 8);
    whole(root(35, 4, 2, &[2]), 0);
}

#[test]
fn two_roots() {
    whole(root(9, 3, 3, &[8, 1]), 9);
    whole(root(9, 5, 5, &[2, 4]), 1);
    whole(root(9, 3, 3, &[8, 2]), 0);
}
