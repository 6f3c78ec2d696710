//! Random watches against the slow rules, and random bytes and numbers.

use std::collections::BTreeSet;

use judge::watch::*;
use judge::*;

use crate::naive::*;
use crate::random::{bytes, small};
use crate::tools::*;
use crate::watches::*;

/// The verdict on any round of a sheet that loads.
fn slow_judged(sheet: &Sheet, round: &Round) -> Verdict {
    let (s, n) = (sheet.rows as usize, sheet.columns as usize);
    let (t, c, r) = (&round.commitment, round.challenge, &round.response);
    if t[..s].iter().any(|value| !slow_element(sheet, *value)) {
        return Verdict::Refused(14);
    }
    if c >= sheet.challenges {
        return Verdict::Refused(15);
    }
    let slots = slots(sheet);
    if r[..n].iter().any(|slot| !slots.contains(slot)) {
        return Verdict::Refused(16);
    }
    slow_verdict(sheet, t, c, r)
}

/// The power of a group element of kind 2. The exponent may be negative.
fn slow_signed(v: u32, exponent: i64, m: u32) -> u32 {
    let inverse = (1..m).find(|w| v * w % m == 1).unwrap();
    let base = if exponent < 0 { inverse } else { v };
    slow_power(base, exponent.unsigned_abs() as u32, m)
}

/// The witness of two accepted rounds by 01's formula, with the first b above
/// 0 that has an a.
fn slow_witness(sheet: &Sheet, first: &Round, second: &Round) -> [u32; 8] {
    let (l, m) = (i64::from(sheet.order), sheet.modulus);
    let away = i64::from(first.challenge) - i64::from(second.challenge);
    let b = (1..=l).find(|b| (1 - away * b) % l == 0).unwrap();
    let a = (1 - away * b) / l;
    std::array::from_fn(|j| {
        let (r, other) = (first.response[j], second.response[j]);
        if j >= sheet.columns as usize {
            0
        } else if sheet.kind == 1 {
            (b * (i64::from(r) - i64::from(other))).rem_euclid(l) as u32
        } else {
            let quotient = r * slow_signed(other, -1, m) % m;
            let left = slow_signed(sheet.statement[j], a, m);
            left * slow_signed(quotient, b, m) % m
        }
    })
}

/// The round with 0 in all places that are not read.
fn cleared(sheet: &Sheet, given: &Round) -> Round {
    let (s, n) = (sheet.rows as usize, sheet.columns as usize);
    round(&given.commitment[..s], given.challenge, &given.response[..n])
}

/// What a watch on a sheet that loads answers, and the watch after it.
fn slow_watched(bytes: &[u8], sheet: &Sheet, watch: &Watch, given: &Round) -> (Watched, Watch) {
    let refused = |number| (no_name(Verdict::Refused(number)), watch.clone());
    let verdict = slow_judged(sheet, given);
    if let Verdict::Refused(number) = verdict {
        return refused(number);
    }
    let held = watch.sheet.iter().take(watch.length.min(308) as usize);
    if watch.length > 308 || !held.eq(bytes) || watch.count > 63 {
        return refused(21);
    }
    if verdict != Verdict::Accepted {
        return (no_name(verdict), watch.clone());
    }
    let s = sheet.rows as usize;
    let mut answer = no_name(verdict);
    for back in 1..=watch.count {
        let earlier = &watch.rounds[back as usize - 1];
        let is_same = earlier.commitment[..s] == given.commitment[..s];
        if is_same && earlier.challenge != given.challenge {
            if slow_judged(sheet, earlier) != Verdict::Accepted {
                return refused(21);
            }
            answer = names(back, &slow_witness(sheet, given, earlier));
            break;
        }
    }
    let mut rounds = vec![cleared(sheet, given)];
    rounds.extend_from_slice(&watch.rounds[..62]);
    let mut next = watch.clone();
    next.rounds.clone_from_slice(&rounds);
    next.count = 63.min(watch.count + 1);
    (answer, next)
}

/// A random round that is often accepted, with one of a few responses and
/// challenges. Places that are not read have random numbers.
fn likely(shifts: &mut Shifts, bytes: &[u8], sheet: &Sheet, responses: &[[u32; 8]]) -> Round {
    let c = shifts.below(u64::from(sheet.challenges)) as u32;
    let r = responses[shifts.below(responses.len() as u64) as usize];
    let t = simulate(bytes, c, &r).unwrap();
    let (s, n) = (sheet.rows as usize, sheet.columns as usize);
    let [mut commitment, mut response] = [shifts.edges(), shifts.edges()];
    commitment[..s].copy_from_slice(&t[..s]);
    response[..n].copy_from_slice(&r[..n]);
    Round { commitment, challenge: c, response }
}

/// Changes one value of a round, often to one in range.
fn change(shifts: &mut Shifts, sheet: &Sheet, round: &mut Round) {
    let [row, column] = [sheet.rows, sheet.columns].map(|used| shifts.below(u64::from(used)));
    match shifts.below(6) {
        0 => round.commitment[row as usize] = shifts.edge() % 90,
        1 => round.commitment[row as usize] = shifts.pick(&elements(sheet)),
        2 => round.challenge = shifts.edge() % 50,
        3 => round.challenge = shifts.below(u64::from(sheet.challenges)) as u32,
        4 => round.response[column as usize] = shifts.edge() % 90,
        _ => round.response[column as usize] = shifts.pick(&slots(sheet)),
    }
}

/// A few responses for a sheet.
fn few(shifts: &mut Shifts, sheet: &Sheet) -> Vec<[u32; 8]> {
    let slots = slots(sheet);
    let count = 1 + shifts.below(6);
    (0..count).map(|_| shifts.picks(&slots)).collect()
}

#[test]
fn long_runs_follow_the_whole_history() {
    let mut shifts = Shifts(0x1A7C_4A7C_1A7C_4A7C);
    let (mut farthest, mut forgotten) = (0, 0);
    for _ in 0..120 {
        let (bytes, sheet) = small(&mut shifts);
        let responses = few(&mut shifts, &sheet);
        let mut watch = opened(&bytes);
        // All accepted rounds, oldest first.
        let mut history: Vec<Round> = Vec::new();
        for _ in 0..150 {
            let mut given = likely(&mut shifts, &bytes, &sheet, &responses);
            if shifts.below(4) == 0 {
                change(&mut shifts, &sheet, &mut given);
            }
            let (answer, next) = take_round(&bytes, watch.clone(), &given);
            let verdict = slow_judged(&sheet, &given);
            assert_eq!(answer.verdict, verdict);
            if verdict != Verdict::Accepted {
                assert_eq!((answer, &next), (no_name(verdict), &watch));
                continue;
            }
            let given = cleared(&sheet, &given);
            let is_named = |earlier: &Round| {
                earlier.commitment == given.commitment && earlier.challenge != given.challenge
            };
            let back = history.iter().rev().position(is_named);
            match back {
                Some(place) if place < 63 => {
                    let earlier = &history[history.len() - 1 - place];
                    let witness = extract(&bytes, earlier, &given).unwrap();
                    assert_eq!(answer, names(place as u32 + 1, &witness));
                    assert_eq!(witness, slow_witness(&sheet, earlier, &given));
                    assert_eq!(witness, slow_witness(&sheet, &given, earlier));
                    assert_eq!(slow_image(&sheet, &witness), sheet.statement);
                    farthest = farthest.max(answer.back);
                }
                _ => {
                    assert_eq!(answer, no_name(Verdict::Accepted));
                    forgotten += u32::from(back.is_some());
                }
            }
            history.push(given);
            watch = next;
            let newest: Vec<Round> = history.iter().rev().take(63).cloned().collect();
            assert_eq!(watch.count as usize, newest.len());
            assert_eq!(watch.rounds[..newest.len()], newest);
        }
    }
    assert!(farthest > 30 && forgotten > 0);
}

/// A random watch on these bytes. Most of its rounds are accepted.
fn by_hand(shifts: &mut Shifts, bytes: &[u8], sheet: &Sheet, responses: &[[u32; 8]]) -> Watch {
    let mut watch = opened(bytes);
    for held in &mut watch.rounds {
        *held = likely(shifts, bytes, sheet, responses);
        if shifts.below(4) == 0 {
            change(shifts, sheet, held);
        }
    }
    for byte in watch.sheet.iter_mut().skip(bytes.len()) {
        *byte = shifts.word() as u8;
    }
    watch.count = shifts.below(64) as u32;
    match shifts.below(20) {
        0 => watch.count = shifts.edge(),
        1 => watch.length = u64::from(shifts.edge()),
        2 => watch.length = shifts.below(310),
        3 => watch.sheet[shifts.below(bytes.len() as u64) as usize] ^= 1,
        _ => {}
    }
    watch
}

#[test]
fn watches_made_by_hand_follow_the_slow_rules() {
    let mut shifts = Shifts(0x4A2D_4A7C_4A2D_4A7C);
    let mut met = BTreeSet::new();
    let mut named = 0;
    for _ in 0..2500 {
        let (bytes, sheet) = small(&mut shifts);
        let responses = few(&mut shifts, &sheet);
        let watch = by_hand(&mut shifts, &bytes, &sheet, &responses);
        for _ in 0..4 {
            let mut given = likely(&mut shifts, &bytes, &sheet, &responses);
            if shifts.below(3) == 0 {
                change(&mut shifts, &sheet, &mut given);
            }
            let (answer, next) = take_round(&bytes, watch.clone(), &given);
            let expected = slow_watched(&bytes, &sheet, &watch, &given);
            assert_eq!((answer, next), expected);
            named += u32::from(answer.back > 0);
            met.insert(match answer.verdict {
                Verdict::Accepted => 0,
                Verdict::Rejected(_) => 1,
                Verdict::Refused(number) => number,
            });
        }
    }
    assert!(named > 1000);
    assert_eq!(Vec::from_iter(met), [0, 1, 14, 15, 16, 21]);
}

#[test]
fn wide_numbers_are_watched() {
    // 2^32 − 5 is prime, and so is e. The statement is the image of x.
    let (m, e) = (4_294_967_291, 4_294_967_279);
    let x = [m - 2; 8];
    let any = root(m, e, 65_536, &[1; 8]).bytes();
    let z = commit(&any, Prover::new(), &x).0.unwrap();
    let sheet = root(m, e, 65_536, &z).bytes();
    let mut watch = opened(&sheet);
    for c in [0, 65_535, 1, 32_768] {
        let (t, session) = commit(&sheet, Prover::new(), &[m - 7; 8]);
        let r = respond(&sheet, session, c, &x).0.unwrap();
        let (answer, next) = take_round(&sheet, watch, &round(&t.unwrap(), c, &r));
        assert_eq!(answer.back, u32::from(c != 0));
        if c != 0 {
            let image = commit(&sheet, Prover::new(), &answer.witness).0;
            assert_eq!(image, Ok(z));
        }
        watch = next;
    }
}

#[test]
fn no_call_panics() {
    let mut shifts = Shifts(0x4A11_4A7C_4A11_4A7C);
    for _ in 0..20_000 {
        let sheet = bytes(&mut shifts);
        let (answer, mut watch) = open(&sheet);
        assert_eq!(answer, load(&sheet).map(|_| ()));
        let any = |shifts: &mut Shifts| Round {
            commitment: shifts.edges(),
            challenge: shifts.edge(),
            response: shifts.edges(),
        };
        watch.rounds = std::array::from_fn(|_| any(&mut shifts));
        if shifts.below(2) == 0 {
            watch.count = shifts.edge();
            watch.length = shifts.next();
        }
        let given = any(&mut shifts);
        let (answer, after) = take_round(&sheet, watch.clone(), &given);
        match load(&sheet) {
            Ok(_) => assert!(!matches!(answer.verdict, Verdict::Refused(2..=11))),
            Err(number) => assert_eq!(answer, no_name(Verdict::Refused(number))),
        }
        assert_eq!(answer.verdict != Verdict::Accepted, after == watch);
    }
}
