//! Whole runs of the two sessions.

use judge::*;

use crate::tools::*;

#[test]
fn new_sessions_hold_zeros() {
    let prover = Prover::new();
    assert_eq!(prover.phase, ProverPhase::New);
    assert_eq!((prover.nonce, prover.commitment), ([0; 8], [0; 8]));
    assert_eq!(prover.saved, [None; 8]);
    assert_eq!((prover.answered, prover.count), ([[0; 8]; 64], 0));
    assert_eq!(prover, Prover::default());
    let verifier = Verifier::new();
    assert_eq!(verifier.phase, VerifierPhase::Waiting);
    assert_eq!((verifier.commitment, verifier.challenge), ([0; 8], 0));
    assert_eq!(verifier, Verifier::default());
}

#[test]
fn a_run_of_both_boxes() {
    let sheet = exponent(23, 11, 11, &[&[2, 3]], &[18]).bytes();
    let (t, peggy) = commit(&sheet, Prover::new(), &eight_with(&[6, 2], 50));
    let t = t.unwrap();
    assert_eq!(peggy.phase, ProverPhase::Committed);
    assert_eq!((peggy.nonce, peggy.commitment), (eight(&[6, 2]), t));
    let (taken, vic) = take_commitment(&sheet, Verifier::new(), &t);
    assert_eq!((taken, vic.phase), (Ok(()), VerifierPhase::Holding));
    let (taken, vic) = take_challenge(&sheet, vic, 4);
    assert_eq!((taken, vic.phase), (Ok(()), VerifierPhase::Asked));
    let (r, peggy) = respond(&sheet, peggy, 4, &eight_with(&[1, 2], 50));
    let r = r.unwrap();
    assert_eq!(r, eight(&[10, 10]));
    assert_eq!(peggy.phase, ProverPhase::Answered);
    assert_eq!((peggy.nonce, peggy.commitment), ([0; 8], t));
    let (verdict, vic) = take_response(&sheet, vic, &r);
    assert_eq!((verdict, vic.phase), (Verdict::Accepted, VerifierPhase::Judged));
    assert_eq!((vic.commitment, vic.challenge), (t, 4));
}

#[test]
fn one_session_answers_at_most_one_challenge() {
    let sheet = page_a();
    let (_, session) = commit(&sheet, Prover::new(), &eight(&[5]));
    let (_, mut session) = respond(&sheet, session, 3, &eight(&[7]));
    for c in 0..11 {
        let (answer, back) = respond(&sheet, session.clone(), c, &eight(&[7]));
        assert_eq!((answer, &back), (Err(21), &session));
        let (answer, back) = commit(&sheet, back, &eight(&[c]));
        assert_eq!((answer, &back), (Err(21), &session));
        let (answer, back) = drop_session(back);
        assert_eq!((answer, &back), (Err(21), &session));
        session = back;
    }
}

#[test]
fn a_dropped_session_answers_nothing() {
    let sheet = page_a();
    let (_, session) = commit(&sheet, Prover::new(), &eight(&[5]));
    let (answer, session) = drop_session(session);
    assert_eq!(answer, Ok(()));
    assert_eq!((session.nonce, session.commitment), ([0; 8], eight(&[9])));
    assert_eq!(respond(&sheet, session.clone(), 3, &eight(&[7])).0, Err(21));
    assert_eq!(commit(&sheet, session, &eight(&[5])).0, Err(21));
}

#[test]
fn wide_numbers_run_through() {
    // 2^32 − 5 is prime, and one less is 190 times the prime 22605091.
    let (m, q) = (4_294_967_291_u32, 22_605_091_u32);
    let power = |base: u32, exponent: u32| {
        let mut product = 1;
        for _ in 0..exponent {
            product = product * u128::from(base) % u128::from(m);
        }
        product as u32
    };
    let (g, h) = (power(2, 190), power(3, 190));
    let (x, y) = (q - 1, q - 2);
    let inverse = |v: u32| {
        // v^(q − 1) is the inverse of an element of order q.
        let (mut result, mut base, mut left) = (1, u128::from(v), q - 1);
        while left > 0 {
            if left & 1 == 1 {
                result = result * base % u128::from(m);
            }
            base = base * base % u128::from(m);
            left >>= 1;
        }
        result
    };
    // z = g^(−1) · h^(−2).
    let squared = inverse(h) * inverse(h) % u128::from(m);
    let z = (inverse(g) * squared % u128::from(m)) as u32;
    let sheet = exponent(m, q, 65_536, &[&[g, h]], &[z]).bytes();
    let round_of = |c: u32| {
        let (t, session) = commit(&sheet, Prover::new(), &eight(&[q - 1, 12_345_678]));
        let (r, _) = respond(&sheet, session, c, &eight(&[x, y]));
        Round { commitment: t.unwrap(), challenge: c, response: r.unwrap() }
    };
    let (first, second) = (round_of(65_535), round_of(2));
    for made in [&first, &second] {
        assert_eq!(judge(&sheet, made), Verdict::Accepted);
        let simulated = simulate(&sheet, made.challenge, &made.response);
        assert_eq!(simulated, Ok(made.commitment));
    }
    assert_eq!(extract(&sheet, &first, &second), Ok(eight(&[x, y])));
    assert_eq!(extract(&sheet, &second, &first), Ok(eight(&[x, y])));
}

#[test]
fn wide_roots_run_through() {
    let (m, e) = (u32::MAX, 4_294_967_291_u32);
    let x = eight(&[2, m - 2]);
    // The commitment of x is its image, and so the statement.
    let any = root(m, e, 65_536, &[1, 1]).bytes();
    let z = commit(&any, Prover::new(), &x).0.unwrap();
    let sheet = root(m, e, 65_536, &z[..2]).bytes();
    let round_of = |c: u32| {
        let (t, session) = commit(&sheet, Prover::new(), &eight(&[m - 1, 7]));
        let (r, _) = respond(&sheet, session, c, &x);
        Round { commitment: t.unwrap(), challenge: c, response: r.unwrap() }
    };
    let (first, second) = (round_of(65_535), round_of(1));
    assert_eq!(judge(&sheet, &first), Verdict::Accepted);
    assert_eq!(judge(&sheet, &second), Verdict::Accepted);
    let found = extract(&sheet, &first, &second).unwrap();
    assert_eq!(extract(&sheet, &second, &first), Ok(found));
    assert_eq!(commit(&sheet, Prover::new(), &found).0, Ok(z));
}
