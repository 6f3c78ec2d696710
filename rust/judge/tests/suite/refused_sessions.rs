//! Refusals 14 to 17 and 21 of the session calls.

use judge::*;

use crate::tools::*;

const PROVER_PHASES: [ProverPhase; 4] =
    [ProverPhase::New, ProverPhase::Committed, ProverPhase::Answered, ProverPhase::Dropped];

const VERIFIER_PHASES: [VerifierPhase; 4] =
    [VerifierPhase::Waiting, VerifierPhase::Holding, VerifierPhase::Asked, VerifierPhase::Judged];

fn prover(phase: ProverPhase, nonce: [u32; 8], commitment: [u32; 8]) -> Prover {
    Prover { phase, nonce, commitment, ..Prover::new() }
}

fn verifier(phase: VerifierPhase, commitment: [u32; 8], challenge: u32) -> Verifier {
    Verifier { phase, commitment, challenge }
}

#[test]
fn committing_refuses_in_order() {
    let sheet = page_a();
    for phase in PROVER_PHASES {
        let session = prover(phase, eight(&[5]), eight(&[9]));
        let (answer, back) = commit(&sheet, session.clone(), &eight(&[11]));
        assert_eq!((answer, &back), (Err(16), &session));
        let (answer, back) = commit(&sheet, session.clone(), &eight(&[4]));
        if phase == ProverPhase::New {
            assert_eq!(answer, Ok(eight(&[16])));
            let next = prover(ProverPhase::Committed, eight(&[4]), eight(&[16]));
            assert_eq!(back, next);
        } else {
            assert_eq!((answer, &back), (Err(21), &session));
        }
    }
}

#[test]
fn responding_refuses_in_order() {
    let sheet = page_a();
    for phase in PROVER_PHASES {
        let session = prover(phase, eight(&[5]), eight(&[9]));
        let refused = |c: u32, x: u32, number: u32| {
            let (answer, back) = respond(&sheet, session.clone(), c, &eight(&[x]));
            assert_eq!((answer, &back), (Err(number), &session));
        };
        refused(11, 11, 15);
        refused(10, 11, 16);
        refused(10, 6, 17);
        if phase != ProverPhase::Committed {
            refused(10, 7, 21);
        }
    }
}

#[test]
fn responding_refuses_held_values_that_do_not_fit() {
    let sheet = page_a();
    let number = |nonce: [u32; 8], commitment: [u32; 8]| {
        let session = prover(ProverPhase::Committed, nonce, commitment);
        let (answer, back) = respond(&sheet, session.clone(), 3, &eight(&[7]));
        if answer.is_err() {
            assert_eq!(back, session);
        }
        answer.err()
    };
    assert_eq!(number(eight(&[5]), eight(&[9])), None);
    assert_eq!(number(eight(&[16]), eight(&[9])), Some(21));
    assert_eq!(number(eight(&[5]), eight(&[8])), Some(21));
    assert_eq!(number(eight(&[4]), eight(&[9])), Some(21));
    // The commitment counts in all eight places, the nonce in one.
    for place in 1..8 {
        let mut commitment = eight(&[9]);
        commitment[place] = 1;
        assert_eq!(number(eight(&[5]), commitment), Some(21));
        let mut nonce = eight(&[5]);
        nonce[place] = 99;
        assert_eq!(number(nonce, eight(&[9])), None);
    }
    // A session of another sheet.
    let other = exponent(23, 11, 11, &[&[3]], &[12]).bytes();
    let (_, session) = commit(&page_a(), Prover::new(), &eight(&[5]));
    let (answer, back) = respond(&other, session.clone(), 3, &eight(&[4]));
    assert_eq!((answer, back), (Err(21), session));
}

#[test]
fn responding_in_kind_2_refuses_in_order() {
    let sheet = page_g();
    let (_, session) = commit(&sheet, Prover::new(), &eight(&[3]));
    let number = |session: &Prover, c: u32, x: u32| {
        let (answer, back) = respond(&sheet, session.clone(), c, &eight(&[x]));
        if answer.is_err() {
            assert_eq!(&back, session);
        }
        answer.err()
    };
    assert_eq!(number(&session, 5, 7), Some(15));
    assert_eq!(number(&session, 4, 7), Some(16));
    assert_eq!(number(&session, 4, 3), Some(17));
    assert_eq!(number(&Prover::new(), 4, 2), Some(21));
    let bad = prover(ProverPhase::Committed, eight(&[7]), eight(&[33]));
    assert_eq!(number(&bad, 4, 2), Some(21));
    assert_eq!(number(&session, 4, 2), None);
}

#[test]
fn dropping_tests_the_state_only() {
    for phase in PROVER_PHASES {
        let session = prover(phase, [99; 8], [98; 8]);
        let (answer, back) = drop_session(session.clone());
        if matches!(phase, ProverPhase::New | ProverPhase::Committed) {
            let next = prover(ProverPhase::Dropped, [0; 8], [98; 8]);
            assert_eq!((answer, back), (Ok(()), next));
        } else {
            assert_eq!((answer, back), (Err(21), session));
        }
    }
}

#[test]
fn taking_a_commitment_refuses_in_order() {
    let sheet = page_a();
    for phase in VERIFIER_PHASES {
        let session = verifier(phase, [98; 8], 97);
        let (answer, back) = take_commitment(&sheet, session.clone(), &eight(&[5]));
        assert_eq!((answer, &back), (Err(14), &session));
        let (answer, back) = take_commitment(&sheet, session.clone(), &eight_with(&[9], 5));
        if phase == VerifierPhase::Waiting {
            let next = verifier(VerifierPhase::Holding, eight(&[9]), 97);
            assert_eq!((answer, back), (Ok(()), next));
        } else {
            assert_eq!((answer, back), (Err(21), session));
        }
    }
}

#[test]
fn taking_a_challenge_refuses_in_order() {
    let sheet = page_a();
    for phase in VERIFIER_PHASES {
        for held in [9, 5] {
            let session = verifier(phase, eight_with(&[held], 98), 97);
            let (answer, back) = take_challenge(&sheet, session.clone(), 11);
            assert_eq!((answer, &back), (Err(15), &session));
            let (answer, back) = take_challenge(&sheet, session.clone(), 10);
            if phase == VerifierPhase::Holding && held == 9 {
                let next = verifier(VerifierPhase::Asked, eight_with(&[9], 98), 10);
                assert_eq!((answer, back), (Ok(()), next));
            } else {
                assert_eq!((answer, back), (Err(21), session));
            }
        }
    }
}

#[test]
fn taking_a_response_refuses_in_order() {
    let sheet = page_a();
    for phase in VERIFIER_PHASES {
        for (held, challenge) in [(9, 3), (5, 3), (9, 11)] {
            let session = verifier(phase, eight_with(&[held], 98), challenge);
            let (answer, back) = take_response(&sheet, session.clone(), &eight(&[11]));
            assert_eq!((answer, &back), (Verdict::Refused(16), &session));
            for (r, verdict) in [(4, Verdict::Accepted), (5, rejected(&[0]))] {
                let (answer, back) = take_response(&sheet, session.clone(), &eight(&[r]));
                if phase == VerifierPhase::Asked && (held, challenge) == (9, 3) {
                    let next = verifier(VerifierPhase::Judged, eight_with(&[9], 98), 3);
                    assert_eq!((answer, back), (verdict, next));
                } else {
                    assert_eq!((answer, back), (Verdict::Refused(21), session.clone()));
                }
            }
        }
    }
}

#[test]
fn vic_in_kind_2_refuses_in_order() {
    let sheet = page_g();
    let bad = verifier(VerifierPhase::Holding, eight(&[7]), 0);
    assert_eq!(take_challenge(&sheet, bad.clone(), 5).0, Err(15));
    assert_eq!(take_challenge(&sheet, bad, 4).0, Err(21));
    let (answer, _) = take_commitment(&sheet, Verifier::new(), &eight(&[7]));
    assert_eq!(answer, Err(14));
    let bad = verifier(VerifierPhase::Asked, eight(&[33]), 5);
    let (answer, _) = take_response(&sheet, bad.clone(), &eight(&[7]));
    assert_eq!(answer, Verdict::Refused(16));
    let (answer, _) = take_response(&sheet, bad, &eight(&[6]));
    assert_eq!(answer, Verdict::Refused(21));
}
