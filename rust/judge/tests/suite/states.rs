//! Saving Peggy's session and returning to a named state.

use judge::*;

use crate::tools::*;

pub const PHASES: [ProverPhase; 4] =
    [ProverPhase::New, ProverPhase::Committed, ProverPhase::Answered, ProverPhase::Dropped];

/// A session in which nothing is zero: every name is saved and the list has
/// two commitments.
pub fn full(phase: ProverPhase) -> Prover {
    let mut session = Prover {
        phase,
        nonce: [1, 2, 3, 4, 5, 6, 7, 8],
        commitment: [11, 12, 13, 14, 15, 16, 17, 18],
        count: 2,
        ..Prover::new()
    };
    for (name, place) in session.saved.iter_mut().enumerate() {
        *place = Some(Saved {
            phase: PHASES[name % 4],
            nonce: [100 + name as u32; 8],
            commitment: [200 + name as u32; 8],
        });
    }
    for (number, place) in session.answered.iter_mut().enumerate() {
        *place = [300 + number as u32; 8];
    }
    session
}

/// The session after a call that is not refused.
pub fn done((answer, session): (Result<(), u32>, Prover)) -> Prover {
    assert_eq!(answer, Ok(()));
    session
}

/// The session after committing on this sheet to a nonce of one slot, with this
/// commitment of one value.
pub fn committed(sheet: &[u8], session: Prover, nonce: u32, t: u32) -> Prover {
    let (answer, session) = commit(sheet, session, &eight(&[nonce]));
    assert_eq!(answer, Ok(eight(&[t])));
    session
}

/// The session after this answer of one slot to a challenge.
pub fn answered(sheet: &[u8], session: Prover, c: u32, x: u32, r: u32) -> Prover {
    let (answer, session) = respond(sheet, session, c, &eight(&[x]));
    assert_eq!(answer, Ok(eight(&[r])));
    session
}

#[test]
fn saving_keeps_the_state_and_changes_nothing_else() {
    for phase in PHASES {
        for name in 0..8 {
            let session = full(phase);
            let next = done(save(session.clone(), name));
            let mut expected = session.clone();
            expected.saved[name as usize] =
                Some(Saved { phase, nonce: session.nonce, commitment: session.commitment });
            assert_eq!(next, expected);
            // Saving the same again changes nothing.
            assert_eq!(save(next.clone(), name), (Ok(()), next));
        }
    }
}

#[test]
fn returning_brings_three_values_back_and_changes_nothing_else() {
    for phase in PHASES {
        for name in 0..8_u32 {
            let session = full(phase);
            let next = done(return_to(session.clone(), name.into()));
            let expected = Prover {
                phase: PHASES[name as usize % 4],
                nonce: [100 + name; 8],
                commitment: [200 + name; 8],
                ..session
            };
            assert_eq!(next, expected);
            // A name can be returned to more than once.
            assert_eq!(return_to(next.clone(), name.into()), (Ok(()), next));
        }
    }
}

#[test]
fn a_name_that_is_saved_again_is_replaced() {
    let sheet = page_a();
    let session = done(save(Prover::new(), 5));
    let session = committed(&sheet, session, 5, 9);
    let session = done(save(session, 5));
    let session = done(drop_session(session));
    let session = done(return_to(session, 5));
    assert_eq!(session.phase, ProverPhase::Committed);
    assert_eq!((session.nonce, session.commitment), (eight(&[5]), eight(&[9])));
    assert_eq!(session.saved.iter().filter(|state| state.is_some()).count(), 1);
}

#[test]
fn an_answered_commitment_is_not_answered_again() {
    // Page A: nonce 5, c 3 give t 9 and r 4.
    let sheet = page_a();
    let session = done(save(Prover::new(), 0));
    let session = committed(&sheet, session, 5, 9);
    let session = done(save(session, 3));
    let session = answered(&sheet, session, 3, 7, 4);
    assert_eq!(session.phase, ProverPhase::Answered);
    assert_eq!((session.nonce, session.commitment), ([0; 8], eight(&[9])));
    assert_eq!((session.answered[0], session.count), (eight(&[9]), 1));
    // The saved copy keeps its nonce.
    assert_eq!(session.saved[3].unwrap().nonce, eight(&[5]));
    let session = done(return_to(session, 3));
    assert_eq!(session.phase, ProverPhase::Committed);
    assert_eq!(session.nonce, eight(&[5]));
    // Neither the same challenge nor another one is answered.
    for c in 0..11 {
        let (answer, back) = respond(&sheet, session.clone(), c, &eight(&[7]));
        assert_eq!((answer, &back), (Err(32), &session));
    }
    // She goes on differently: the same nonce again, and then another one.
    let session = done(return_to(session, 0));
    let again = committed(&sheet, session.clone(), 5, 9);
    let (answer, back) = respond(&sheet, again.clone(), 1, &eight(&[7]));
    assert_eq!((answer, back), (Err(32), again));
    let session = committed(&sheet, session, 4, 16);
    let session = answered(&sheet, session, 1, 7, 0);
    assert_eq!(session.answered[..2], [eight(&[9]), eight(&[16])]);
    assert_eq!(session.count, 2);
    assert!(session.answered[2..].iter().all(|place| *place == [0; 8]));
}

#[test]
fn a_commitment_that_was_not_answered_can_be_answered_after_a_return() {
    let sheet = page_a();
    let session = committed(&sheet, Prover::new(), 5, 9);
    let session = done(save(session, 7));
    // A refused answer and a dropped session answer nothing.
    let (answer, session) = respond(&sheet, session, 3, &eight(&[6]));
    assert_eq!(answer, Err(17));
    let session = done(drop_session(session));
    assert_eq!((session.nonce, session.count), ([0; 8], 0));
    assert_eq!(session.saved[7].unwrap().nonce, eight(&[5]));
    let session = done(return_to(session, 7));
    let session = answered(&sheet, session, 3, 7, 4);
    assert_eq!(session.count, 1);
}

#[test]
fn a_return_to_an_answered_or_dropped_state_answers_nothing() {
    let sheet = page_a();
    let session = committed(&sheet, Prover::new(), 5, 9);
    let session = done(save(session, 1));
    let session = done(save(done(drop_session(session)), 2));
    let session = done(return_to(session, 1));
    let session = done(save(answered(&sheet, session, 3, 7, 4), 0));
    for name in [0, 2] {
        let session = done(return_to(session.clone(), name));
        let (answer, back) = respond(&sheet, session.clone(), 3, &eight(&[7]));
        assert_eq!((answer, &back), (Err(21), &session));
        let (answer, back) = commit(&sheet, session.clone(), &eight(&[4]));
        assert_eq!((answer, &back), (Err(21), &session));
        let (answer, back) = drop_session(session.clone());
        assert_eq!((answer, &back), (Err(21), &session));
    }
}

#[test]
fn another_nonce_of_an_answered_commitment_is_not_answered() {
    // The eleventh powers mod 23 of 1, 2 and 3 are 1.
    let sheet = root(23, 11, 11, &[1]).bytes();
    let session = done(save(Prover::new(), 0));
    let session = committed(&sheet, session, 2, 1);
    let session = answered(&sheet, session, 5, 1, 2);
    let session = done(return_to(session, 0));
    let session = committed(&sheet, session, 3, 1);
    let (answer, back) = respond(&sheet, session.clone(), 5, &eight(&[1]));
    assert_eq!((answer, back), (Err(32), session));
}

#[test]
fn a_commitment_that_was_answered_on_another_sheet_counts() {
    // 3^2 is 9, as 2^5 is.
    let [first, second] = two_bases();
    let session = done(save(Prover::new(), 0));
    let session = committed(&first, session, 5, 9);
    let session = answered(&first, session, 3, 7, 4);
    let session = done(return_to(session, 0));
    let session = committed(&second, session, 2, 9);
    let (answer, back) = respond(&second, session.clone(), 3, &eight(&[4]));
    assert_eq!((answer, back), (Err(32), session));
}

#[test]
fn a_saved_state_of_another_sheet_is_21() {
    let [first, second] = two_bases();
    let session = committed(&first, Prover::new(), 5, 9);
    let session = done(save(session, 4));
    let session = done(return_to(done(drop_session(session)), 4));
    let (answer, back) = respond(&second, session.clone(), 3, &eight(&[4]));
    assert_eq!((answer, back), (Err(21), session.clone()));
    answered(&first, session, 3, 7, 4);
}

#[test]
fn without_a_return_one_challenge_is_answered() {
    let sheet = page_a();
    let session = done(save(Prover::new(), 0));
    let session = done(save(committed(&sheet, session, 5, 9), 1));
    let session = done(save(answered(&sheet, session, 3, 7, 4), 2));
    for name in 0..8 {
        let session = done(save(session.clone(), name));
        for c in 0..11 {
            assert_eq!(respond(&sheet, session.clone(), c, &eight(&[7])).0, Err(21));
            assert_eq!(commit(&sheet, session.clone(), &eight(&[c])).0, Err(21));
        }
        assert_eq!(drop_session(session).0, Err(21));
    }
}

#[test]
fn a_run_of_64_answers() {
    // 917,519 is prime and is 14 · 65,537 + 1. The entry is 2^14 and the
    // statement 2^98, so the witness is 7.
    let sheet = exponent(917_519, 65_537, 65_536, &[&[16_384]], &[237_963]).bytes();
    let new = done(save(Prover::new(), 6));
    let mut session = new;
    let mut list = Vec::new();
    for nonce in 1..=64_u32 {
        session = done(return_to(session, 6));
        let (t, next) = commit(&sheet, session, &eight(&[nonce]));
        let (r, next) = respond(&sheet, next, nonce, &eight(&[7]));
        assert_eq!(r, Ok(eight(&[8 * nonce])));
        list.push(t.unwrap());
        assert_eq!(next.count, u64::from(nonce));
        assert_eq!(next.answered[..list.len()], list[..]);
        session = next;
    }
    // The list is full: a new commitment is 33 and a listed one is still 32.
    session = done(return_to(session, 6));
    let (_, next) = commit(&sheet, session.clone(), &eight(&[65]));
    let (answer, back) = respond(&sheet, next.clone(), 1, &eight(&[7]));
    assert_eq!((answer, back), (Err(33), next));
    for nonce in [1, 30, 64] {
        let (_, next) = commit(&sheet, session.clone(), &eight(&[nonce]));
        let (answer, back) = respond(&sheet, next.clone(), 1, &eight(&[7]));
        assert_eq!((answer, back), (Err(32), next));
    }
}

#[test]
fn all_eight_rows_and_columns_are_brought_back() {
    let sheet = root(35, 5, 5, &[32; 8]).bytes();
    let nonce = [3, 1, 2, 4, 6, 8, 9, 11];
    let (t, session) = commit(&sheet, Prover::new(), &nonce);
    let session = done(save(session, 0));
    let (first, session) = respond(&sheet, session, 1, &[2; 8]);
    let session = done(return_to(session, 0));
    assert_eq!((session.nonce, session.commitment), (nonce, t.unwrap()));
    assert_eq!(session.answered[0], t.unwrap());
    assert!(first.is_ok());
    assert_eq!(respond(&sheet, session, 1, &[2; 8]).0, Err(32));
}
