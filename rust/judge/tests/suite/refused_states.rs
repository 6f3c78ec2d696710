//! Refusals 32 to 34 and their order.

use judge::*;

use crate::states::*;
use crate::tools::*;

const STRANGE: [u64; 8] = [8, 9, 255, 256, 1 << 31, 1 << 32, (1 << 32) + 3, u64::MAX];

#[test]
fn a_name_outside_0_to_7_is_34() {
    for phase in PHASES {
        let session = full(phase);
        for name in STRANGE {
            assert_eq!(save(session.clone(), name), (Err(34), session.clone()));
            assert_eq!(return_to(session.clone(), name), (Err(34), session.clone()));
        }
        for name in 0..8 {
            assert_eq!(save(session.clone(), name).0, Ok(()));
            assert_eq!(return_to(session.clone(), name).0, Ok(()));
        }
    }
}

#[test]
fn a_name_never_saved_is_34_in_returning_only() {
    for phase in PHASES {
        for name in 0..8_u64 {
            let mut session = full(phase);
            session.saved[name as usize] = None;
            let answer = return_to(session.clone(), name);
            assert_eq!(answer, (Err(34), session.clone()));
            // The other names were saved.
            for other in (0..8).filter(|other| *other != name) {
                assert_eq!(return_to(session.clone(), other).0, Ok(()));
            }
            let session = done(save(session, name));
            assert_eq!(return_to(session, name).0, Ok(()));
        }
        let session = Prover { phase, ..Prover::new() };
        for name in 0..8 {
            let answer = return_to(session.clone(), name);
            assert_eq!(answer, (Err(34), session.clone()));
        }
    }
}

#[test]
fn saving_and_returning_test_no_held_value() {
    // A list that counts too many, and values that fit no sheet.
    for phase in PHASES {
        let session =
            Prover { nonce: [u32::MAX; 8], commitment: [0; 8], count: u64::MAX, ..full(phase) };
        assert_eq!(save(session.clone(), 0).0, Ok(()));
        assert_eq!(return_to(session, 0).0, Ok(()));
    }
}

/// Page A's session that holds the nonce 5 and t 9, with this list.
fn listing(list: &[[u32; 8]], count: u64) -> Prover {
    let mut session = committed(&page_a(), Prover::new(), 5, 9);
    session.answered[..list.len()].copy_from_slice(list);
    session.count = count;
    session
}

/// The number, 0 where there is none. A refused call changes nothing.
fn number(session: &Prover, c: u32, x: u32) -> u32 {
    let (answer, back) = respond(&page_a(), session.clone(), c, &eight(&[x]));
    if answer.is_err() {
        assert_eq!(&back, session);
    }
    answer.err().unwrap_or(0)
}

#[test]
fn responding_refuses_in_order() {
    // The list is full and holds the commitment, and the state is wrong.
    let mut session = listing(&[eight(&[9])], 64);
    for phase in PHASES {
        session.phase = phase;
        assert_eq!(number(&session, 11, 11), 15);
        assert_eq!(number(&session, 10, 11), 16);
        assert_eq!(number(&session, 10, 6), 17);
        let expected = if phase == ProverPhase::Committed { 32 } else { 21 };
        assert_eq!(number(&session, 10, 7), expected);
    }
    session.phase = ProverPhase::Committed;
    // A held nonce that does not fit comes before the list.
    session.nonce = eight(&[4]);
    assert_eq!(number(&session, 10, 7), 21);
    session.nonce = eight(&[16]);
    assert_eq!(number(&session, 10, 7), 21);
    session.nonce = eight(&[5]);
    assert_eq!(number(&session, 10, 7), 32);
    session.answered[0] = eight(&[8]);
    assert_eq!(number(&session, 10, 7), 33);
    session.count = 63;
    assert_eq!(number(&session, 10, 7), 0);
}

#[test]
fn a_held_commitment_that_does_not_fit_is_21_though_it_is_listed() {
    let mut session = listing(&[eight_with(&[9], 1)], 1);
    session.commitment = eight_with(&[9], 1);
    assert_eq!(number(&session, 3, 7), 21);
}

#[test]
fn the_list_counts_in_all_eight_places() {
    assert_eq!(number(&listing(&[eight(&[9])], 1), 3, 7), 32);
    for place in 0..8 {
        let mut other = eight(&[9]);
        other[place] += 1;
        assert_eq!(number(&listing(&[other], 1), 3, 7), 0);
    }
    // 32 is 9 mod 23 and yet another commitment.
    assert_eq!(number(&listing(&[eight(&[32])], 1), 3, 7), 0);
    // A new session's list of zeros holds no commitment of zeros.
    assert_eq!(number(&listing(&[], 0), 3, 7), 0);
}

#[test]
fn every_listed_place_counts_and_no_other() {
    for place in 0..64_usize {
        let mut list = [eight(&[8]); 64];
        list[place] = eight(&[9]);
        for count in 0..=64_u64 {
            let expected = match count {
                _ if (place as u64) < count => 32,
                64 => 33,
                _ => 0,
            };
            assert_eq!(number(&listing(&list, count), 3, 7), expected);
        }
        // A list that counts more than 64 has 64 places all the same.
        for count in [65, 100, 256, 1 << 32, u64::MAX] {
            assert_eq!(number(&listing(&list, count), 3, 7), 32);
        }
    }
}

#[test]
fn a_list_of_64_or_more_is_33() {
    let list = [eight(&[8]); 64];
    for count in 0..64 {
        assert_eq!(number(&listing(&list, count), 3, 7), 0);
    }
    for count in [64, 65, 127, 256, 1 << 16, 1 << 32, (1 << 32) + 1, u64::MAX] {
        assert_eq!(number(&listing(&list, count), 3, 7), 33);
    }
}

#[test]
fn an_answer_is_listed_at_the_count() {
    let sheet = page_a();
    let list: [[u32; 8]; 64] = std::array::from_fn(|place| [50 + place as u32; 8]);
    for count in 0..64_u64 {
        let session = listing(&list, count);
        let next = answered(&sheet, session.clone(), 3, 7, 4);
        let mut expected =
            Prover { phase: ProverPhase::Answered, nonce: [0; 8], count: count + 1, ..session };
        expected.answered[count as usize] = eight(&[9]);
        assert_eq!(next, expected);
    }
}

#[test]
fn committing_and_dropping_do_not_read_the_list() {
    let sheet = page_a();
    for count in [0, 1, 64, 65, u64::MAX] {
        let session = Prover { count, answered: [eight(&[9]); 64], ..full(ProverPhase::New) };
        let next = committed(&sheet, session.clone(), 5, 9);
        let expected = Prover {
            phase: ProverPhase::Committed,
            nonce: eight(&[5]),
            commitment: eight(&[9]),
            ..session
        };
        assert_eq!(next, expected);
        let dropped = done(drop_session(next.clone()));
        let expected = Prover { phase: ProverPhase::Dropped, nonce: [0; 8], ..next };
        assert_eq!(dropped, expected);
    }
}
