//! Refusals 2 to 11, 15 to 17, 21 and 26 of Peggy's OR session.

use judge::or_proof::*;

use crate::refused_or_rounds::refused_sheets;
use crate::tools::*;

const PHASES: [u32; 7] = [NEW, COMMITTED, ANSWERED, DROPPED, 4, 257, u32::MAX];

/// The session of side 0 on `base_and_root` with nonce 5, c1 1 and r1 6.
fn side_0() -> OrProver {
    OrProver {
        phase: COMMITTED,
        nonce: eight(&[5]),
        simulated_response: eight(&[6]),
        commitments: [eight(&[9]), eight(&[33])],
        simulated_challenge: 1,
        side: 0,
    }
}

/// The session of side 1 on `base_and_root` with nonce 3, c0 3 and r0 4.
fn side_1() -> OrProver {
    OrProver {
        nonce: eight(&[3]),
        simulated_response: eight(&[4]),
        simulated_challenge: 3,
        side: 1,
        ..side_0()
    }
}

/// The refusal of committing, if any. A refused call keeps the session.
fn committing(
    sheets: [&[u8]; 2],
    session: &OrProver,
    side: u32,
    nonce: u32,
    c: u32,
    r: u32,
) -> Option<u32> {
    let (nonce, r) = (eight(&[nonce]), eight(&[r]));
    let (answer, back) = commit(sheets, session.clone(), side, &nonce, c, &r);
    assert_eq!(answer.is_err(), &back == session);
    answer.err()
}

/// The refusal of responding, if any. A refused call keeps the session.
fn responding(sheets: [&[u8]; 2], session: &OrProver, c: u32, x: u32) -> Option<u32> {
    let (answer, back) = respond(sheets, session.clone(), c, &eight(&[x]));
    assert_eq!(answer.is_err(), &back == session);
    answer.err()
}

#[test]
fn the_lowest_number_of_both_sheets_is_given() {
    let [first, second] = two_bases();
    let refused = |sheets: [&[u8]; 2], number| {
        for phase in PHASES {
            let session = OrProver { phase, ..side_0() };
            let numbers = (committing(sheets, &session, 0, 99, 99, 99), {
                responding(sheets, &session, 99, 99)
            });
            assert_eq!(numbers, (Some(number), Some(number)));
        }
    };
    for (number, bad) in refused_sheets() {
        refused([&bad, &second], number);
        refused([&first, &bad], number);
        refused([&page_g(), &bad], number);
        for (other, worse) in refused_sheets() {
            refused([&bad, &worse], number.min(other));
        }
    }
    refused([&first, &page_g()], 26);
    refused([&page_g(), &second], 26);
}

#[test]
fn committing_refuses_in_order() {
    let sheets = base_and_root();
    for phase in PHASES {
        let session = OrProver { phase, ..side_0() };
        let refusal = |side, nonce, c, r| committing(lent(&sheets), &session, side, nonce, c, r);
        // Side 0 has a nonce below 11 and a response coprime to 35.
        assert_eq!(refusal(0, 11, 5, 7), Some(15));
        assert_eq!(refusal(0, 5, u32::MAX, 6), Some(15));
        assert_eq!(refusal(0, 11, 4, 7), Some(16));
        assert_eq!(refusal(0, 11, 4, 6), Some(16));
        assert_eq!(refusal(0, 5, 4, 7), Some(16));
        assert_eq!(refusal(0, 0, 4, 0), Some(16));
        // Side 1 has them the other way round.
        assert_eq!(refusal(1, 7, 5, 11), Some(15));
        assert_eq!(refusal(1, 7, 4, 11), Some(16));
        assert_eq!(refusal(1, 7, 4, 10), Some(16));
        assert_eq!(refusal(1, 6, 4, 11), Some(16));
        assert_eq!(refusal(9, 0, 4, 0), Some(16));
        let state = if phase == NEW { None } else { Some(21) };
        assert_eq!(refusal(0, 0, 4, 34), state);
        assert_eq!(refusal(1, 34, 4, 0), state);
        assert_eq!(refusal(9, 34, 0, 0), state);
    }
}

#[test]
fn responding_refuses_in_order() {
    let sheets = base_and_root();
    for phase in PHASES {
        let state = if phase == COMMITTED { None } else { Some(21) };
        // Side 0 has the witness 7, and 7 is no slot of side 1.
        let session = OrProver { phase, ..side_0() };
        let refusal = |c, x| responding(lent(&sheets), &session, c, x);
        assert_eq!(refusal(5, 11), Some(15));
        assert_eq!(refusal(u32::MAX, 7), Some(15));
        assert_eq!(refusal(4, 11), Some(16));
        assert_eq!(refusal(4, 2), Some(17));
        assert_eq!(refusal(4, 7), state);
        // Side 1 has the witness 2, and 12 is a slot of side 1 only.
        let session = OrProver { phase, ..side_1() };
        let refusal = |c, x| responding(lent(&sheets), &session, c, x);
        assert_eq!(refusal(5, 7), Some(15));
        assert_eq!(refusal(4, 7), Some(16));
        assert_eq!(refusal(4, 12), Some(17));
        assert_eq!(refusal(4, 2), state);
    }
}

#[test]
fn a_held_side_beyond_1_is_21_and_has_the_second_sheet() {
    let sheets = base_and_root();
    for phase in PHASES {
        for side in [2, 3, 256, u32::MAX] {
            for start in [side_0(), side_1()] {
                let session = OrProver { phase, side, ..start };
                let refusal = |c, x| responding(lent(&sheets), &session, c, x);
                assert_eq!(refusal(5, 7), Some(15));
                assert_eq!(refusal(4, 7), Some(16));
                assert_eq!(refusal(4, 12), Some(17));
                assert_eq!(refusal(4, 2), Some(21));
            }
        }
    }
    // Neither committing nor dropping tests a held side.
    let session = OrProver { phase: NEW, side: 2, ..side_0() };
    assert_eq!(committing(lent(&sheets), &session, 0, 5, 1, 6), None);
    assert_eq!(drop_session(session).0, Ok(()));
}

#[test]
fn held_values_that_do_not_fit_are_21() {
    let sheets = base_and_root();
    for (start, x) in [(side_0(), 7), (side_1(), 2)] {
        let refusal = |change: &dyn Fn(&mut OrProver)| {
            let mut session = start.clone();
            change(&mut session);
            responding(lent(&sheets), &session, 4, x)
        };
        assert_eq!(refusal(&|_| {}), None);
        // 16 is 5 mod 11 and 38 is 3 mod 35, and both are no slots.
        let (mut big, mut far) = (start.nonce, start.simulated_response);
        big[0] += if start.side == 0 { 11 } else { 35 };
        far[0] += if start.side == 0 { 35 } else { 11 };
        assert_eq!(refusal(&|session| session.nonce = big), Some(21));
        assert_eq!(refusal(&|s| s.simulated_response = far), Some(21));
        // Other slots make other commitments.
        assert_eq!(refusal(&|session| session.nonce[0] = 1), Some(21));
        assert_eq!(refusal(&|s| s.simulated_response[0] = 1), Some(21));
        assert_eq!(refusal(&|s| s.simulated_challenge = 2), Some(21));
        assert_eq!(refusal(&|s| s.simulated_challenge += 5), Some(21));
        assert_eq!(refusal(&|s| s.commitments[0][0] = 8), Some(21));
        assert_eq!(refusal(&|s| s.commitments[1][0] = 1), Some(21));
        assert_eq!(refusal(&|s| s.commitments.swap(0, 1)), Some(21));
        // Commitments count in all eight places, slots in one.
        for place in 1..8 {
            assert_eq!(refusal(&|s| s.commitments[0][place] = 1), Some(21));
            assert_eq!(refusal(&|s| s.commitments[1][place] = 1), Some(21));
            assert_eq!(refusal(&|session| session.nonce[place] = 99), None);
            assert_eq!(refusal(&|s| s.simulated_response[place] = 99), None);
        }
    }
}

#[test]
fn a_challenge_of_k_or_more_that_makes_the_commitment_is_21() {
    // z has order 11 on side 0, so c0 3 and 14 make the same commitment. On
    // side 1 z is 32 and has order 12, so c1 1 and 13 do.
    let sheets = base_and_root();
    for (start, x, more) in [(side_0(), 7, 12), (side_1(), 2, 11)] {
        let mut session = start;
        session.simulated_challenge += more;
        assert_eq!(responding(lent(&sheets), &session, 4, x), Some(21));
    }
    // Both z of two bases have order 11, so K itself is as good as 0 there.
    let sheets = two_bases();
    for (side, nonce, r, x) in [(0, 5, 6, 7), (1, 6, 5, 4)] {
        for (held, number) in [(0, None), (11, Some(21)), (22, Some(21))] {
            let session = OrProver {
                phase: COMMITTED,
                nonce: eight(&[nonce]),
                simulated_response: eight(&[r]),
                commitments: [eight(&[9]), eight(&[16])],
                simulated_challenge: held,
                side,
            };
            assert_eq!(responding(lent(&sheets), &session, 4, x), number);
        }
    }
}

#[test]
fn a_session_of_other_sheets_is_21() {
    let [first, second] = base_and_root();
    let other_way = [&second[..], &first[..]];
    assert_eq!(responding(other_way, &side_0(), 4, 2), Some(21));
    assert_eq!(responding(other_way, &side_1(), 4, 7), Some(21));
    // The other side's sheet alone is another one.
    let other = root(35, 5, 5, &[1]).bytes();
    assert_eq!(responding([&first, &other], &side_0(), 4, 7), Some(21));
    let other = exponent(23, 11, 5, &[&[2]], &[2]).bytes();
    assert_eq!(responding([&other, &second], &side_1(), 4, 2), Some(21));
}

#[test]
fn dropping_tests_the_phase_only() {
    for phase in PHASES {
        let session = OrProver {
            phase,
            nonce: [91; 8],
            simulated_response: [92; 8],
            commitments: [[93; 8], [94; 8]],
            simulated_challenge: 95,
            side: 96,
        };
        let (answer, back) = drop_session(session.clone());
        if phase == NEW || phase == COMMITTED {
            let next =
                OrProver { phase: DROPPED, commitments: [[93; 8], [94; 8]], ..OrProver::new() };
            assert_eq!((answer, back), (Ok(()), next));
        } else {
            assert_eq!((answer, back), (Err(21), session));
        }
    }
}

#[test]
fn answering_keeps_the_commitments_only() {
    let sheets = base_and_root();
    for (start, x) in [(side_0(), 7), (side_1(), 2)] {
        // Places that are not read become zeros too.
        let mut session = start;
        session.nonce[1..].fill(99);
        session.simulated_response[1..].fill(98);
        let (answer, back) = respond(lent(&sheets), session, 4, &eight(&[x]));
        let expected = OrProver {
            phase: ANSWERED,
            commitments: [eight(&[9]), eight(&[33])],
            ..OrProver::new()
        };
        assert_eq!(back, expected);
        let answer = answer.unwrap();
        assert_eq!(answer.first_challenge, 3);
        assert_eq!(answer.responses, [eight(&[4]), eight(&[6])]);
    }
}
