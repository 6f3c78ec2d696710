//! Whole runs of Peggy's OR session, with numbers worked by hand.

use judge::Prover;
use judge::or_proof::*;

use crate::naive::slow_power;
use crate::tools::*;

/// A session in Committed on two one by one sheets.
fn held(side: u32, nonce: u32, c: u32, r: u32, t: [u32; 2]) -> OrProver {
    OrProver {
        phase: COMMITTED,
        nonce: eight(&[nonce]),
        simulated_response: eight(&[r]),
        commitments: [eight(&[t[0]]), eight(&[t[1]])],
        simulated_challenge: c,
        side,
    }
}

/// A session that has ended with these commitments.
fn ended(phase: u32, t: [u32; 2]) -> OrProver {
    OrProver { phase, ..held(0, 0, 0, 0, t) }
}

fn answer(c0: u32, r: [u32; 2]) -> OrAnswer {
    OrAnswer { first_challenge: c0, responses: [eight(&[r[0]]), eight(&[r[1]])] }
}

#[test]
fn a_new_session_holds_zeros() {
    assert_eq!(OrProver::new(), ended(NEW, [0, 0]));
    assert_eq!(OrProver::default(), OrProver::new());
    assert_eq!((NEW, COMMITTED, ANSWERED, DROPPED), (0, 1, 2, 3));
}

/// Commits on two one by one sheets, with other numbers in the places that
/// are not read, and then answers c with the witness.
fn run(sheets: &[Vec<u8>; 2], start: &OrProver, t: [u32; 2], c: u32, x: u32) -> OrAnswer {
    let (made, session) = commit(
        lent(sheets),
        OrProver::new(),
        start.side,
        &eight_with(&start.nonce[..1], 77),
        start.simulated_challenge,
        &eight_with(&start.simulated_response[..1], 78),
    );
    assert_eq!(made, Ok([eight(&[t[0]]), eight(&[t[1]])]));
    assert_eq!(&session, start);
    let (answer, session) = respond(lent(sheets), session, c, &eight_with(&[x], 79));
    assert_eq!(session, ended(ANSWERED, t));
    answer.unwrap()
}

#[test]
fn either_witness_of_two_bases_makes_one_round() {
    let sheets = two_bases();
    // Side 0: t0 = 2^5 = 9 and t1 = 3^3 · 12^(−2) = 4 · 4. With c 5, c0 is 3
    // and r0 is 5 + 3 · 7.
    let start = held(0, 5, 2, 3, [9, 16]);
    assert_eq!(run(&sheets, &start, [9, 16], 5, 7), answer(3, [4, 3]));
    // Side 1: t1 = 3^6 = 16 and t0 is page C's way. r1 is 6 + 2 · 4.
    let start = held(1, 6, 3, 4, [9, 16]);
    assert_eq!(run(&sheets, &start, [9, 16], 5, 4), answer(3, [4, 3]));
}

#[test]
fn a_challenge_below_the_simulated_one_wraps() {
    let sheets = two_bases();
    let start = held(0, 5, 2, 3, [9, 16]);
    assert_eq!(run(&sheets, &start, [9, 16], 0, 7), answer(9, [2, 3]));
    let start = held(1, 6, 3, 4, [9, 16]);
    assert_eq!(run(&sheets, &start, [9, 16], 1, 4), answer(3, [4, 9]));
    // K is 5 and q is 11, so −1 is 4 and −2 is 3.
    let sheets = base_and_root();
    let start = held(0, 5, 1, 6, [9, 33]);
    assert_eq!(run(&sheets, &start, [9, 33], 0, 7), answer(4, [0, 6]));
    let start = held(1, 3, 3, 4, [9, 33]);
    assert_eq!(run(&sheets, &start, [9, 33], 1, 2), answer(3, [4, 24]));
}

#[test]
fn either_witness_of_a_base_and_a_root_makes_one_round() {
    let sheets = base_and_root();
    let start = held(0, 5, 1, 6, [9, 33]);
    assert_eq!(run(&sheets, &start, [9, 33], 4, 7), answer(3, [4, 6]));
    let start = held(1, 3, 3, 4, [9, 33]);
    assert_eq!(run(&sheets, &start, [9, 33], 4, 2), answer(3, [4, 6]));
}

#[test]
fn equal_challenges_leave_0_for_peggys_side() {
    let sheets = two_bases();
    let start = held(0, 5, 2, 3, [9, 16]);
    assert_eq!(run(&sheets, &start, [9, 16], 2, 7), answer(0, [5, 3]));
    let start = held(1, 6, 3, 4, [9, 16]);
    assert_eq!(run(&sheets, &start, [9, 16], 3, 4), answer(3, [4, 6]));
}

#[test]
fn every_side_but_0_is_1_in_committing() {
    let sheets = base_and_root();
    for side in [1, 2, 256, 65_536, u32::MAX] {
        let (made, session) =
            commit(lent(&sheets), OrProver::new(), side, &eight(&[3]), 3, &eight(&[4]));
        assert_eq!(made, Ok([eight(&[9]), eight(&[33])]));
        assert_eq!(session, held(1, 3, 3, 4, [9, 33]));
    }
}

#[test]
fn committing_writes_over_what_a_new_session_holds() {
    let sheets = two_bases();
    let full = OrProver {
        phase: NEW,
        nonce: [91; 8],
        simulated_response: [92; 8],
        commitments: [[93; 8], [94; 8]],
        simulated_challenge: 95,
        side: 96,
    };
    let (_, session) = commit(lent(&sheets), full, 0, &eight(&[5]), 2, &eight(&[3]));
    assert_eq!(session, held(0, 5, 2, 3, [9, 16]));
}

#[test]
fn one_session_answers_at_most_one_challenge() {
    let sheets = two_bases();
    let start = held(0, 5, 2, 3, [9, 16]);
    let (_, mut session) = respond(lent(&sheets), start, 5, &eight(&[7]));
    for c in 0..11 {
        let (answer, back) = respond(lent(&sheets), session.clone(), c, &eight(&[7]));
        assert_eq!((answer, &back), (Err(21), &session));
        let slots = eight(&[c]);
        let (answer, back) = commit(lent(&sheets), back, c % 2, &slots, c, &slots);
        assert_eq!((answer, &back), (Err(21), &session));
        let (answer, back) = drop_session(back);
        assert_eq!((answer, &back), (Err(21), &session));
        session = back;
    }
}

#[test]
fn a_dropped_session_answers_nothing() {
    let sheets = two_bases();
    let (answer, session) = drop_session(held(1, 6, 3, 4, [9, 16]));
    assert_eq!((answer, &session), (Ok(()), &ended(DROPPED, [9, 16])));
    let (answer, back) = respond(lent(&sheets), session.clone(), 5, &eight(&[7]));
    assert_eq!((answer, &back), (Err(21), &session));
    let slots = eight(&[3]);
    let (answer, back) = commit(lent(&sheets), back, 0, &slots, 3, &slots);
    assert_eq!((answer, &back), (Err(21), &session));
    assert_eq!(drop_session(back), (Err(21), session));
}

#[test]
fn sheets_of_other_sizes_keep_their_own_places() {
    // Side 0 has one row and two columns, side 1 two rows and one column.
    let wide = exponent(23, 11, 11, &[&[2, 3]], &[18]).bytes();
    let tall = exponent(23, 11, 11, &[&[2], &[16]], &[13, 18]).bytes();
    let sheets = [wide, tall];
    let nonce = eight_with(&[6, 2], 99);
    // Page D's nonce (6, 2) makes 1. Page E's r 4 and c 3 make (9, 6).
    let (made, session) =
        commit(lent(&sheets), OrProver::new(), 0, &nonce, 3, &eight_with(&[4], 99));
    assert_eq!(made, Ok([eight(&[1]), eight(&[9, 6])]));
    assert_eq!(session.nonce, eight(&[6, 2]));
    assert_eq!(session.simulated_response, eight(&[4]));
    let (answer, _) = respond(lent(&sheets), session, 4, &eight_with(&[6, 0], 99));
    let answer = answer.unwrap();
    assert_eq!(answer.first_challenge, 1);
    assert_eq!(answer.responses, [eight(&[1, 2]), eight(&[4])]);
    // Page E's nonce 5 and witness 7 on side 1, page D's r (1, 2) on side 0.
    let (made, session) = commit(
        lent(&sheets),
        OrProver::new(),
        1,
        &eight_with(&[5], 99),
        1,
        &eight_with(&[1, 2], 99),
    );
    assert_eq!(made, Ok([eight(&[1]), eight(&[9, 6])]));
    let (again, _) = respond(lent(&sheets), session, 4, &eight_with(&[7], 99));
    assert_eq!(again, Ok(answer));
}

/// The image of slots. The commitment of a nonce is its image.
fn image(sheet: &[u8], x: &[u32; 8]) -> [u32; 8] {
    judge::commit(sheet, Prover::new(), x).0.unwrap()
}

/// A base and two roots of wide numbers with K 65536, with their witnesses.
fn wide() -> ([Vec<u8>; 2], [[u32; 8]; 2]) {
    // 2^32 − 5 is prime, and one less is 190 times the prime 22605091. It is
    // the exponent of the roots as well.
    let (m, q) = (4_294_967_291, 22_605_091);
    let g = slow_power(2, 190, m);
    let base = |z| exponent(m, q, 65_536, &[&[g]], &[z]).bytes();
    let roots = |z: &[u32]| root(u32::MAX, m, 65_536, z).bytes();
    let witnesses = [eight(&[q - 1]), eight(&[2, u32::MAX - 2])];
    let z = image(&base(1), &witnesses[0]);
    let y = image(&roots(&[1, 1]), &witnesses[1]);
    ([base(z[0]), roots(&y[..2])], witnesses)
}

#[test]
fn wide_numbers_run_through() {
    let (sheets, witnesses) = wide();
    let k = 65_536;
    let values = [eight(&[22_605_089]), eight(&[u32::MAX - 1, 7])];
    for (side, x) in witnesses.iter().enumerate() {
        let (nonce, response) = (&values[side], &values[1 - side]);
        let new = OrProver::new();
        let (t, session) = commit(lent(&sheets), new, side as u32, nonce, k - 1, response);
        let rounds = [0, k - 1, k - 2].map(|c| {
            let (answer, _) = respond(lent(&sheets), session.clone(), c, x);
            let answer = answer.unwrap();
            let round = OrRound {
                commitments: t.unwrap(),
                challenge: c,
                first_challenge: answer.first_challenge,
                responses: answer.responses,
            };
            assert_eq!(judge(lent(&sheets), &round), OrVerdict::Accepted);
            round
        });
        // Peggy's own challenges are 1, 0 and K − 1.
        assert_eq!(rounds[1].responses[side], *nonce);
        for [one, other] in [[0, 1], [1, 2], [2, 0]] {
            let given = extract(lent(&sheets), &rounds[one], &rounds[other]);
            let OrWitness { side: found, witness } = given.unwrap();
            assert_eq!(found, side as u32);
            let images = [&witness, x].map(|slots| image(&sheets[side], slots));
            assert_eq!(images[0], images[1]);
        }
    }
}
