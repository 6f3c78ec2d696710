//! Peggy's and Vic's sessions.

use crate::pages::page_a;
use dimkhoros::{
    Instance, Memory, NoResponse, Places, Prover, ProverParts, ProverPhase, Refusal, Refused,
    Verdict, Verifier, VerifierParts, VerifierPhase, places,
};

const NONCE: Places = [5, 0, 0, 0, 0, 0, 0, 0];
const WITNESS: Places = [7, 0, 0, 0, 0, 0, 0, 0];

#[test]
fn both_run_the_session_of_page_a() {
    let a = page_a();
    let (peggy, t) = Prover::new().commit(&a, &NONCE).unwrap();
    assert_eq!(t, places([9]));
    let vic = Verifier::new().take_commitment(&a, &t).unwrap();
    let vic = vic.take_challenge(&a, 3).unwrap();
    let (peggy, r) = peggy.respond(&a, vic.challenge(), &WITNESS).unwrap();
    assert_eq!(r, places([4]));
    let (vic, verdict) = vic.take_response(&a, &r).unwrap();
    assert_eq!(verdict, Verdict::Accepted);
    let mut memory = Memory { count: 1, ..Memory::default() };
    memory.answered[0].commitment = t;
    let zeros = ProverParts { phase: ProverPhase::Answered, nonce: [0; 8], commitment: t, memory };
    assert!(peggy.into_parts() == zeros);
    let held = VerifierParts { phase: VerifierPhase::Judged, commitment: t, challenge: 3 };
    assert_eq!(vic.into_parts(), held);
}

/// One call of a chain on Peggy's session, and whether it answered a challenge.
fn prover_call(a: &Instance, peggy: Prover, call: usize) -> (Prover, bool) {
    let result = match call {
        0 => peggy.commit(a, &NONCE).map(|(peggy, _)| (peggy, false)),
        1 => peggy.respond(a, 3, &WITNESS).map(|(peggy, _)| (peggy, true)),
        2 => peggy.respond(a, 1, &WITNESS).map(|(peggy, _)| (peggy, true)),
        _ => peggy.drop_session().map(|peggy| (peggy, false)),
    };
    result.unwrap_or_else(|refused| (refused.session, false))
}

#[test]
fn no_chain_of_calls_answers_twice() {
    let a = page_a();
    let mut answered = 0;
    for chain in 0..4usize.pow(6) {
        let mut peggy = Prover::new();
        let mut answers = 0;
        for place in 0..6 {
            let (next, answer) = prover_call(&a, peggy, chain / 4usize.pow(place) % 4);
            peggy = next;
            answers += usize::from(answer);
        }
        assert!(answers <= 1);
        answered += answers;
    }
    assert!(answered > 0);
}

#[test]
fn vic_takes_commitment_challenge_and_response_in_order() {
    let a = page_a();
    for chain in 0..3usize.pow(5) {
        let mut vic = Verifier::new();
        for place in 0..5 {
            let call = chain / 3usize.pow(place) % 3;
            let before = vic.phase().number() as usize;
            let result = match call {
                0 => vic.take_commitment(&a, &places([9])),
                1 => vic.take_challenge(&a, 3),
                _ => vic.take_response(&a, &places([4])).map(|(vic, _)| vic),
            };
            assert_eq!(result.is_ok(), before == call);
            vic = result.unwrap_or_else(|refused| refused.session);
            let moved = usize::from(before == call);
            assert_eq!(vic.phase().number() as usize, before + moved);
        }
    }
}

/// Takes a refused call apart: the session's parts have to be the ones given.
fn unchanged(result: Result<(Prover, Places), Refused<Prover>>, parts: ProverParts) -> Refusal {
    let refused = result.unwrap_err();
    assert!(refused.session.into_parts() == parts);
    refused.refusal
}

#[test]
fn a_refused_call_hands_the_session_back_as_it_was() {
    let a = page_a();
    let phases = [ProverPhase::Answered, ProverPhase::Dropped, ProverPhase::Committed];
    for phase in phases {
        let (nonce, commitment, memory) = ([1, 2, 3, 4, 5, 6, 7, 8], [11; 8], Memory::default());
        let parts = || ProverParts { phase, nonce, commitment, memory };
        let peggy = || Prover::from_parts(parts());
        assert_eq!(unchanged(peggy().commit(&a, &NONCE), parts()), Refusal::Session);
        assert_eq!(unchanged(peggy().commit(&a, &[11; 8]), parts()), Refusal::Coordinate);
        assert_eq!(unchanged(peggy().respond(&a, 3, &WITNESS), parts()), Refusal::Session);
        assert_eq!(unchanged(peggy().respond(&a, 11, &WITNESS), parts()), Refusal::Challenge);
        assert_eq!(unchanged(peggy().respond(&a, 3, &places([8])), parts()), Refusal::Witness);
    }
}

#[test]
fn vic_hands_a_refused_session_back_as_it_was() {
    let a = page_a();
    let parts = || VerifierParts { phase: VerifierPhase::Asked, commitment: [5; 8], challenge: 99 };
    let vic = || Verifier::from_parts(parts());
    let early = vic().take_response(&a, &places([4])).unwrap_err();
    assert_eq!((early.refusal, early.session.into_parts()), (Refusal::Session, parts()));
    let bad = vic().take_response(&a, &places([11])).unwrap_err();
    assert_eq!((bad.refusal, bad.session.into_parts()), (Refusal::Coordinate, parts()));
    let again = vic().take_commitment(&a, &places([9])).unwrap_err();
    assert_eq!((again.refusal, again.session.into_parts()), (Refusal::Session, parts()));
    let third = vic().take_challenge(&a, 3).unwrap_err();
    assert_eq!((third.refusal, third.session.into_parts()), (Refusal::Session, parts()));
}

#[test]
fn a_session_of_parts_goes_on() {
    let a = page_a();
    let (peggy, _) = Prover::new().commit(&a, &NONCE).unwrap();
    let parts = peggy.into_parts();
    let ProverParts { phase, nonce, commitment, memory } = parts;
    let phase = ProverPhase::from_number(phase.number());
    let peggy = Prover::from_parts(ProverParts { phase, nonce, commitment, memory });
    assert_eq!(peggy.respond(&a, 3, &WITNESS).unwrap().1, places([4]));
}

#[test]
fn a_session_that_does_not_fit_the_sheet_is_refused() {
    let a = page_a();
    for (nonce, commitment) in [(16, 9), (5, 8), (5, 0)] {
        let parts = ProverParts {
            phase: ProverPhase::Committed,
            nonce: places([nonce]),
            commitment: places([commitment]),
            memory: Memory::default(),
        };
        let refused = Prover::from_parts(parts).respond(&a, 3, &WITNESS).unwrap_err();
        assert_eq!(refused.refusal, Refusal::Session);
    }
}

#[test]
fn no_text_shows_the_nonce() {
    let nonce = places([10]);
    let (peggy, _) = Prover::new().commit(&page_a(), &nonce).unwrap();
    let peggy = peggy.save(3).unwrap();
    assert!(!format!("{peggy:?}").contains("10"));
    let refused = peggy.commit(&page_a(), &nonce).unwrap_err();
    assert!(!format!("{refused:?} {refused}").contains("10"));
    let failed =
        refused.session.respond_after(&page_a(), 3, &WITNESS, |_| Err("full")).unwrap_err();
    assert!(!format!("{failed:?} {failed}").contains("10"));
    let NoResponse::NotStored { session, .. } = failed else { panic!("the store fails") };
    let memory = session.into_parts().memory;
    assert_eq!(memory.saved[3].nonce, nonce);
    assert!(!format!("{memory:?} {:?}", memory.saved[3]).contains("10"));
}
