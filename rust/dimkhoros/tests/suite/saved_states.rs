//! Saved states of Peggy's session: she returns to them, and no commitment is answered twice.

use crate::pages::page_a;
use dimkhoros::{
    Found, Instance, Memory, Patterns, Places, Plan, Prover, ProverParts, ProverPhase, Refusal,
    Saved, places,
};
use std::collections::BTreeSet;

const WITNESS: Places = [7, 0, 0, 0, 0, 0, 0, 0];

/// A session that is committed to a nonce.
fn committed(nonce: u32) -> Prover {
    Prover::new().commit(&page_a(), &places([nonce])).unwrap().0
}

/// A session of these parts.
fn session_of(parts: &ProverParts) -> Prover {
    Prover::from_parts(ProverParts { ..*parts })
}

/// A session in each phase.
fn in_each_phase() -> [Prover; 4] {
    let answered = committed(5).respond(&page_a(), 3, &WITNESS).unwrap().0;
    [Prover::new(), committed(5), answered, committed(5).drop_session().unwrap()]
}

#[test]
fn saving_and_returning_work_in_every_phase() {
    for saved in in_each_phase() {
        let before = saved.into_parts();
        for held in in_each_phase() {
            let saved = session_of(&before).save(7).unwrap();
            assert_eq!(saved.saved(7), Some(before.phase));
            let memory = saved.into_parts().memory;
            let state = memory.saved[7];
            assert_eq!((state.nonce, state.commitment), (before.nonce, before.commitment));
            let held = Prover::from_parts(ProverParts { memory, ..held.into_parts() });
            let back = held.return_to(7).unwrap().into_parts();
            let ProverParts { phase, nonce, commitment, memory: after } = back;
            assert_eq!((phase, nonce), (before.phase, before.nonce));
            assert_eq!((commitment, after), (before.commitment, memory));
        }
    }
}

#[test]
fn a_name_is_saved_again_and_no_other_changes() {
    let peggy = Prover::new().save(2).unwrap().save(3).unwrap();
    let peggy = peggy.commit(&page_a(), &places([5])).unwrap().0.save(2).unwrap();
    let phases: Vec<_> = (0..9).filter_map(|name| Some((name, peggy.saved(name)?))).collect();
    assert_eq!(phases, [(2, ProverPhase::Committed), (3, ProverPhase::New)]);
}

#[test]
fn names_that_are_none_are_refused_and_the_session_stays() {
    for peggy in in_each_phase() {
        let before = peggy.into_parts();
        let again = || session_of(&before);
        for name in [8, 9, 255, 256, u32::MAX] {
            let refused = [again().save(name), again().return_to(name)];
            assert_eq!(again().saved(name), None);
            for refused in refused.map(Result::unwrap_err) {
                assert_eq!(refused.refusal, Refusal::Name);
                assert!(refused.session.into_parts() == before);
            }
        }
        for name in 0..8 {
            let refused = again().return_to(name).unwrap_err();
            assert_eq!(refused.refusal, Refusal::Name);
            assert!(refused.session.into_parts() == before);
        }
    }
}

#[test]
fn saved_copies_keep_their_nonce() {
    let saved = || committed(5).save(4).unwrap();
    let answered = saved().respond(&page_a(), 3, &WITNESS).unwrap().0;
    for peggy in [answered, saved().drop_session().unwrap()] {
        let stored = peggy.to_stored();
        let read = Prover::from_stored_with_nonce(&stored).unwrap();
        for peggy in [peggy, read, Prover::reopen(&stored).0] {
            let parts = peggy.into_parts();
            assert_eq!((parts.nonce, parts.memory.saved[4].nonce), ([0; 8], places([5])));
        }
    }
}

/// A committed session that is found is dropped. What is saved in it comes back, and a box does not return to it.
#[test]
fn what_is_reopened_has_its_saved_states_and_its_list() {
    let (peggy, _) = committed(5).save(1).unwrap().respond(&page_a(), 3, &WITNESS).unwrap();
    let stored = peggy.return_to(1).unwrap().to_stored();
    let (found, what) = Prover::reopen(&stored);
    assert_eq!((what, found.phase()), (Found::Committed, ProverPhase::Dropped));
    let again = found.return_to(1).unwrap().respond(&page_a(), 1, &WITNESS).unwrap_err();
    assert_eq!((again.refusal, again.session.answered()), (Refusal::Answered, 1));
}

/// One call of a chain on Peggy's session, and the commitment that it answered.
fn call(a: &Instance, peggy: Prover, call: usize) -> (Prover, Option<Places>) {
    let commitment = *peggy.commitment();
    let result = match call {
        0 => peggy.commit(a, &places([5])).map(|(peggy, _)| (peggy, None)),
        1 => peggy.commit(a, &places([6])).map(|(peggy, _)| (peggy, None)),
        2 => peggy.respond(a, 3, &WITNESS).map(|(peggy, _)| (peggy, Some(commitment))),
        3 => peggy.save(0).map(|peggy| (peggy, None)),
        4 => peggy.return_to(0).map(|peggy| (peggy, None)),
        5 => peggy.save(1).map(|peggy| (peggy, None)),
        _ => peggy.return_to(1).map(|peggy| (peggy, None)),
    };
    result.unwrap_or_else(|refused| (refused.session, None))
}

#[test]
fn no_chain_of_calls_answers_a_commitment_twice() {
    let a = page_a();
    let mut most = 0;
    for chain in 0..7usize.pow(6) {
        let mut peggy = Prover::new();
        let mut answered = BTreeSet::new();
        for place in 0..6 {
            let (next, commitment) = call(&a, peggy, chain / 7usize.pow(place) % 7);
            peggy = next;
            if let Some(commitment) = commitment {
                assert!(answered.insert(commitment), "a commitment is answered twice");
            }
        }
        assert_eq!(peggy.answered() as usize, answered.len());
        most = most.max(answered.len());
    }
    assert_eq!(most, 2);
}

/// A sheet with 83 commitments: 4^7 modulo 167, of order 83.
fn large() -> Instance {
    let plan =
        Plan { pattern: 1, modulus: 167, order: 83, challenges: 83, values: &[4], statement: &[1] };
    let sheet = Instance::from_pattern(&Patterns::shipped(), &plan).unwrap();
    let statement = sheet.image(&WITNESS).unwrap();
    sheet.with_statement(&statement).unwrap()
}

#[test]
fn a_session_answers_64_commitments_and_no_more() {
    let sheet = large();
    let mut peggy = Prover::new().save(0).unwrap();
    for nonce in 0..64 {
        let (next, _) = peggy.commit(&sheet, &places([nonce])).unwrap();
        let (next, _) = next.respond(&sheet, 3, &WITNESS).unwrap();
        assert_eq!(next.answered(), nonce + 1);
        peggy = next.return_to(0).unwrap();
    }
    let (full, _) = peggy.commit(&sheet, &places([64])).unwrap();
    let refused = full.respond(&sheet, 3, &WITNESS).unwrap_err();
    assert_eq!(refused.refusal, Refusal::ListFull);
    assert_eq!(refused.session.phase(), ProverPhase::Committed);
    let (listed, _) = refused.session.return_to(0).unwrap().commit(&sheet, &places([63])).unwrap();
    let refused = listed.respond(&sheet, 4, &WITNESS).unwrap_err();
    assert_eq!((refused.refusal, refused.session.answered()), (Refusal::Answered, 64));
}

#[test]
fn what_no_call_makes_is_taken_as_the_library_says() {
    let mut parts = committed(5).into_parts();
    parts.memory.saved[1] = Saved { phase: 9, kept: 2, ..Saved::default() };
    let peggy = Prover::from_parts(parts);
    assert_eq!((peggy.saved(1), peggy.saved(0)), (Some(ProverPhase::Dropped), None));
    assert_eq!(peggy.return_to(1).unwrap().phase(), ProverPhase::Dropped);
    let memory = Memory { count: 65, ..Memory::default() };
    let parts = ProverParts { memory, ..committed(5).into_parts() };
    let refused = Prover::from_parts(parts).respond(&page_a(), 3, &WITNESS).unwrap_err();
    assert_eq!(refused.refusal, Refusal::ListFull);
}
