//! Peggy's session of the OR proof.

use crate::or_rounds::{product, root};
use dimkhoros::{
    NoResponse, OrProver, OrProverParts, OrRound, Pair, Places, ProverPhase, Refusal, Refused,
    STORED_OR_PROVER, Side, places,
};

const NONCE: Places = [3, 0, 0, 0, 0, 0, 0, 0];
const RESPONSE: Places = [1, 2, 3, 0, 0, 0, 0, 0];

/// A session that is committed with the second sheet's witness, and what it holds then.
fn committed(pair: &Pair<'_>) -> OrProver {
    OrProver::new().commit(pair, Side::Second, &NONCE, 4, &RESPONSE).unwrap().0
}

/// The parts that this changes.
fn changed(pair: &Pair<'_>, change: impl FnOnce(&mut OrProverParts)) -> OrProver {
    let mut parts = committed(pair).into_parts();
    change(&mut parts);
    OrProver::from_parts(parts)
}

#[test]
fn a_session_holds_what_it_was_brought_and_wipes_it() {
    let (first, second) = (product().0, root().0);
    let pair = Pair::new(&first, &second).unwrap();
    let nonce = [3, 9, 9, 9, 9, 9, 9, 9];
    let response = [1, 2, 3, 9, 9, 9, 9, 9];
    let (peggy, commitments) =
        OrProver::new().commit(&pair, Side::Second, &nonce, 4, &response).unwrap();
    let held = OrProverParts {
        phase: ProverPhase::Committed,
        side: Side::Second,
        nonce: NONCE,
        challenge: 4,
        response: RESPONSE,
        commitments,
    };
    assert!(peggy.into_parts() == held);
    let wiped = |phase| OrProverParts { phase, commitments, ..OrProver::new().into_parts() };
    let (peggy, round) = committed(&pair).respond(&pair, 1, &root().1).unwrap();
    assert!(peggy.into_parts() == wiped(ProverPhase::Answered));
    assert_eq!([round.commitment0, round.commitment1], commitments);
    assert_eq!((round.challenge0, round.response0), (4, RESPONSE));
    let peggy = committed(&pair).drop_session().unwrap();
    assert!(peggy.into_parts() == wiped(ProverPhase::Dropped));
}

/// One call of a chain, and whether it answered a challenge.
fn call(pair: &Pair<'_>, peggy: OrProver, call: usize) -> (OrProver, bool) {
    let result = match call {
        0 => {
            peggy.commit(pair, Side::Second, &NONCE, 4, &RESPONSE).map(|(peggy, _)| (peggy, false))
        }
        1 => peggy.respond(pair, 3, &root().1).map(|(peggy, _)| (peggy, true)),
        2 => peggy.respond(pair, 1, &root().1).map(|(peggy, _)| (peggy, true)),
        _ => peggy.drop_session().map(|peggy| (peggy, false)),
    };
    result.unwrap_or_else(|refused| (refused.session, false))
}

#[test]
fn no_chain_of_calls_answers_twice() {
    let (first, second) = (product().0, root().0);
    let pair = Pair::new(&first, &second).unwrap();
    let mut answered = 0;
    for chain in 0..4usize.pow(5) {
        let mut peggy = OrProver::new();
        let mut answers = 0;
        for place in 0..5 {
            let (next, answer) = call(&pair, peggy, chain / 4usize.pow(place) % 4);
            peggy = next;
            answers += usize::from(answer);
        }
        assert!(answers <= 1);
        answered += answers;
    }
    assert!(answered > 0);
}

/// Takes a refused call apart: the session has to be the one given.
fn unchanged(result: Result<(OrProver, OrRound), Refused<OrProver>>, given: OrProver) -> Refusal {
    let refused = result.unwrap_err();
    assert!(refused.session.into_parts() == given.into_parts());
    refused.refusal
}

#[test]
fn a_session_that_does_not_fit_the_sheets_is_refused() {
    let (first, second) = (product().0, root().0);
    let pair = Pair::new(&first, &second).unwrap();
    let changes: [fn(&mut OrProverParts); 8] = [
        |parts| parts.nonce[0] += 35,
        |parts| parts.nonce[0] = 4,
        |parts| parts.response[2] += 11,
        |parts| parts.response[0] = 0,
        |parts| parts.challenge += 11,
        |parts| parts.challenge = 3,
        |parts| parts.commitments[0][7] = 1,
        |parts| parts.commitments[1][0] += 35,
    ];
    for change in changes {
        let result = changed(&pair, change).respond(&pair, 1, &root().1);
        assert_eq!(unchanged(result, changed(&pair, change)), Refusal::Session);
    }
    // Places that are not read may hold anything.
    let beyond = changed(&pair, |parts| (parts.nonce[1], parts.response[3]) = (99, 99));
    assert!(beyond.respond(&pair, 1, &root().1).is_ok());
}

#[test]
fn the_held_side_says_whose_witness_is_asked_for() {
    let (first, second) = (product().0, root().0);
    let pair = Pair::new(&first, &second).unwrap();
    let respond = |peggy: OrProver, witness: &Places| {
        peggy.respond(&pair, 1, witness).map(|_| ()).map_err(|refused| refused.refusal)
    };
    assert_eq!(respond(committed(&pair), &places([3])), Err(Refusal::Witness));
    assert_eq!(respond(committed(&pair), &places([35])), Err(Refusal::Coordinate));
    assert_eq!(respond(committed(&pair), &root().1), Ok(()));
    // Once it is wiped it is 0: the second sheet's witness is then none of the first sheet.
    let answered = || committed(&pair).respond(&pair, 1, &root().1).unwrap().0;
    assert_eq!(respond(answered(), &root().1), Err(Refusal::Witness));
    assert_eq!(respond(answered(), &product().1), Err(Refusal::Session));
}

#[test]
fn what_is_stored_goes_on_and_a_failed_store_answers_nothing() {
    let (first, second) = (product().0, root().0);
    let pair = Pair::new(&first, &second).unwrap();
    let mut disk = committed(&pair).to_stored();
    let store = |bytes: &[u8; STORED_OR_PROVER]| -> Result<(), ()> {
        disk = *bytes;
        Ok(())
    };
    let (_, round) = committed(&pair).respond_after(&pair, 1, &root().1, store).unwrap();
    assert!(pair.judge(&round).unwrap().is_accepted());
    let parts = OrProver::from_stored_with_nonce(&disk).unwrap().into_parts();
    assert_eq!((parts.phase, parts.nonce, parts.response), (ProverPhase::Answered, [0; 8], [0; 8]));
    let result = committed(&pair).respond_after(&pair, 1, &root().1, |_| Err("full"));
    let Err(NoResponse::NotStored { session, error }) = result else {
        panic!("a round is handed out");
    };
    assert_eq!((error, session.phase()), ("full", ProverPhase::Answered));
    let never = |_: &[u8; STORED_OR_PROVER]| -> Result<(), ()> { panic!("stored") };
    let result = committed(&pair).respond_after(&pair, 5, &root().1, never);
    assert!(matches!(
        result,
        Err(NoResponse::Refused(Refused { refusal: Refusal::Challenge, .. }))
    ));
}

#[test]
fn no_text_shows_the_nonce_or_the_side() {
    let (first, second) = (product().0, root().0);
    let pair = Pair::new(&first, &second).unwrap();
    let (peggy, _) =
        OrProver::new().commit(&pair, Side::Second, &places([17]), 4, &RESPONSE).unwrap();
    let shown = format!("{peggy:?}");
    assert!(!shown.contains("17") && !shown.contains("side"), "{shown}");
    let refused = peggy.commit(&pair, Side::Second, &places([17]), 4, &RESPONSE).unwrap_err();
    assert!(!format!("{refused:?} {refused}").contains("17"));
}
