//! A box that stores its session before it answers.

use crate::pages::page_a;

use dimkhoros::{
    Instance, NoResponse, Places, Prover, ProverPhase, Refusal, Refused, STORED_PROVER, places,
};

const WITNESS: Places = [7, 0, 0, 0, 0, 0, 0, 0];

/// Page A's session, committed to the nonce 5.
fn committed(a: &Instance) -> Prover {
    Prover::new().commit(a, &places([5])).unwrap().0
}

#[test]
fn the_answered_session_is_stored_before_the_response_is_handed_out() {
    let a = page_a();
    let mut stored = Vec::new();
    let store = |bytes: &[u8; STORED_PROVER]| -> Result<(), ()> {
        stored.push(*bytes);
        Ok(())
    };
    let saved = committed(&a).save(6).unwrap();
    let (peggy, response) = saved.respond_after(&a, 3, &WITNESS, store).unwrap();
    assert_eq!(response, places([4]));
    assert_eq!(stored, [peggy.to_stored()]);
    let parts = peggy.into_parts();
    assert_eq!((parts.phase, parts.nonce), (ProverPhase::Answered, [0; 8]));
    // The whole session is stored, with its saved states and its list.
    let read = Prover::from_stored_with_nonce(&stored[0]).unwrap();
    assert_eq!((read.saved(6), read.answered()), (Some(ProverPhase::Committed), 1));
    assert!(read.into_parts() == parts);
}

#[test]
fn a_refused_call_stores_nothing() {
    let a = page_a();
    let before = committed(&a).to_stored();
    let calls = [(3, places([8]), Refusal::Witness), (11, WITNESS, Refusal::Challenge)];
    for (challenge, witness, why) in calls {
        let store = |_: &[u8; STORED_PROVER]| -> Result<(), ()> { panic!("stored") };
        let result = committed(&a).respond_after(&a, challenge, &witness, store);
        let Err(NoResponse::Refused(Refused { session, refusal })) = result else {
            panic!("the call is carried out");
        };
        assert_eq!(refusal, why);
        assert_eq!(session.to_stored(), before);
    }
}

#[test]
fn a_failed_store_leaves_an_answered_session_and_no_response() {
    let a = page_a();
    let result = committed(&a).respond_after(&a, 3, &WITNESS, |_| Err("full"));
    let Err(NoResponse::NotStored { session, error }) = result else {
        panic!("a response is handed out");
    };
    assert_eq!((error, session.phase()), ("full", ProverPhase::Answered));
    let again = session.respond(&a, 1, &WITNESS).unwrap_err();
    assert_eq!(again.refusal, Refusal::Session);
}

/// How writing a session over the old one can end.
#[derive(Clone, Copy)]
enum Disk {
    Writes,
    /// Fails, and the old bytes stay.
    Keeps,
    /// Fails when all is written.
    WritesAndFails,
    /// Fails in between.
    WritesHalf,
}

/// Asks a box a challenge, from its disk as after a restart, and answers whether a response was sent.
fn restart_and_ask(
    a: &Instance,
    file: &mut [u8; STORED_PROVER],
    disk: Disk,
    challenge: u32,
) -> bool {
    let Ok(peggy) = Prover::from_stored_with_nonce(file) else { return false };
    let store = |bytes: &[u8; STORED_PROVER]| {
        let (written, result) = match disk {
            Disk::Writes => (STORED_PROVER, Ok(())),
            Disk::Keeps => (0, Err(())),
            Disk::WritesAndFails => (STORED_PROVER, Err(())),
            Disk::WritesHalf => (40, Err(())),
        };
        file[..written].copy_from_slice(&bytes[..written]);
        result
    };
    peggy.respond_after(a, challenge, &WITNESS, store).is_ok()
}

/// The accident: a box is restarted, finds the old nonce and is asked another challenge. However its disk fails at each of
/// three challenges, one response at most is sent.
#[test]
fn a_restarted_box_sends_one_response_at_most() {
    use Disk::*;
    let a = page_a();
    let disks = [Writes, Keeps, WritesAndFails, WritesHalf];
    let mut most = 0;
    for chain in 0..disks.len().pow(3) {
        let mut file = committed(&a).to_stored();
        let ask = |place| {
            let disk = disks[chain / disks.len().pow(place) % disks.len()];
            usize::from(restart_and_ask(&a, &mut file, disk, place + 1))
        };
        let sent = (0..3).map(ask).sum();
        assert!(sent <= 1);
        most = most.max(sent);
    }
    assert_eq!(most, 1);
}
