//! Random OR rounds and sessions against the slow rules.

use judge::or_proof::*;
use judge::{Rows, Sheet, encode, load};

use crate::naive::*;
use crate::random::{bytes, small};
use crate::tools::*;

/// Two random small sheets, mostly with one K, and their bytes.
fn pair(shifts: &mut Shifts) -> ([Vec<u8>; 2], [Sheet; 2]) {
    let mut sheets = [small(shifts).1, small(shifts).1];
    if shifts.below(8) > 0 {
        // No d below the lesser K divides either ℓ.
        let least = sheets[0].challenges.min(sheets[1].challenges);
        sheets.iter_mut().for_each(|sheet| sheet.challenges = least);
    }
    let bytes = [0, 1].map(|side: usize| {
        let mut bytes = vec![0; 400];
        let length = encode(&sheets[side], &mut bytes).unwrap();
        bytes.truncate(length);
        bytes
    });
    (bytes, sheets)
}

/// Eight numbers, mostly all from the given ones.
fn mostly(shifts: &mut Shifts, values: &[u32]) -> [u32; 8] {
    let mut places = shifts.picks(values);
    if shifts.below(12) == 0 {
        places[shifts.below(8) as usize] = shifts.edge();
    }
    places
}

/// A challenge, mostly below K.
fn challenge(shifts: &mut Shifts, sheet: &Sheet) -> u32 {
    match shifts.below(12) {
        0 => sheet.challenges + shifts.below(3) as u32,
        _ => shifts.below(u64::from(sheet.challenges)) as u32,
    }
}

fn random_round(shifts: &mut Shifts, sheets: &[Sheet; 2]) -> OrRound {
    OrRound {
        commitments: [0, 1].map(|side: usize| mostly(shifts, &elements(&sheets[side]))),
        challenge: challenge(shifts, &sheets[0]),
        first_challenge: challenge(shifts, &sheets[0]),
        responses: [0, 1].map(|side: usize| mostly(shifts, &slots(&sheets[side]))),
    }
}

fn slow_elements(sheet: &Sheet, values: &[u32; 8]) -> bool {
    let used = &values[..sheet.rows as usize];
    used.iter().all(|v| slow_element(sheet, *v))
}

fn slow_slots(sheet: &Sheet, values: &[u32; 8]) -> bool {
    let used = &values[..sheet.columns as usize];
    used.iter().all(|v| slots(sheet).contains(v))
}

/// The first number whose condition holds, in this order.
fn first_of(conditions: &[(u32, bool)]) -> Option<u32> {
    conditions.iter().find(|(_, holds)| *holds).map(|(n, _)| *n)
}

/// The refusal of judging, for sheets that load.
fn slow_refusal(sheets: &[Sheet; 2], round: &OrRound) -> Option<u32> {
    let k = sheets[0].challenges;
    let side_is = |test: &dyn Fn(usize) -> bool| test(0) || test(1);
    first_of(&[
        (26, k != sheets[1].challenges),
        (14, side_is(&|i| !slow_elements(&sheets[i], &round.commitments[i]))),
        (15, round.challenge >= k || round.first_challenge >= k),
        (16, side_is(&|i| !slow_slots(&sheets[i], &round.responses[i]))),
    ])
}

/// The differing rows of both sides, for values that are in range.
fn slow_rejection(sheets: &[Sheet; 2], round: &OrRound) -> [Rows; 2] {
    let (c, c0) = (round.challenge, round.first_challenge);
    let c1 = if c < c0 { c + sheets[0].challenges - c0 } else { c - c0 };
    [(0, c0), (1, c1)].map(|(side, own): (usize, u32)| {
        let (t, r) = (&round.commitments[side], &round.responses[side]);
        slow_rows(&sheets[side], t, own, r)
    })
}

#[test]
fn random_rounds_are_judged_by_the_slow_rules() {
    let mut shifts = Shifts(0x0DD5_1DE5_0DD5_1DE5);
    let mut met = std::collections::BTreeSet::new();
    for _ in 0..6000 {
        let (bytes, sheets) = pair(&mut shifts);
        let mut round = random_round(&mut shifts, &sheets);
        // Often one side or both are simulated.
        let (c, c0) = (round.challenge, round.first_challenge);
        let k = sheets[0].challenges;
        let c1 = (2 * k + c % k - c0 % k) % k;
        for (side, own) in [c0, c1].into_iter().enumerate() {
            let made = judge::simulate(&bytes[side], own, &round.responses[side]);
            if let (Ok(made), true) = (made, shifts.below(4) > 0) {
                round.commitments[side] = made;
            }
        }
        let expected = match slow_refusal(&sheets, &round) {
            Some(number) => OrVerdict::Refused(number),
            None => match slow_rejection(&sheets, &round) {
                rows if rows == [[false; 8]; 2] => OrVerdict::Accepted,
                rows => OrVerdict::Rejected(rows),
            },
        };
        assert_eq!(judge(lent(&bytes), &round), expected);
        met.insert(match expected {
            OrVerdict::Accepted => 0,
            OrVerdict::Rejected(rows) => {
                // How many rows of each side differ, up to two.
                let [first, second] = rows.map(|side| side.iter().filter(|row| **row).count());
                100 + 10 * first.min(2) as u32 + second.min(2) as u32
            }
            OrVerdict::Refused(number) => number,
        });
    }
    for wanted in [0, 14, 15, 16, 26, 101, 102, 110, 111, 112, 120, 121, 122] {
        assert!(met.contains(&wanted), "{wanted} in {met:?}");
    }
}

/// The refusal of committing in a phase, for sheets that load.
fn slow_committing(sheets: &[Sheet; 2], phase: u32, brought: &OrProver) -> Option<u32> {
    let own = if brought.side == 0 { 0 } else { 1 };
    let k = sheets[0].challenges;
    let nonce_fits = slow_slots(&sheets[own], &brought.nonce);
    let response_fits = slow_slots(&sheets[1 - own], &brought.simulated_response);
    first_of(&[
        (26, k != sheets[1].challenges),
        (15, brought.simulated_challenge >= k),
        (16, !nonce_fits || !response_fits),
        (21, phase != 0),
    ])
}

/// Random values that are brought to committing.
fn brought(shifts: &mut Shifts, sheets: &[Sheet; 2]) -> OrProver {
    let side = shifts.below(3) as u32;
    let own = usize::from(side != 0);
    OrProver {
        nonce: mostly(shifts, &slots(&sheets[own])),
        simulated_response: mostly(shifts, &slots(&sheets[1 - own])),
        simulated_challenge: challenge(shifts, &sheets[0]),
        side,
        ..OrProver::new()
    }
}

/// Commits to what is brought, from a session in this phase.
fn committing(
    bytes: &[Vec<u8>; 2],
    phase: u32,
    brought: &OrProver,
) -> (Result<[[u32; 8]; 2], u32>, OrProver) {
    let start = OrProver { phase, ..OrProver::new() };
    commit(
        lent(bytes),
        start,
        brought.side,
        &brought.nonce,
        brought.simulated_challenge,
        &brought.simulated_response,
    )
}

/// The accepted round that a session in Committed makes for c, or the refusal.
fn responding(
    bytes: &[Vec<u8>; 2],
    sheets: &[Sheet; 2],
    session: &OrProver,
    c: u32,
    x: &[u32; 8],
) -> Result<OrRound, u32> {
    let (answer, _) = respond(lent(bytes), session.clone(), c, x);
    let own = &sheets[session.side as usize];
    let is_witness = slow_image(own, x) == own.statement;
    let expected = first_of(&[(15, c >= own.challenges), (17, !is_witness)]);
    assert_eq!(answer.err(), expected);
    let answer = answer?;
    let round = OrRound {
        commitments: session.commitments,
        challenge: c,
        first_challenge: answer.first_challenge,
        responses: answer.responses,
    };
    assert_eq!(judge(lent(bytes), &round), OrVerdict::Accepted);
    Ok(round)
}

#[test]
fn random_runs_are_accepted_and_give_a_witness() {
    let mut shifts = Shifts(0x5E55_1045_5E55_1045);
    let mut met = std::collections::BTreeSet::new();
    for _ in 0..6000 {
        let (bytes, sheets) = pair(&mut shifts);
        let phase = (shifts.below(12) as u32).saturating_sub(8);
        let brought = brought(&mut shifts, &sheets);
        let (t, session) = committing(&bytes, phase, &brought);
        assert_eq!(t.err(), slow_committing(&sheets, phase, &brought));
        met.insert(t.err().unwrap_or(0));
        let Ok(t) = t else { continue };
        assert_eq!(t, session.commitments);
        let own = session.side as usize;
        let x = shifts.picks(&slots(&sheets[own]));
        let [c, d] = [0; 2].map(|_| challenge(&mut shifts, &sheets[0]));
        let made = [c, d].map(|c| responding(&bytes, &sheets, &session, c, &x));
        met.insert(made[0].as_ref().err().copied().unwrap_or(1));
        if let ([Ok(first), Ok(second)], true) = (made, c != d) {
            // The simulated side keeps its challenge, so Peggy's side gives.
            let given = extract(lent(&bytes), &first, &second).unwrap();
            assert_eq!(given.side, own as u32);
            let image = slow_image(&sheets[own], &given.witness);
            assert_eq!(image, sheets[own].statement);
            met.insert(300 + given.side);
        }
    }
    for wanted in [0, 1, 15, 16, 17, 21, 26, 300, 301] {
        assert!(met.contains(&wanted), "{wanted} in {met:?}");
    }
}

/// A refused call hands the session back, and no other does.
fn try_session(shifts: &mut Shifts, sheets: [&[u8]; 2], slots: [&[u32; 8]; 2]) {
    let session = OrProver {
        phase: shifts.below(6) as u32,
        nonce: shifts.edges(),
        simulated_response: shifts.edges(),
        commitments: [shifts.edges(), shifts.edges()],
        simulated_challenge: shifts.edge(),
        side: shifts.below(4) as u32,
    };
    let (side, c) = (shifts.edge(), shifts.edge());
    let (answer, back) = commit(sheets, session.clone(), side, slots[0], c, slots[1]);
    assert_eq!(answer.is_err(), back == session);
    let (answer, back) = respond(sheets, session.clone(), c, slots[0]);
    assert_eq!(answer.is_err(), back == session);
    let (answer, back) = drop_session(session.clone());
    assert_eq!(answer.is_err(), back == session);
}

#[test]
fn no_call_panics_and_refused_calls_change_nothing() {
    let mut shifts = Shifts(0x1DEA_1DEA_1DEA_1DEB);
    let mut loaded = 0;
    for _ in 0..30_000 {
        let sheets = [bytes(&mut shifts), bytes(&mut shifts)];
        let sheets = lent(&sheets);
        let any = |shifts: &mut Shifts| OrRound {
            commitments: [shifts.edges(), shifts.edges()],
            challenge: shifts.edge(),
            first_challenge: shifts.edge() % 7,
            responses: [shifts.edges(), shifts.edges()],
        };
        let (first, second) = (any(&mut shifts), any(&mut shifts));
        let refusals = sheets.map(|sheet| load(sheet).err());
        if let Some(lowest) = refusals.into_iter().flatten().min() {
            assert_eq!(judge(sheets, &first), OrVerdict::Refused(lowest));
            assert_eq!(extract(sheets, &first, &second), Err(lowest));
        } else {
            let _ = (judge(sheets, &first), extract(sheets, &first, &second));
            loaded += 1;
        }
        let slots = [&first.responses[0], &first.responses[1]];
        try_session(&mut shifts, sheets, slots);
    }
    assert!(loaded > 100);
}
