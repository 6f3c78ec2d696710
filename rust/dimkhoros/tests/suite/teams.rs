//! A team's rounds are joined to the round of a single Peggy.

use crate::pages::{PLANS, SCHNORR, made, page_a, round};
use dimkhoros::{
    Instance, MOST_PLAYERS, Places, Plan, Prover, Refusal, Round, Team, Verdict, places,
};

/// The image of these coordinates: a nonce's commitment.
fn image(instance: &Instance, coordinates: &Places) -> Places {
    Prover::new().commit(instance, coordinates).unwrap().1
}

/// The honest round of a witness, a nonce and a challenge.
fn honest(instance: &Instance, witness: &Places, nonce: &Places, challenge: u32) -> Round {
    let (peggy, commitment) = Prover::new().commit(instance, nonce).unwrap();
    let (_, response) = peggy.respond(instance, challenge, witness).unwrap();
    Round { commitment, challenge, response }
}

/// What two players bring, joined in a number of columns.
fn joined(instance: &Instance, parts: &[Places]) -> Places {
    let header = instance.values().header;
    let mut all = [0; 8];
    for (column, value) in all.iter_mut().enumerate().take(header.columns as usize) {
        let values = parts.iter().map(|part| u64::from(part[column]));
        *value = match header.kind {
            1 => values.sum::<u64>() % u64::from(header.order),
            _ => values.fold(1, |left, right| left * right % u64::from(header.modulus)),
        } as u32;
    }
    all
}

/// The round that a team makes of its players' rounds.
fn whole(team: &Team<'_>, rounds: &[Round]) -> Round {
    let commitments: Vec<Places> = rounds.iter().map(|round| round.commitment).collect();
    let responses: Vec<Places> = rounds.iter().map(|round| round.response).collect();
    Round {
        commitment: team.join_commitments(&commitments).unwrap(),
        challenge: rounds[0].challenge,
        response: team.join_responses(&responses).unwrap(),
    }
}

/// The plan's sheet with the image of the joined parts as its statement, and the images of the parts.
fn split(plan: &Plan<'_>, witnesses: &[Places]) -> (Instance, Vec<Places>) {
    let plain = made(plan).unwrap();
    let sheet = plain.with_statement(&image(&plain, &joined(&plain, witnesses))).unwrap();
    let images = witnesses.iter().map(|witness| image(&sheet, witness)).collect();
    (sheet, images)
}

/// Coordinates of every sheet of the pages: their values are below 11, and elements modulo 35.
fn coordinates(player: usize, first: usize) -> Places {
    const ELEMENTS: [u32; 8] = [1, 2, 3, 4, 6, 8, 9, 3];
    core::array::from_fn(|column| ELEMENTS[(first + 3 * player + column) % ELEMENTS.len()])
}

#[test]
fn a_team_makes_the_round_of_a_single_peggy() {
    for plan in &PLANS {
        for players in 2..=MOST_PLAYERS {
            let all = |first| (0..players).map(|p| coordinates(p, first)).collect::<Vec<_>>();
            let (witnesses, nonces) = (all(0), all(1));
            let (sheet, images) = split(plan, &witnesses);
            let team = Team::new(&sheet, &images).unwrap();
            for challenge in 0..5 {
                let mut rounds = Vec::new();
                for player in 0..players {
                    let own = sheet.with_statement(&images[player]).unwrap();
                    rounds.push(honest(&own, &witnesses[player], &nonces[player], challenge));
                }
                let single = honest(
                    &sheet,
                    &joined(&sheet, &witnesses),
                    &joined(&sheet, &nonces),
                    challenge,
                );
                assert_eq!(whole(&team, &rounds), single);
                assert_eq!(sheet.judge(&single), Ok(Verdict::Accepted));
                one_wrong_part(&team, &images, &rounds);
            }
        }
    }
}

/// Where one player's response is wrong, the whole is rejected with the rows of that player's round.
fn one_wrong_part(team: &Team<'_>, images: &[Places], rounds: &[Round]) {
    let sheet = team.instance();
    for player in 0..team.players() {
        let mut wrong = rounds.to_vec();
        let slot = &mut wrong[player].response[0];
        *slot = if *slot == 1 { 2 } else { 1 };
        let own = sheet.with_statement(&images[player]).unwrap();
        let verdict = own.judge(&wrong[player]).unwrap();
        assert!(!verdict.is_accepted());
        assert_eq!(sheet.judge(&whole(team, &wrong)), Ok(verdict));
    }
}

#[test]
fn a_team_has_two_to_eight_players() {
    let a = page_a();
    let mut images = vec![places([13])];
    assert_eq!(Team::new(&a, &[]).unwrap_err(), Refusal::Team);
    assert_eq!(Team::new(&a, &images).unwrap_err(), Refusal::Team);
    for players in 2..=MOST_PLAYERS {
        images.push(places([1]));
        assert_eq!(Team::new(&a, &images).unwrap().players(), players);
    }
    images.push(places([1]));
    assert_eq!(Team::new(&a, &images).unwrap_err(), Refusal::Team);
    // 27 stands before 11.
    assert_eq!(Team::new(&a, &[places([5]); 9]).unwrap_err(), Refusal::Team);
}

#[test]
fn images_are_elements_and_multiply_to_the_statement_in_every_row() {
    // Page E: 13 and 18 are 8 · 16 and 2 · 9.
    let sheet = made(&PLANS[3]).unwrap();
    let first = places([8, 2]);
    assert!(Team::new(&sheet, &[first, places([16, 9])]).is_ok());
    for (second, refusal) in [
        ([16, 5], Refusal::Statement),
        ([24, 9], Refusal::Statement),
        ([0, 9], Refusal::Statement),
        ([16, 1], Refusal::Images),
        ([8, 9], Refusal::Images),
        ([8, 5], Refusal::Statement),
    ] {
        assert_eq!(Team::new(&sheet, &[first, places(second)]).unwrap_err(), refusal);
    }
    // Places beyond the rows are not read.
    assert!(Team::new(&sheet, &[places([8, 2, 5]), places([16, 9, 99])]).is_ok());
}

#[test]
fn what_players_bring_is_tested() {
    let a = page_a();
    let team = Team::new(&a, &[places([8]), places([16])]).unwrap();
    for wrong in [0, 5, 23, 24] {
        assert_eq!(
            team.join_commitments(&[places([4]), places([wrong])]),
            Err(Refusal::Commitment)
        );
    }
    assert_eq!(team.join_responses(&[places([11]), places([0])]), Err(Refusal::Coordinate));
    assert_eq!(team.join_responses(&[places([0, 99]), places([4, 99])]), Ok(places([4])));
    for players in [0, 1, 3, 9] {
        let brought = vec![places([1]); players];
        assert_eq!(team.join_commitments(&brought), Err(Refusal::Team));
        assert_eq!(team.join_responses(&brought), Err(Refusal::Team));
    }
}

/// Page G: 2 is 3 · 24 and 3 is 2 · 19, and with c = 1 the whole is the page's round.
#[test]
fn the_responses_of_a_root_sheet_are_multiplied() {
    let sheet = made(&PLANS[5]).unwrap();
    let images = [places([33]), places([19])];
    let team = Team::new(&sheet, &images).unwrap();
    let rounds = [(3, 2), (24, 19)].iter().zip(&images).map(|((part, nonce), image)| {
        let own = sheet.with_statement(image).unwrap();
        honest(&own, &places([*part]), &places([*nonce]), 1)
    });
    assert_eq!(whole(&team, &rounds.collect::<Vec<_>>()), round(33, 1, 6));
}

#[test]
fn another_statement_leaves_the_rest_of_the_sheet() {
    let a = page_a();
    let other = a.with_statement(&places([8])).unwrap();
    assert_eq!(other, made(&Plan { statement: &[8], ..SCHNORR }).unwrap());
    assert_eq!(other.with_statement(&places([13])), Ok(a));
}
