//! Rounds of the OR proof are judged and extracted from.

use crate::pages::{PLANS, SCHNORR, made};
use dimkhoros::{
    Instance, OrProver, OrRound, OrVerdict, OrWitness, Pair, Places, Plan, Refusal, Rows, Side,
    places,
};

/// A product sheet of two rows and three columns, with K = 5, and its witness.
pub fn product() -> (Instance, Places) {
    (made(&Plan { challenges: 5, ..PLANS[4] }).unwrap(), places([2, 1, 0]))
}

/// Page G's root sheet, with K = 5 too, and its witness.
pub fn root() -> (Instance, Places) {
    (made(&PLANS[5]).unwrap(), places([2]))
}

/// The round of a choice: the known side, its nonce, and a simulated challenge and response.
fn round(
    pair: &Pair<'_>,
    (side, nonce, challenge, response): (Side, Places, u32, Places),
    asked: u32,
) -> OrRound {
    let witness = if side == Side::First { product().1 } else { root().1 };
    let (peggy, _) = OrProver::new().commit(pair, side, &nonce, challenge, &response).unwrap();
    peggy.respond(pair, asked, &witness).unwrap().1
}

#[test]
fn a_verdict_names_the_rows_of_both_sides() {
    let (first, second) = (product().0, root().0);
    let pair = Pair::new(&first, &second).unwrap();
    // The challenge is below the simulated one.
    let right = round(&pair, (Side::First, places([1, 2, 3]), 4, places([6])), 1);
    assert_eq!((right.challenge, right.challenge0), (1, 2));
    assert_eq!(pair.judge(&right), Ok(OrVerdict::Accepted));
    let rejected = |first, second| {
        let (first, second) = (Rows::from_mask(first), Rows::from_mask(second));
        Ok(OrVerdict::Rejected { first, second })
    };
    let second_row =
        OrRound { response0: places([right.response0[0], right.response0[1], 9]), ..right };
    assert_eq!(pair.judge(&second_row), rejected(0b10, 0));
    let root_row = OrRound { response1: places([8]), ..right };
    assert_eq!(pair.judge(&root_row), rejected(0, 1));
    let both = OrRound { response1: places([8]), ..second_row };
    assert_eq!(pair.judge(&both), rejected(0b10, 1));
    // Another c leaves the first side's challenge alone, another c0 changes both.
    assert_eq!(pair.judge(&OrRound { challenge: 2, ..right }), rejected(0, 1));
    assert_eq!(pair.judge(&OrRound { challenge0: 3, ..right }), rejected(0b11, 1));
}

#[test]
fn both_challenges_are_below_the_count() {
    let (first, second) = (product().0, root().0);
    let pair = Pair::new(&first, &second).unwrap();
    let right = round(&pair, (Side::Second, places([3]), 4, places([1, 2, 3])), 1);
    for wrong in [5, 6, 65537, u32::MAX] {
        let whole = OrRound { challenge: wrong, ..right };
        assert_eq!(pair.judge(&whole), Err(Refusal::Challenge));
        let first = OrRound { challenge0: wrong, ..right };
        assert_eq!(pair.judge(&first), Err(Refusal::Challenge));
    }
    let commitment = OrRound { commitment1: places([7]), challenge: 5, ..right };
    assert_eq!(pair.judge(&commitment), Err(Refusal::Commitment));
    let response = OrRound { response0: places([0, 11]), ..right };
    assert_eq!(pair.judge(&response), Err(Refusal::Coordinate));
}

/// Holders of either witness make exactly the accepted rounds of a challenge, each from a single choice.
#[test]
fn either_witness_makes_all_accepted_rounds() {
    let first =
        made(&Plan { modulus: 7, order: 3, challenges: 3, statement: &[4], ..SCHNORR }).unwrap();
    let root = Plan { modulus: 7, order: 5, challenges: 3, statement: &[3], ..PLANS[5] };
    let second = made(&root).unwrap();
    let pair = Pair::new(&first, &second).unwrap();
    let holders = [(Side::First, 2, 0..3, 1..7), (Side::Second, 5, 1..7, 0..3)];
    for challenge in 0..3 {
        let [of_first, of_second] = holders.clone().map(|(side, witness, nonces, responses)| {
            let mut rounds = Vec::new();
            for nonce in nonces {
                for simulated in 0..3 {
                    for response in responses.clone() {
                        let (peggy, _) = OrProver::new()
                            .commit(&pair, side, &places([nonce]), simulated, &places([response]))
                            .unwrap();
                        let (_, round) =
                            peggy.respond(&pair, challenge, &places([witness])).unwrap();
                        assert_eq!(pair.judge(&round), Ok(OrVerdict::Accepted));
                        assert!(!rounds.contains(&round));
                        rounds.push(round);
                    }
                }
            }
            rounds
        });
        assert_eq!(of_first.len(), 3 * 3 * 6);
        assert!(of_first.iter().all(|round| of_second.contains(round)));
        assert_eq!(of_second.len(), of_first.len());
    }
}

#[test]
fn the_side_that_is_extracted_is_the_known_one() {
    let (first, second) = (product().0, root().0);
    let pair = Pair::new(&first, &second).unwrap();
    let choices = [
        (Side::First, places([1, 2, 3]), 4, places([6]), product().1),
        (Side::Second, places([3]), 4, places([1, 2, 3]), root().1),
    ];
    for (side, nonce, simulated, response, witness) in choices {
        for one in 0..5 {
            for other in (0..5).filter(|other| *other != one) {
                let rounds = [one, other]
                    .map(|asked| round(&pair, (side, nonce, simulated, response), asked));
                let expected = OrWitness { side, values: witness };
                assert_eq!(pair.extract(&rounds[0], &rounds[1]), Ok(expected));
            }
        }
    }
}

#[test]
fn the_extractor_refuses_what_gives_no_witness() {
    let (first, second) = (product().0, root().0);
    let pair = Pair::new(&first, &second).unwrap();
    let of =
        |nonce, asked| round(&pair, (Side::First, places([nonce, 2, 3]), 4, places([6])), asked);
    let one = of(1, 1);
    assert_eq!(pair.extract(&one, &of(2, 2)), Err(Refusal::CommitmentsDiffer));
    let other = round(&pair, (Side::First, places([1, 2, 3]), 4, places([8])), 2);
    assert_eq!(pair.extract(&one, &other), Err(Refusal::CommitmentsDiffer));
    assert_eq!(pair.extract(&one, &one), Err(Refusal::ChallengesEqual));
    let rejected = OrRound { challenge: 2, ..one };
    assert_eq!(pair.extract(&one, &rejected), Err(Refusal::RoundRejected));
}

#[test]
fn sheets_with_different_counts_make_no_pair() {
    let (first, second) = (product().0, made(&SCHNORR).unwrap());
    assert_eq!(Pair::new(&first, &second).unwrap_err(), Refusal::CountsDiffer);
    assert_eq!(Pair::new(&second, &first).unwrap_err(), Refusal::CountsDiffer);
    let pair = Pair::new(&first, &first).unwrap();
    assert_eq!(pair.instance(Side::First), pair.instance(Side::Second));
}
