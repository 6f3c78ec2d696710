//! The steps by hand end in what the library computes.

use super::{Column, euclid, inverse, power, sides, steps};
use crate::sheets::{largest, small};
use dimkhoros::{
    EXPONENT, Header, Instance, PLACES, Places, Prover, ROOT, Refusal, Round, Values, Verdict,
    places,
};

/// Numbers that look random, the same ones in each run.
pub struct Random(pub u64);

impl Random {
    /// A number below a bound.
    fn below(&mut self, bound: u32) -> u32 {
        self.0 = self.0.wrapping_mul(6_364_136_223_846_793_005).wrapping_add(1);
        ((self.0 >> 32) % u64::from(bound)) as u32
    }

    /// One of these.
    fn one_of(&mut self, values: &[u32]) -> u32 {
        values[self.below(values.len() as u32) as usize]
    }

    /// Some of these in all eight places.
    fn places(&mut self, values: &[u32]) -> Places {
        [0; PLACES].map(|_| self.one_of(values))
    }
}

/// A sheet of this kind with a random table, and the largest challenge count.
fn sheet(kind: u32, random: &mut Random) -> Instance {
    let (modulus, order) = (3 + random.below(200), 2 + random.below(60));
    let rows = 1 + random.below(3);
    let columns = if kind == EXPONENT { 1 + random.below(3) } else { rows };
    let header = Header { kind, modulus, order, challenges: 2, rows, columns };
    let values = Values { header, entries: [[1; PLACES]; PLACES], statement: [1; PLACES] };
    let elements = small::elements(&Instance::encode(&values).unwrap()).unwrap();
    let entries = std::array::from_fn(|_| random.places(&elements));
    let with = |challenges: u32| -> Result<Instance, Refusal> {
        let header = Header { challenges, ..header };
        Instance::encode(&Values { header, entries, statement: [1; PLACES] })
    };
    with(largest(with)).unwrap()
}

/// The library's extractor and the steps by hand agree on two rounds.
#[track_caller]
fn agree(sheet: &Instance, first: &Round, second: &Round) {
    let extracted = sheet.extract(first, second).unwrap();
    let steps = steps(sheet, first, second).unwrap();
    assert_eq!(steps.witness, extracted, "{sheet:?} {first:?} {second:?}");
    let euclid = &steps.euclid;
    let sum = i128::from(euclid.order) * i128::from(euclid.a)
        + i128::from(euclid.difference) * i128::from(euclid.b);
    assert_eq!(sum, 1);
    assert!((0..i64::from(euclid.order)).contains(&euclid.b));
    for sides in steps.sides.iter().flatten() {
        let modulus = sheet.values().header.modulus;
        let left = sides.powers.iter().fold(1, |left, p| super::product(left, p.rest, modulus));
        assert_eq!([left, sides.right], [sides.image; 2]);
    }
}

/// A sheet of this kind, and two honest rounds of it with one commitment.
pub fn honest(kind: u32, random: &mut Random) -> (Instance, Round, Round) {
    let table = sheet(kind, random);
    let domain = small::coordinates(&table).unwrap();
    let (witness, nonce) = (random.places(&domain), random.places(&domain));
    let sheet = table.with_statement(&table.image(&witness).unwrap()).unwrap();
    let challenges = sheet.values().header.challenges;
    let c = random.below(challenges);
    let other = (c + 1 + random.below(challenges - 1)) % challenges;
    let [first, second] = [c, other].map(|challenge| {
        let (peggy, commitment) = Prover::new().commit(&sheet, &nonce).unwrap();
        let (_, response) = peggy.respond(&sheet, challenge, &witness).unwrap();
        Round { commitment, challenge, response }
    });
    (sheet, first, second)
}

#[test]
fn the_steps_end_in_the_librarys_witness_on_honest_rounds() {
    let mut random = Random(7);
    for kind in [EXPONENT, ROOT].repeat(2000) {
        let (sheet, first, second) = honest(kind, &mut random);
        agree(&sheet, &first, &second);
        agree(&sheet, &second, &first);
    }
}

#[test]
fn the_steps_end_in_the_librarys_witness_on_all_pairs_of_small_sheets() {
    let schnorr =
        Header { kind: EXPONENT, modulus: 31, order: 15, challenges: 3, rows: 1, columns: 1 };
    let root = Header { kind: ROOT, modulus: 35, order: 4, challenges: 2, ..schnorr };
    for (header, statement) in [(schnorr, 4), (root, 16)] {
        let mut entries = [[0; PLACES]; PLACES];
        entries[0][0] = 2;
        let values = Values { header, entries, statement: places([statement]) };
        let sheet = Instance::encode(&values).unwrap();
        let rounds = all_rounds(&sheet);
        let pairs =
            rounds.iter().flat_map(|first| rounds.iter().map(move |second| (first, second)));
        let alike = pairs.filter(|(first, second)| {
            first.commitment == second.commitment && first.challenge != second.challenge
        });
        let count = alike.map(|(first, second)| agree(&sheet, first, second)).count();
        assert!(count > 100, "{count} pairs");
    }
}

/// All accepted rounds of a small sheet.
fn all_rounds(sheet: &Instance) -> Vec<Round> {
    let domain = small::domain(sheet, 100).unwrap();
    let round = |challenge, response: &Places| Round {
        commitment: sheet.simulate(challenge, response).unwrap(),
        challenge,
        response: *response,
    };
    let challenges = 0..sheet.values().header.challenges;
    challenges.flat_map(|challenge| domain.iter().map(move |r| round(challenge, r))).collect()
}

#[test]
fn the_steps_go_on_with_the_largest_numbers() {
    let header = Header {
        kind: EXPONENT,
        modulus: 4_294_967_295,
        order: 4_294_967_291,
        challenges: 65_536,
        rows: 1,
        columns: 1,
    };
    let mut ones = Values { header, statement: places([1]), ..Values::default() };
    ones.entries[0][0] = 1;
    let sheet = Instance::encode(&ones).unwrap();
    let round = |challenge, response| Round {
        commitment: places([1]),
        challenge,
        response: places([response]),
    };
    agree(&sheet, &round(0, 4_294_967_290), &round(65_535, 0));
    agree(&sheet, &round(65_535, 0), &round(0, 4_294_967_290));
    let header = Header { kind: ROOT, ..header };
    let values = Values { header, statement: places([1]), ..Values::default() };
    let table = Instance::encode(&values).unwrap();
    let witness = places([4_294_967_294]);
    let sheet = table.with_statement(&table.image(&witness).unwrap()).unwrap();
    for challenge in [1, 32_768, 65_535] {
        let commitment = sheet.simulate(0, &places([4_294_967_293])).unwrap();
        let first = Round { commitment, challenge: 0, response: places([4_294_967_293]) };
        let (peggy, _) = Prover::new().commit(&sheet, &first.response).unwrap();
        let (_, response) = peggy.respond(&sheet, challenge, &witness).unwrap();
        agree(&sheet, &first, &Round { commitment, challenge, response });
        agree(&sheet, &Round { commitment, challenge, response }, &first);
    }
}

#[test]
fn euclid_answers_as_the_worked_pages_say() {
    let found = |order, difference| euclid(order, difference).map(|euclid| (euclid.a, euclid.b));
    assert_eq!(found(11, 2), Some((-1, 6)));
    assert_eq!(found(11, -2), Some((1, 5)));
    assert_eq!(found(5, -2), Some((1, 2)));
    assert_eq!([found(15, 3), found(15, -5), found(15, 0)], [None; 3]);
    assert_eq!(euclid(11, -2).unwrap().lines.len(), 3);
    assert_eq!([inverse(24, 35), inverse(14, 35), inverse(0, 35)], [Some(19), None, None]);
    assert_eq!([power(9, 2, 35).rest, power(13, 0, 23).rest], [11, 1]);
}

#[test]
fn the_steps_of_page_h_are_those_of_the_worked_page() {
    let header = Header { kind: ROOT, modulus: 35, order: 5, challenges: 5, rows: 1, columns: 1 };
    let values = Values { header, statement: places([32]), ..Values::default() };
    let sheet = Instance::encode(&values).unwrap();
    let round = |challenge, response| Round {
        commitment: places([33]),
        challenge,
        response: places([response]),
    };
    let steps = steps(&sheet, &round(1, 6), &round(3, 24)).unwrap();
    let [Column::Root { inverse, quotient, statement_inverse, first, second, witness }] =
        steps.columns[..]
    else {
        panic!("{:?}", steps.columns);
    };
    assert_eq!((inverse, quotient, statement_inverse), (19, 9, None));
    assert_eq!([first.rest, second.rest, witness], [32, 11, 2]);
    // The round (33, 2, 6) is rejected, and its sides differ.
    let rejected = round(2, 6);
    assert!(matches!(sheet.judge(&rejected), Ok(Verdict::Rejected { .. })));
    let row = &sides(&sheet, &rejected).unwrap()[0];
    assert_eq!([row.image, row.right], [6, 17]);
    assert_eq!(sheet.judge(&round(2, 0)), Err(Refusal::Coordinate));
    assert_eq!(sides(&sheet, &round(2, 0)), None);
}
