//! The sheets that are measured, and for each a session, two rounds, a round
//! file of 512 rounds and a level.

use dimkhoros_sys::{LONGEST_TEXT, Places, Round};

use crate::random::Random;
use crate::reference::{Idiomatic, Kind, load};
use crate::table::Inputs;

/// How many rounds the round file has.
const ROUNDS: u32 = 512;

/// The highest level, for which the most rounds are counted.
const LEVEL: u8 = 64;

/// What the calls take. The text is lent to the marker.
pub struct SheetInputs {
    pub name: &'static str,
    pub sheet: Vec<u8>,
    pub witness: Places,
    pub nonce: Places,
    pub first: Round,
    pub second: Round,
    pub file: Vec<u8>,
    pub level: Vec<u8>,
    pub text: Box<[u8; LONGEST_TEXT]>,
}

impl Inputs for SheetInputs {
    fn name(&self) -> &str {
        self.name
    }

    fn taken(&mut self) -> (&mut [u8], Vec<&mut u32>) {
        (&mut self.sheet, Vec::new())
    }
}

/// The fixed fields of a sheet.
#[derive(Clone, Copy)]
pub struct Plan {
    pub name: &'static str,
    pub kind: Kind,
    pub modulus: u32,
    pub order: u32,
    pub challenges: u32,
    pub rows: usize,
    pub columns: usize,
}

/// What makes the inputs of each sheet, the smallest sheet first.
pub const SHEETS: [fn() -> SheetInputs; 8] = [
    page_a,
    page_g,
    page_e,
    page_f,
    large_exponent,
    || random(root("8 × 8, root, K 256", 256), (200, 77)),
    || random(exponent("8 × 8, exponent, K 65,536", 65_536), (51_234, 777)),
    || random(root("8 × 8, root, K 65,536", 65_536), (51_234, 777)),
];

/// The inputs that are compared and not measured: sheets of two to seven rows, and
/// page G's with many challenges and an exponent whose first divisor is large.
pub fn compared() -> Vec<SheetInputs> {
    let last_word = [65_449, 65_479, 65_497, 65_519, 65_521].map(|p| (p * p, 65_536));
    let searched = [
        (65_521 * 65_519, 65_519),
        (4_099 * 4_099, 4_099),
        (4_099 * 4_099, 4_100),
        (2_053 * 2_053, 2_053),
        (4_294_967_291, 65_536),
    ];
    let searched = searched.into_iter().chain(last_word).map(|(e, challenges): (u32, u32)| {
        let mut inputs = page_g();
        inputs.sheet[10..14].copy_from_slice(&e.to_be_bytes());
        inputs.sheet[14..18].copy_from_slice(&challenges.to_be_bytes());
        inputs
    });
    between().chain(searched).collect()
}

/// The inputs of sheets of two to seven rows.
fn between() -> impl Iterator<Item = SheetInputs> {
    let plans = (2..8).flat_map(|size| {
        let plan = |plan| Plan { rows: size, columns: size, ..plan };
        [
            plan(exponent("fewer rows, exponent, K 256", 256)),
            plan(root("fewer rows, root, K 256", 256)),
        ]
    });
    plans.map(|plan| random(plan, (200, 77)))
}

/// The largest prime of 32 bits that is 2 q + 1 for a prime q, and q. Squares have the
/// order q.
pub const LARGE_MODULUS: u32 = 4_294_967_087;
pub const LARGE_ORDER: u32 = 2_147_483_543;

/// A large exponent sheet.
fn exponent(name: &'static str, challenges: u32) -> Plan {
    Plan {
        name,
        kind: Kind::Exponent,
        modulus: LARGE_MODULUS,
        order: LARGE_ORDER,
        challenges,
        rows: 8,
        columns: 8,
    }
}

/// A large root sheet. The modulus is the product of the primes 65,521 and
/// 65,519, and the exponent is the largest prime of 32 bits.
fn root(name: &'static str, challenges: u32) -> Plan {
    Plan {
        name,
        kind: Kind::Root,
        modulus: 4_292_870_399,
        order: 4_294_967_291,
        challenges,
        rows: 8,
        columns: 8,
    }
}

/// A large exponent sheet with few challenges.
pub fn large_exponent() -> SheetInputs {
    random(exponent("8 × 8, exponent, K 256", 256), (200, 77))
}

/// Pages A and B of 01.
pub fn page_a() -> SheetInputs {
    let plan = page("1 × 1, exponent, m 23, K 11", 1, 1);
    make(plan, &[2], places([7]), places([5]), (3, 1))
}

/// Page E of 01, which has two rows.
fn page_e() -> SheetInputs {
    let plan = page("2 × 1, exponent, m 23, K 11", 2, 1);
    make(plan, &[2, 16], places([7]), places([5]), (3, 1))
}

/// Page F of 01, which has two rows and three columns.
fn page_f() -> SheetInputs {
    let plan = page("2 × 3, exponent, m 23, K 11", 2, 3);
    let entries = [2, 3, 1, 3, 1, 3];
    make(plan, &entries, places([2, 1, 0]), places([5, 4, 3]), (3, 1))
}

/// Pages G and H of 01.
fn page_g() -> SheetInputs {
    let plan = Plan {
        name: "1 × 1, root, m 35, K 5",
        kind: Kind::Root,
        modulus: 35,
        order: 5,
        challenges: 5,
        rows: 1,
        columns: 1,
    };
    make(plan, &[], places([2]), places([3]), (1, 3))
}

/// The fixed fields of pages A to F of 01.
fn page(name: &'static str, rows: usize, columns: usize) -> Plan {
    Plan { name, kind: Kind::Exponent, modulus: 23, order: 11, challenges: 11, rows, columns }
}

/// Values in the first places, and zeros beyond them.
fn places<const N: usize>(values: [u32; N]) -> Places {
    let mut places = [0; 8];
    places[..N].copy_from_slice(&values);
    places
}

/// The inputs of a large sheet with made-up values. Squares are group elements
/// of the exponent sheet, and a number that shares no divisor with the modulus
/// is one of the root sheet.
fn random(plan: Plan, challenges: (u32, u32)) -> SheetInputs {
    let mut random = Random::new();
    let m = u64::from(plan.modulus);
    let entries: Vec<u32> = match plan.kind {
        Kind::Exponent => (0..plan.rows * plan.columns)
            .map(|_| u64::from(random.number()))
            .map(|v| (v * v % m) as u32)
            .collect(),
        Kind::Root => Vec::new(),
    };
    let mut slot = || loop {
        let v = random.below(plan.order);
        if v % 65_521 != 0 && v % 65_519 != 0 {
            return v;
        }
    };
    let witness = [(); 8].map(|()| slot());
    let nonce = [(); 8].map(|()| slot());
    make(plan, &entries, witness, nonce, challenges)
}

/// The bytes of a sheet.
pub fn sheet_bytes(plan: &Plan, entries: &[u32], statement: &[u32]) -> Vec<u8> {
    let mut bytes = b"HOM\x00\x01".to_vec();
    bytes.push(match plan.kind {
        Kind::Exponent => 1,
        Kind::Root => 2,
    });
    for field in [plan.modulus, plan.order, plan.challenges] {
        bytes.extend(field.to_be_bytes());
    }
    bytes.extend([plan.rows as u8, plan.columns as u8]);
    for value in entries.iter().chain(statement) {
        bytes.extend(value.to_be_bytes());
    }
    bytes
}

/// The inputs of a sheet with this witness. The statement is computed on the
/// sheet whose statement is ones, which loads too.
fn make(
    plan: Plan,
    entries: &[u32],
    witness: Places,
    nonce: Places,
    challenges: (u32, u32),
) -> SheetInputs {
    let ones = sheet_bytes(&plan, entries, &[1; 8][..plan.rows]);
    let values = load::<Idiomatic>(&ones).unwrap_or_else(|number| panic!("refused with {number}"));
    let statement = values.image(&witness);
    let round = |challenge| Round {
        commitment: values.image(&nonce),
        challenge,
        response: values.response(&nonce, challenge, &witness),
    };
    let mut file = b"RND\x00\x01\x02\x00".to_vec();
    for k in 0..ROUNDS {
        file.extend(record(&plan, k, round(k * 127 % plan.challenges)));
    }
    SheetInputs {
        name: plan.name,
        sheet: sheet_bytes(&plan, entries, &statement[..plan.rows]),
        witness,
        nonce,
        first: round(challenges.0),
        second: round(challenges.1),
        file,
        level: vec![LEVEL],
        text: Box::new([0; LONGEST_TEXT]),
    }
}

/// The record of round k. Each eighth round has 1 as its last response, which
/// is a slot of every sheet, and so most of them are rejected.
fn record(plan: &Plan, k: u32, mut round: Round) -> Vec<u8> {
    if k % 8 == 7 {
        round.response[plan.columns - 1] = 1;
    }
    let numbers =
        [&round.commitment[..plan.rows], &[round.challenge], &round.response[..plan.columns]];
    numbers.concat().into_iter().flat_map(u32::to_be_bytes).collect()
}
