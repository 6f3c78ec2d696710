//! Files that are good, and files that are not.

use crate::generator::Random;
use dimkhoros::{
    EXPONENT, Header, Instance, LONGEST_FILE, PLACES, Patterns, Places, Plan, ROOT, Round,
    RoundWriter, Values,
};

/// A good sheet, and files that go with it.
pub struct Material {
    /// The sheet.
    pub sheet: Vec<u8>,
    /// A round file of the sheet.
    pub rounds: Vec<u8>,
    /// A pattern file.
    pub patterns: Vec<u8>,
    /// A level file.
    pub level: Vec<u8>,
    /// The text of a ledger, with values or without.
    pub ledger: Vec<u8>,
    /// The rows of the sheet.
    pub rows: usize,
    /// The columns of the sheet.
    pub columns: usize,
}

impl Material {
    /// One of a few sheets or any small one, with rounds of which most are accepted.
    pub fn any(random: &mut Random) -> Material {
        let sheet =
            if random.once_in(2) { sheet(random.below(SHEETS)) } else { small_sheet(random) };
        let count = random.below(6);
        let rounds: Vec<Round> = (0..count).map(|_| round(&sheet, random)).collect();
        let header = sheet.values().header;
        Material {
            rounds: round_file(&sheet, 1 + random.below(2) as u32, &rounds),
            patterns: Patterns::shipped().bytes().to_vec(),
            level: vec![1 + random.below(8) as u8],
            ledger: random.pick(&LEDGERS).as_bytes().to_vec(),
            rows: header.rows as usize,
            columns: header.columns as usize,
            sheet: sheet.bytes().to_vec(),
        }
    }
}

/// Texts of ledgers. The third has a round that is rejected.
const LEDGERS: [&str; 4] = [
    "g=2 h=3 m=23 q=11 K=11\ncommitment v=2 b=1\ncommitment v=3 b=0\nsum 0 1\nproduct 0 1 b=4 k=1,2,3 c=3\n",
    "g=2 h=3 m=23 q=11 K=11\ncommitment C=12\ncommitment C=8\nsum 0 1\nproduct 0 1 C=9 t=18,9 c=3 r=7,5,4\n",
    "g=2 h=3 m=23 q=11 K=11\ncommitment C=12\ncommitment C=8\nsum 0 1\nproduct 0 1 C=9 t=18,9 c=3 r=7,5,5\n",
    "K=2 q=2147483646 m=2147483647 g=7 h=3 # large\ncommitment v=9 b=2147483645\nsum 0 0\nsum 1 1\nproduct 2 2 b=1 k=0,5,6 c=1\nproduct 3 2 b=0 k=7,7,7 c=0",
];

/// How many sheets there are.
const SHEETS: usize = 9;

/// The sheet of a number: those of the pages A, D, E, F and G of 01, one whose order is no prime, two rows of roots, a full
/// table, and large numbers.
fn sheet(number: usize) -> Instance {
    match number {
        0 => by_pattern(1, &[2], &[13]),
        1 => by_pattern(2, &[2, 3], &[18]),
        2 => by_pattern(4, &[2, 16], &[13, 18]),
        3 => by_pattern(5, &[2, 3, 3], &[12, 9]),
        4 => by_values(ROOT, [35, 5, 5], 1, 0, 32),
        5 => by_values(EXPONENT, [31, 15, 3], 1, 1, 1),
        6 => by_values(ROOT, [35, 5, 5], 2, 0, 32),
        7 => by_values(EXPONENT, [23, 11, 11], 8, 2, 13),
        _ => by_values(EXPONENT, [2_147_483_647, 2_147_483_646, 2], 1, 7, 49),
    }
}

/// The sheet of a shipped pattern with page A's numbers.
fn by_pattern(pattern: u32, values: &[u32], statement: &[u32]) -> Instance {
    let plan = Plan { pattern, modulus: 23, order: 11, challenges: 11, values, statement };
    Instance::from_pattern(&Patterns::shipped(), &plan).unwrap()
}

/// A sheet of as many rows as columns, with one entry and one statement value everywhere.
fn by_values(kind: u32, numbers: [u32; 3], rows: u32, entry: u32, statement: u32) -> Instance {
    let [modulus, order, challenges] = numbers;
    let header = Header { kind, modulus, order, challenges, rows, columns: rows };
    let (entries, statement) = ([[entry; PLACES]; PLACES], [statement; PLACES]);
    Instance::encode(&Values { header, entries, statement }).unwrap()
}

/// A sheet of small numbers, with any elements of its group as entries and statement.
fn small_sheet(random: &mut Random) -> Instance {
    let kind = *random.pick(&[EXPONENT, EXPONENT, ROOT]);
    let [modulus, order] = [3 + random.below(60), 2 + random.below(22)].map(|number| number as u32);
    let unit = by_values(kind, [modulus, order, 2], 1, 1, 1);
    let is_element = |value: &u32| unit.with_statement(&[*value; PLACES]).is_ok();
    let elements: Vec<u32> = (1..modulus).filter(is_element).collect();
    let rows = 1 + random.below(3) as u32;
    let columns = if kind == ROOT { rows } else { 1 + random.below(3) as u32 };
    let mut places = || std::array::from_fn(|_| *random.pick(&elements));
    let (statement, entries) = (places(), std::array::from_fn(|_| places()));
    let header = Header { kind, modulus, order, challenges: 2, rows, columns };
    let values = Values { header, entries, statement };
    let challenges = 2 + random.below(10) as u32;
    let more = Values { header: Header { challenges, ..header }, ..values };
    Instance::encode(&more).or(Instance::encode(&values)).unwrap()
}

/// A round: mostly a simulated one, now and then with a value changed, and of few commitments, so that some are equal.
fn round(sheet: &Instance, random: &mut Random) -> Round {
    let header = sheet.values().header;
    let challenge = random.below(header.challenges as usize) as u32;
    let response: Places = match header.kind {
        EXPONENT => [random.below(header.order.min(4) as usize) as u32; PLACES],
        _ => [*random.pick(&[1, header.modulus - 1]); PLACES],
    };
    let commitment = sheet.simulate(challenge, &response).unwrap();
    match random.below(20) {
        0 => Round { commitment: [random.number(30); PLACES], challenge, response },
        1 => Round { commitment, challenge, response: [random.number(12); PLACES] },
        2 => Round { commitment, challenge: random.below(20) as u32, response },
        _ => Round { commitment, challenge, response },
    }
}

/// A round file.
fn round_file(sheet: &Instance, version: u32, rounds: &[Round]) -> Vec<u8> {
    let mut buffer = [0; LONGEST_FILE];
    let mut file = RoundWriter::start(sheet, version, &mut buffer).unwrap();
    for round in rounds {
        file.append(round).unwrap();
    }
    file.file().bytes().to_vec()
}

/// What is made of a good file: itself, damage to it, or bytes that have nothing to do with it.
pub fn handled(good: &[u8], random: &mut Random) -> Vec<u8> {
    let mut bytes = good.to_vec();
    match random.below(8) {
        0..=2 => {}
        3 => {
            let length = random.below(420);
            bytes = random.bytes(length);
        }
        4 => bytes.truncate(random.below(good.len().max(1))),
        5 => {
            let more = 1 + random.below(9);
            bytes.extend(random.bytes(more));
        }
        6 => {
            let rest = good.len().saturating_sub(7);
            bytes.truncate(7);
            bytes.extend(random.bytes(rest));
        }
        _ => change(&mut bytes, random),
    }
    bytes
}

/// Changes one to three bytes, if there are any, often to small values.
fn change(bytes: &mut [u8], random: &mut Random) {
    for _ in 0..1 + random.below(3) {
        let value = *random.pick(&[0, 1, 2, 3, 8, 9, 255]);
        if !bytes.is_empty() {
            let place = random.below(bytes.len());
            bytes[place] = value;
        }
    }
}
