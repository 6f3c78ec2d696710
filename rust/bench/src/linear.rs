//! The maker of sheets from linear forms, which grows with generators, rows and
//! columns.

use std::hint::black_box;

use dimkhoros_sys::{self as proved, LONGEST_SHEET};

use crate::random::Random;
use crate::reference::{self, Forms, Header, Kind};
use crate::sheets::{LARGE_MODULUS, LARGE_ORDER};
use crate::table::{Case, Inputs, Table};

/// The maker.
pub const TABLE: Table<LinearInputs, 2> = Table {
    title: "Sheets from linear forms",
    on: "forms",
    sides: ["library", "idiomatic"],
    cases: &[Case { name: "linear", calls: [library, rust], alike: &[alike] }],
    count: PLANS.len(),
    make: |i| LinearInputs::new(&PLANS[i]),
    compared: || {
        let plan = |generators| Plan { group: SMALL, generators, rows: 2, columns: 3 };
        let short = LinearInputs { room: 51, ..LinearInputs::new(&plan(2)) };
        [0, 2, 9].map(|count| LinearInputs::new(&plan(count))).into_iter().chain([short]).collect()
    },
};

/// A modulus, an order, a challenge count and an element.
#[derive(Clone, Copy)]
struct Group {
    name: &'static str,
    modulus: u32,
    order: u32,
    challenges: u32,
    element: u32,
}

/// The group of 01's pages A to F, and that of the large exponent sheets.
const SMALL: Group = Group { name: "m 23", modulus: 23, order: 11, challenges: 11, element: 2 };
const LARGE: Group = Group {
    name: "m near 2^32, K 256",
    modulus: LARGE_MODULUS,
    order: LARGE_ORDER,
    challenges: 256,
    element: 4,
};

/// How many generators, rows and columns there are.
struct Plan {
    group: Group,
    generators: usize,
    rows: usize,
    columns: usize,
}

/// The forms that are measured.
const PLANS: [Plan; 10] = [
    Plan { group: SMALL, generators: 1, rows: 1, columns: 1 },
    Plan { group: SMALL, generators: 8, rows: 8, columns: 8 },
    Plan { group: LARGE, generators: 1, rows: 1, columns: 1 },
    Plan { group: LARGE, generators: 1, rows: 8, columns: 8 },
    Plan { group: LARGE, generators: 2, rows: 8, columns: 8 },
    Plan { group: LARGE, generators: 4, rows: 8, columns: 8 },
    Plan { group: LARGE, generators: 8, rows: 8, columns: 1 },
    Plan { group: LARGE, generators: 8, rows: 8, columns: 2 },
    Plan { group: LARGE, generators: 8, rows: 8, columns: 4 },
    Plan { group: LARGE, generators: 8, rows: 8, columns: 8 },
];

/// What the maker takes. `room` bytes of the buffer are lent.
pub struct LinearInputs {
    name: String,
    /// The modulus, the order, the challenge count, the rows and the columns.
    fields: [u32; 5],
    generators: Vec<u32>,
    coefficients: Vec<u32>,
    statement: Vec<u32>,
    buffer: [u8; LONGEST_SHEET],
    room: usize,
}

impl Inputs for LinearInputs {
    fn name(&self) -> &str {
        &self.name
    }

    fn taken(&mut self) -> (&mut [u8], Vec<&mut u32>) {
        let lists = [&mut self.generators, &mut self.coefficients, &mut self.statement];
        (&mut [], self.fields.iter_mut().chain(lists.into_iter().flatten()).collect())
    }
}

impl LinearInputs {
    /// The inputs of a plan, with made-up coefficients. Generators and statement are
    /// powers of the group's element.
    fn new(plan: &Plan) -> LinearInputs {
        let &Plan { group, generators, rows, columns } = plan;
        let mut random = Random::new();
        let mut slot = || random.below(group.order);
        let coefficients = (0..rows * generators * columns).map(|_| slot()).collect();
        let mut elements = |count: usize| -> Vec<u32> {
            let power = |_| reference::pow_mod(group.element, slot(), group.modulus);
            (0..count).map(power).collect()
        };
        let count = if generators == 1 {
            "1 generator".to_string()
        } else {
            format!("{generators} generators")
        };
        LinearInputs {
            name: format!("{count}, {rows} × {columns}, {}", group.name),
            fields: [group.modulus, group.order, group.challenges, rows as u32, columns as u32],
            generators: elements(generators),
            coefficients,
            statement: elements(rows),
            buffer: [0; LONGEST_SHEET],
            room: LONGEST_SHEET,
        }
    }
}

/// One call of the library, which answers what it answers.
#[inline(always)]
fn proved_call(inputs: &mut LinearInputs) -> proved::Written {
    let LinearInputs { fields, generators, coefficients, statement, buffer, room, .. } = inputs;
    let [m, q, challenges, rows, columns] = *fields;
    let lent = &mut buffer[..*room];
    proved::linear(m, q, challenges, rows, columns, generators, coefficients, statement, lent)
}

/// One call in Rust.
#[inline(always)]
fn rust_call(inputs: &mut LinearInputs) -> Result<usize, u32> {
    let LinearInputs { fields, generators, coefficients, statement, buffer, room, .. } = inputs;
    let [modulus, order, challenges, rows, columns] = *fields;
    let (rows, columns) = (rows as usize, columns as usize);
    let header = Header { kind: Kind::Exponent, modulus, order, challenges, rows, columns };
    reference::linear(Forms { header, generators, coefficients, statement }, &mut buffer[..*room])
}

fn library(inputs: &mut LinearInputs) {
    black_box(proved_call(black_box(inputs)));
}

fn rust(inputs: &mut LinearInputs) {
    _ = black_box(rust_call(black_box(inputs)));
}

fn alike(inputs: &mut LinearInputs) -> bool {
    inputs.buffer.fill(0);
    let proved = proved_call(inputs);
    let bytes = inputs.buffer;
    inputs.buffer.fill(0);
    let (length, refusal) = match rust_call(inputs) {
        Ok(length) => (length, 0),
        Err(number) => (0, number),
    };
    proved == proved::Written { length, refusal } && bytes == inputs.buffer
}
