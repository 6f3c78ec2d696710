//! Checking and writing a ledger, which grow with its lines.

use std::hint::black_box;

use dimkhoros_sys::lines::{COMMITMENT, PRODUCT, SUM};
use dimkhoros_sys::{self as proved, Base, Entries, Entry, Ledger, LedgerWritten, Line};

use crate::random::Random;
use crate::reference::{self, Checked};
use crate::sheets::{LARGE_MODULUS, LARGE_ORDER};
use crate::table::{Case, Inputs, Table};

/// Checking and writing.
pub const TABLE: Table<LedgerInputs, 2> = Table {
    title: "A ledger",
    on: "ledger",
    sides: ["library", "idiomatic"],
    cases: &[
        Case { name: "ledger check", calls: [library_check, rust_check], alike: &[alike_check] },
        Case { name: "ledger write", calls: [library_write, rust_write], alike: &[alike_write] },
    ],
    count: PLANS.len(),
    make: |i| LedgerInputs::new(&PLANS[i]),
    compared: || {
        let [.., mut long] = PLANS.map(|plan| LedgerInputs::new(&plan));
        (long.ledger.count, long.entries.count) = (65, 65);
        vec![LedgerInputs::new(&Plan { base: SMALL, name: "m 23", lines: 0, kind: SUM }), long]
    },
};

/// The values of 01's page F, and large ones.
const SMALL: Base = Base { g: 2, h: 3, modulus: 23, order: 11, challenges: 11 };
const LARGE: Base =
    Base { g: 4, h: 9, modulus: LARGE_MODULUS, order: LARGE_ORDER, challenges: 256 };

/// A ledger whose first line is a commitment and whose other lines have one kind.
struct Plan {
    base: Base,
    name: &'static str,
    lines: u32,
    kind: u32,
}

/// A plan over the small or the large values.
const fn small(lines: u32, kind: u32) -> Plan {
    Plan { base: SMALL, name: "m 23", lines, kind }
}
const fn large(lines: u32, kind: u32) -> Plan {
    Plan { base: LARGE, name: "m near 2^32, K 256", lines, kind }
}

/// The ledgers that are measured.
const PLANS: [Plan; 12] = [
    small(1, COMMITMENT),
    small(64, COMMITMENT),
    small(64, PRODUCT),
    large(1, COMMITMENT),
    large(4, COMMITMENT),
    large(16, COMMITMENT),
    large(64, COMMITMENT),
    large(64, SUM),
    large(2, PRODUCT),
    large(4, PRODUCT),
    large(16, PRODUCT),
    large(64, PRODUCT),
];

/// What the calls take. The reference writes to `own`.
pub struct LedgerInputs {
    name: String,
    base: Base,
    entries: Entries,
    ledger: Ledger,
    own: Ledger,
}

impl Inputs for LedgerInputs {
    fn name(&self) -> &str {
        &self.name
    }

    fn taken(&mut self) -> (&mut [u8], Vec<&mut u32>) {
        let Base { g, h, modulus, order, challenges } = &mut self.base;
        let base = [g, h, modulus, order, challenges];
        let lines = self.ledger.lines.iter_mut().flat_map(|line| {
            let Line { kind, first, second, commitment, t, challenge, response } = line;
            [kind, first, second, commitment, challenge].into_iter().chain(t).chain(response)
        });
        let entries = self.entries.entries.iter_mut().flat_map(|entry| {
            let Entry { kind, first, second, value, blinding, nonce, challenge } = entry;
            [kind, first, second, value, blinding, challenge].into_iter().chain(nonce)
        });
        let counts = [&mut self.ledger.count, &mut self.entries.count];
        (&mut [], base.into_iter().chain(counts).chain(lines).chain(entries).collect())
    }
}

impl LedgerInputs {
    /// The inputs of a plan, with made-up numbers. Line i is of the lines i / 2 and
    /// i - 1.
    fn new(plan: &Plan) -> LedgerInputs {
        let &Plan { base, name, lines, kind } = plan;
        let mut random = Random::new();
        let mut entries = Entries { count: lines, ..Entries::default() };
        for (i, entry) in (0..lines).zip(&mut entries.entries) {
            *entry = Entry {
                kind: if i == 0 { COMMITMENT } else { kind },
                first: i / 2,
                second: i.saturating_sub(1),
                value: random.below(base.order),
                blinding: random.below(base.order),
                nonce: [(); 3].map(|()| random.below(base.order)),
                challenge: random.below(base.challenges),
            };
        }
        let LedgerWritten { ledger, .. } = proved::ledger_write(base, &entries);
        let lines = match (lines, kind) {
            (1, _) => "1 commitment".to_string(),
            (_, SUM) => format!("1 commitment, {} sums", lines - 1),
            (2, PRODUCT) => "1 commitment, 1 product".to_string(),
            (_, PRODUCT) => format!("1 commitment, {} products", lines - 1),
            _ => format!("{lines} commitments"),
        };
        LedgerInputs {
            name: format!("{lines}, {name}"),
            base,
            entries,
            ledger,
            own: Ledger::default(),
        }
    }
}

fn library_check(inputs: &mut LedgerInputs) {
    let LedgerInputs { base, ledger, .. } = black_box(inputs);
    black_box(proved::ledger_check(*base, ledger));
}

fn library_write(inputs: &mut LedgerInputs) {
    let LedgerInputs { base, entries, .. } = black_box(inputs);
    let answer = proved::ledger_write(*base, entries);
    black_box(&answer);
}

fn rust_check(inputs: &mut LedgerInputs) {
    let LedgerInputs { base, ledger, .. } = black_box(inputs);
    _ = black_box(reference::ledger_check(base, ledger));
}

fn rust_write(inputs: &mut LedgerInputs) {
    let LedgerInputs { base, entries, own, .. } = black_box(inputs);
    _ = black_box(reference::ledger_write(base, entries, own));
}

fn alike_check(inputs: &mut LedgerInputs) -> bool {
    let LedgerInputs { base, ledger, .. } = inputs;
    let (accepted, line, refusal) = match reference::ledger_check(base, ledger) {
        Ok(Checked::Accepted) => (1, 0, 0),
        Ok(Checked::Rejected(line)) => (0, line as u32, 0),
        Err(number) => (0, 0, number),
    };
    proved::ledger_check(*base, ledger) == proved::Checked { accepted, line, refusal }
}

fn alike_write(inputs: &mut LedgerInputs) -> bool {
    let LedgerInputs { base, entries, own, .. } = inputs;
    let written = match reference::ledger_write(base, entries, own) {
        Ok(()) => LedgerWritten { ledger: *own, refusal: 0 },
        Err(refusal) => LedgerWritten { ledger: Ledger::default(), refusal },
    };
    proved::ledger_write(*base, entries) == written
}
