//! Sheets and rounds of the calculator pages.

use dimkhoros::{Forms, Instance, LinearPlan, Patterns, Plan, Refusal, Round, places};

/// Page A: 2^x = 13 modulo 23, with the witness 7.
pub const SCHNORR: Plan<'static> =
    Plan { pattern: 1, modulus: 23, order: 11, challenges: 11, values: &[2], statement: &[13] };

/// A plan of each pattern of the shipped file, in order, and one of a root sheet.
pub const PLANS: [Plan<'static>; 6] = [
    SCHNORR,
    Plan { pattern: 2, values: &[2, 3], statement: &[18], ..SCHNORR },
    Plan { pattern: 3, values: &[2, 3], statement: &[13, 2], ..SCHNORR },
    Plan { pattern: 4, values: &[2, 16], statement: &[13, 18], ..SCHNORR },
    Plan { pattern: 5, values: &[2, 3, 3], statement: &[12, 9], ..SCHNORR },
    Plan { pattern: 0, modulus: 35, order: 5, challenges: 5, values: &[], statement: &[32] },
];

/// Maurer's example of linear forms, over h1 = 2, h2 = 3 and h3 = 4: z1 = h1^x3 · h2^x1 and z2 = h1^x2 · h2^x4 · h3^x1, with the
/// witness (1, 2, 3, 4).
pub const MAURER: LinearPlan<'static> = LinearPlan {
    modulus: 23,
    order: 11,
    challenges: 11,
    generators: &[2, 3, 4],
    forms: Forms {
        rows: 2,
        columns: 4,
        coefficients: &[
            0, 0, 1, 0, 1, 0, 0, 0, 0, 0, 0, 0, // row z1
            0, 1, 0, 0, 0, 0, 0, 1, 1, 0, 0, 0, // row z2
        ],
    },
    statement: &[1, 8],
};

/// The sheet of a plan by the shipped file.
pub fn made(plan: &Plan<'_>) -> Result<Instance, Refusal> {
    Instance::from_pattern(&Patterns::shipped(), plan)
}

/// The instance of page A.
pub fn page_a() -> Instance {
    made(&SCHNORR).unwrap()
}

/// A round of a sheet with one row and one column.
pub fn round(t: u32, c: u32, r: u32) -> Round {
    Round { commitment: places([t]), challenge: c, response: places([r]) }
}
