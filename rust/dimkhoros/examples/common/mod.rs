//! What the examples share: the sheet of page A.

use dimkhoros::{Instance, Pattern, Patterns, Plan, Refusal};

/// The Schnorr sheet of page A, 2^x = 13 modulo 23. The witness is 7.
pub fn page_a() -> Result<Instance, Refusal> {
    println!("The sheet: 2^x = 13 modulo 23, order 11, challenges 0 to 10.");
    let plan = Plan {
        pattern: Pattern::Schnorr.number(),
        modulus: 23,
        order: 11,
        challenges: 11,
        values: &[2],
        statement: &[13],
    };
    Instance::from_pattern(&Patterns::shipped(), &plan)
}
