//! A course author makes a sheet of each shipped pattern, one of a pattern of her own and one of linear forms, and bad ones are
//! refused by number.

use dimkhoros::{Forms, Instance, LinearPlan, Pattern, Patterns, Plan, Refusal};

/// A pattern file with one pattern, ElGamal's commitments: rows (1 g) and (g h) over the public values g and h.
const ELGAMAL: &[u8] = b"PAT\x00\x01\x01\x02\x02\x02\x00\x01\x01\x02";

/// The same with the digit 3, for which there is no value, and with a byte behind it.
const DIGIT_3: &[u8] = b"PAT\x00\x01\x01\x02\x02\x02\x00\x01\x01\x03";
const BYTE_BEHIND: &[u8] = b"PAT\x00\x01\x01\x02\x02\x02\x00\x01\x01\x02\x00";

/// A plan with modulus 23, order 11 and 11 challenges.
fn plan<'a>(pattern: u32, values: &'a [u32], statement: &'a [u32]) -> Plan<'a> {
    Plan { pattern, modulus: 23, order: 11, challenges: 11, values, statement }
}

/// A plan of each shipped pattern, and one of a root sheet.
fn good() -> [(&'static str, Plan<'static>); 6] {
    let root = plan(Pattern::Root.number(), &[], &[32]);
    [
        ("Schnorr", plan(Pattern::Schnorr.number(), &[2], &[13])),
        ("Okamoto", plan(Pattern::Okamoto.number(), &[2, 3], &[18])),
        ("equality", plan(Pattern::Equality.number(), &[2, 3], &[13, 2])),
        ("Diffie-Hellman", plan(Pattern::DiffieHellman.number(), &[2, 16], &[13, 18])),
        ("product", plan(Pattern::Product.number(), &[2, 3, 3], &[12, 9])),
        ("root", Plan { modulus: 35, order: 5, challenges: 5, ..root }),
    ]
}

/// Plans with a fault each.
fn bad() -> [(&'static str, Plan<'static>); 5] {
    let schnorr = plan(Pattern::Schnorr.number(), &[2], &[13]);
    let fifteen = plan(Pattern::Schnorr.number(), &[1], &[1]);
    [
        ("pattern 6", Plan { pattern: 6, ..schnorr }),
        ("Okamoto with one value", plan(Pattern::Okamoto.number(), &[2], &[18])),
        ("12 challenges for order 11", Plan { challenges: 12, ..schnorr }),
        ("4 challenges for order 15", Plan { modulus: 31, order: 15, challenges: 4, ..fifteen }),
        ("statement 5", Plan { statement: &[5], ..schnorr }),
    ]
}

/// Maurer's example of linear forms, over h1 = 2, h2 = 3 and h3 = 4: z1 = h1^x3 * h2^x1 and z2 = h1^x2 * h2^x4 * h3^x1.
fn maurer() -> LinearPlan<'static> {
    LinearPlan {
        modulus: 23,
        order: 11,
        challenges: 11,
        generators: &[2, 3, 4],
        forms: Forms::of(&[
            [[0, 0, 1, 0], [1, 0, 0, 0], [0, 0, 0, 0]],
            [[0, 1, 0, 0], [0, 0, 0, 1], [1, 0, 0, 0]],
        ]),
        statement: &[1, 8],
    }
}

/// The same with a fault each.
fn bad_forms() -> [(&'static str, LinearPlan<'static>); 3] {
    let eleven = Forms::of(&[[[11, 0, 0, 0]; 3]; 2]);
    [
        ("two generators for three forms in a row", LinearPlan { generators: &[2, 3], ..maurer() }),
        ("coefficient 11", LinearPlan { forms: eleven, ..maurer() }),
        ("generator 5", LinearPlan { generators: &[2, 3, 5], ..maurer() }),
    ]
}

/// Says what a sheet has.
fn show(name: &str, instance: &Instance) {
    let header = instance.values().header;
    let length = instance.bytes().len();
    println!("{name}: rows {}, columns {}, {length} bytes", header.rows, header.columns);
}

fn main() -> Result<(), Refusal> {
    let shipped = Patterns::shipped();
    println!("The shipped file: {} bytes.", shipped.bytes().len());
    for (name, plan) in good() {
        show(name, &Instance::from_pattern(&shipped, &plan)?);
    }
    for (name, plan) in bad() {
        println!("{name}: {}", Instance::from_pattern(&shipped, &plan).unwrap_err());
    }
    println!("A file of her own: {} bytes.", ELGAMAL.len());
    let own = Patterns::load(ELGAMAL)?;
    show("ElGamal", &Instance::from_pattern(&own, &plan(1, &[2, 3], &[9, 8]))?);
    for (name, file) in [("digit 3 of two values", DIGIT_3), ("a byte behind", BYTE_BEHIND)] {
        println!("{name}: {}", Patterns::load(file).unwrap_err());
    }
    println!("Linear forms over three generators.");
    show("Maurer's example", &Instance::from_forms(&maurer())?);
    for (name, plan) in bad_forms() {
        println!("{name}: {}", Instance::from_forms(&plan).unwrap_err());
    }
    Ok(())
}
