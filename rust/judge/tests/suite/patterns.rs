//! The sheet maker.

use judge::*;

use crate::tools::*;

/// Makes a sheet over m 23, q 11, K 11 in a buffer with room behind it.
fn made(pattern: u64, values: &[u32], statement: &[u32]) -> Vec<u8> {
    let mut buffer = [0xAA; 80];
    let length = make(pattern, 23, 11, 11, values, statement, &mut buffer).unwrap();
    assert!(buffer[length..].iter().all(|byte| *byte == 0xAA));
    buffer[..length].to_vec()
}

#[test]
fn the_tables_of_the_first_five_patterns() {
    let expected = |table: &[&[u32]], z: &[u32]| exponent(23, 11, 11, table, z).bytes();
    assert_eq!(made(1, &[2], &[13]), expected(&[&[2]], &[13]));
    assert_eq!(made(2, &[2, 3], &[18]), expected(&[&[2, 3]], &[18]));
    assert_eq!(made(3, &[2, 3], &[13, 18]), expected(&[&[2], &[3]], &[13, 18]));
    assert_eq!(made(4, &[2, 16], &[13, 18]), expected(&[&[2], &[16]], &[13, 18]));
    let product: [&[u32]; 2] = [&[2, 3, 1], &[4, 1, 3]];
    assert_eq!(made(5, &[2, 3, 4], &[12, 9]), expected(&product, &[12, 9]));
}

#[test]
fn the_root_pattern() {
    let mut buffer = [0xAA; 30];
    assert_eq!(make(6, 35, 5, 5, &[], &[32], &mut buffer), Ok(24));
    assert_eq!(buffer[..24], page_g());
    assert_eq!(buffer[24..], [0xAA; 6]);
}

#[test]
fn the_product_witness_of_the_paper() {
    // C(v, ρ) = g^v h^ρ with a 3, α 4, b 5, β 6, ε 7 over m 23, q 11.
    let c = |v: u32, rho: u32| 2_u32.pow(v) % 23 * (3_u32.pow(rho) % 23) % 23;
    let (a, b, e) = (c(3, 4), c(5, 6), c(15 % 11, 7));
    let sheet = made(5, &[2, 3, b], &[a, e]);
    let witness = eight(&[3, 4, (7 + 11 * 2 - 3 * 6) % 11]);
    let (_, session) = commit(&sheet, Prover::new(), &eight(&[1, 2, 3]));
    assert!(respond(&sheet, session, 10, &witness).0.is_ok());
}

#[test]
fn refusal_1_pattern_numbers_and_counts() {
    let counts = [(1, 1, 1), (2, 2, 1), (3, 2, 2), (4, 2, 2), (5, 3, 2), (6, 0, 1)];
    let ones = [1; 10];
    for (pattern, values, statement) in counts {
        for v in 0..6 {
            for z in 0..6 {
                let mut buffer = [0xAA; 80];
                let answer = make(pattern, 23, 11, 11, &ones[..v], &ones[..z], &mut buffer);
                if (v, z) == (values, statement) {
                    assert!(answer.is_ok());
                } else {
                    assert_eq!(answer, Err(1));
                    assert_eq!(buffer, [0xAA; 80]);
                }
            }
        }
    }
    for pattern in [0, 7, 8, 256, 257, 1 << 32, (1 << 32) + 1, u64::MAX] {
        assert_eq!(make(pattern, 23, 11, 11, &[2], &[13], &mut [0; 80]), Err(1));
    }
}

#[test]
fn the_makers_refusals_in_order() {
    // Each step mends one flaw and leaves all the later ones.
    let steps = [
        (7, 2, 1, 1, 5, 5, 0, 1),
        (1, 2, 1, 1, 5, 5, 0, 5),
        (1, 23, 1, 1, 5, 5, 0, 6),
        (1, 23, 11, 1, 5, 5, 0, 8),
        (1, 23, 11, 12, 5, 5, 0, 8),
        (1, 23, 11, 11, 5, 5, 0, 10),
        (1, 23, 11, 11, 2, 5, 0, 11),
        (1, 23, 11, 11, 2, 13, 27, 22),
    ];
    for (pattern, m, q, k, value, z, length, number) in steps {
        let mut buffer = vec![0xAA; length];
        let answer = make(pattern, m, q, k, &[value], &[z], &mut buffer);
        assert_eq!(answer, Err(number));
        assert_eq!(buffer, vec![0xAA; length]);
    }
    let mut buffer = [0xAA; 28];
    assert_eq!(make(1, 23, 11, 11, &[2], &[13], &mut buffer), Ok(28));
    assert_eq!(buffer[..], page_a());
}

#[test]
fn the_root_patterns_refusals_in_order() {
    let steps = [
        (2, 1, 1, 5, 0, 5),
        (35, 1, 1, 5, 0, 6),
        (35, 5, 6, 5, 0, 8),
        (35, 5, 5, 5, 0, 11),
        (35, 5, 5, 32, 23, 22),
    ];
    for (m, e, k, z, length, number) in steps {
        let mut buffer = vec![0xAA; length];
        assert_eq!(make(6, m, e, k, &[], &[z], &mut buffer), Err(number));
        assert_eq!(buffer, vec![0xAA; length]);
    }
}

#[test]
fn each_public_and_statement_value_is_tested() {
    let good = [2, 3, 4];
    for place in 0..3 {
        let mut values = good;
        values[place] = 5;
        let answer = make(5, 23, 11, 11, &values, &[12, 9], &mut [0; 80]);
        assert_eq!(answer, Err(10));
    }
    for z in [[5, 9], [12, 5], [0, 9], [12, 23]] {
        assert_eq!(make(5, 23, 11, 11, &good, &z, &mut [0; 80]), Err(11));
    }
}
