//! Which moduli and orders the groups have.

use crate::arithmetic::{next_prime, prime_factors, totient};
use crate::random::Random;

/// Moduli that are prime, composite, a square, a power of 2, or as large or as
/// small as can be.
const MODULI: [u32; 16] = [
    3,
    4,
    5,
    9,
    23,
    31,
    35,
    0x1_0000,
    0x4000_0000,
    0x8000_0000,
    4_293_001_441,
    4_294_049_777,
    4_294_967_087,
    4_294_967_291,
    0xffff_fffe,
    0xffff_ffff,
];

/// Orders that are prime, composite without small divisors, or large.
const ORDERS: [u32; 12] = [
    2,
    3,
    11,
    15,
    221,
    65_537,
    65_539,
    0x8000_0000,
    4_293_001_441,
    4_294_967_279,
    4_294_967_291,
    0xffff_ffff,
];

/// Primes m for which (m − 1)/2 is a prime too.
pub const SAFE_PRIMES: [u32; 3] = [4_294_967_087, 4_294_965_887, 4_294_963_787];

/// A modulus, often a small one.
pub fn modulus(random: &mut Random) -> u32 {
    match random.below(10) {
        0 => random.pick(&MODULI),
        1..=4 => random.between(3, 60),
        5..=6 => random.between(61, 70_000),
        7 => u32::MAX - random.between(0, 1000),
        _ => random.between(3, u32::MAX),
    }
}

/// An order, mostly one that the group of this modulus has in kind 1.
pub fn order(random: &mut Random, kind: u32, modulus: u32) -> u32 {
    match random.below(10) {
        0 => random.pick(&ORDERS),
        1 => random.between(2, 400),
        2 => random.between(2, u32::MAX),
        3 => product(random),
        4 => {
            let part = divisor(random, totient(modulus));
            part * random.between(1, u32::MAX / part)
        }
        _ if kind == 2 => {
            let any = random.between(2, u32::MAX);
            divisor(random, any)
        }
        _ => divisor(random, totient(modulus)),
    }
}

/// A product of two primes, often of equal or neighbouring ones, so that its
/// least divisor is at its square root.
pub fn product(random: &mut Random) -> u32 {
    let least = prime(random);
    match random.below(6) {
        0 => random.pick(&[25, 35, 49]),
        1 | 2 => least * least,
        3 | 4 => least * next_prime(least),
        _ => least * next_prime(random.between(least, 65_536) - 1),
    }
}

/// A prime below 65,536, often one of the first.
fn prime(random: &mut Random) -> u32 {
    match random.below(6) {
        0..=3 => random.pick(&[2, 3, 5, 7, 11, 13]),
        4 => next_prime(random.between(1, 1000)),
        _ => next_prime(random.between(1, 65_520)),
    }
}

/// A divisor of n that is not 1, or 2 where there is none.
fn divisor(random: &mut Random, n: u32) -> u32 {
    let factors = prime_factors(n);
    match random.below(3) {
        0 => factors.iter().filter(|_| random.once_in(2)).product::<u32>().max(2),
        1 => factors.last().copied().unwrap_or(2),
        _ => factors.iter().rev().take(2).product::<u32>().max(2),
    }
}
