//! Arithmetic modulo a 32-bit number: what each version does in its own way, and
//! what both do alike.

mod idiomatic;
mod primes;
mod tuned;

use dimkhoros_sys::Places;

pub use idiomatic::{Idiomatic, pow_mod};
pub use tuned::Tuned;

/// What a version does in its own way. It is given at most eight values, rows and
/// columns and a modulus of at least 2, and bases, factors and entries below it.
pub trait Arithmetic {
    /// Whether some d with 2 ≤ d < challenges divides order, which is at least 2.
    fn has_divisor(order: u32, challenges: u32) -> bool;

    /// Whether each value lies from 1 to m - 1 and its power by order is 1 modulo m.
    fn have_order(values: &[u32], order: u32, m: u32) -> bool;

    /// Whether each value lies from 1 to m - 1 and has no divisor in common with m.
    fn have_inverses(values: &[u32], m: u32) -> bool;

    /// The power of each base by exponent modulo m.
    fn powers(bases: &[u32], exponent: u32, m: u32) -> Places;

    /// Each factor times the power of its base by exponent, modulo m.
    fn products(factors: &[u32], bases: &[u32], exponent: u32, m: u32) -> Places;

    /// For each row, the product over the columns of the power of the entry by
    /// the column's exponent, modulo m.
    fn row_products(rows: &[Places], exponents: &[u32], m: u32) -> Places;
}

/// The values in the first places, and zeros beyond them.
#[inline]
pub fn places(values: impl Iterator<Item = u32>) -> Places {
    let mut places = [0; 8];
    for (place, value) in places.iter_mut().zip(values) {
        *place = value;
    }
    places
}

/// Whether v lies from 1 to m - 1.
fn in_range(v: u32, m: u32) -> bool {
    (1..m).contains(&v)
}

/// The product of a and b modulo m.
pub fn mul_mod(a: u32, b: u32, m: u32) -> u32 {
    (u64::from(a) * u64::from(b) % u64::from(m)) as u32
}

/// The greatest common divisor of a and b, by Euclid's algorithm.
fn gcd(mut a: u32, mut b: u32) -> u32 {
    while b > 0 {
        (a, b) = (b, a % b);
    }
    a
}

/// The inverse of v modulo m, for a v that has no divisor in common with m, by
/// Euclid's algorithm.
pub fn inverse(v: u32, m: u32) -> u32 {
    let (mut x, mut y) = (m, v);
    let (mut s, mut t) = (0i64, 1i64);
    while y > 0 {
        let quotient = x / y;
        (x, y) = (y, x % y);
        (s, t) = (t, s - i64::from(quotient) * t);
    }
    s.rem_euclid(i64::from(m)) as u32
}
