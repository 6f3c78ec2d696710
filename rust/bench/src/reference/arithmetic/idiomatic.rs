//! The idiomatic version: each value by itself, and a division for each product
//! and for each d.

use dimkhoros_sys::Places;

use super::{Arithmetic, gcd, in_range, mul_mod, places};

/// Idiomatic Rust.
pub struct Idiomatic;

/// The power of base by exponent modulo m, by squaring and multiplying.
pub fn pow_mod(base: u32, mut exponent: u32, m: u32) -> u32 {
    let mut square = base % m;
    let mut power = 1;
    while exponent > 0 {
        if exponent & 1 == 1 {
            power = mul_mod(power, square, m);
        }
        square = mul_mod(square, square, m);
        exponent >>= 1;
    }
    power
}

impl Arithmetic for Idiomatic {
    fn has_divisor(order: u32, challenges: u32) -> bool {
        (2..challenges).any(|d| order % d == 0)
    }

    fn have_order(values: &[u32], order: u32, m: u32) -> bool {
        values.iter().all(|&v| in_range(v, m) && pow_mod(v, order, m) == 1)
    }

    fn have_inverses(values: &[u32], m: u32) -> bool {
        values.iter().all(|&v| in_range(v, m) && gcd(v, m) == 1)
    }

    #[inline]
    fn powers(bases: &[u32], exponent: u32, m: u32) -> Places {
        places(bases.iter().map(|&base| pow_mod(base, exponent, m)))
    }

    #[inline]
    fn products(factors: &[u32], bases: &[u32], exponent: u32, m: u32) -> Places {
        let pairs = factors.iter().zip(bases);
        places(pairs.map(|(&factor, &base)| mul_mod(factor, pow_mod(base, exponent, m), m)))
    }

    #[inline]
    fn row_products(rows: &[Places], exponents: &[u32], m: u32) -> Places {
        places(rows.iter().map(|row| {
            row.iter()
                .zip(exponents)
                .fold(1, |product, (&entry, &x)| mul_mod(product, pow_mod(entry, x, m), m))
        }))
    }
}
