//! The tuned version: products by a reciprocal, powers side by side in four
//! lanes, squarings that all columns share, and divisors by a table of primes. A
//! value or a row that is alone, or one of few with a small modulus, is computed as
//! in the idiomatic version, which is quicker for it; what computes several is not
//! inlined, so that this one can be.

use std::array::from_fn;

use dimkhoros_sys::Places;

use super::primes::has_prime_divisor;
use super::{Arithmetic, Idiomatic, gcd, in_range, places};

/// Tuned Rust.
pub struct Tuned;

/// Up to so many challenges, and with an order below the square of it, the library
/// does not search by primes.
const FEW: u32 = 4096;

/// Four values that are computed side by side.
type Lanes = [u32; 4];

/// A modulus with its reciprocal, (2^64 - 1) / m.
struct Modulus {
    m: u64,
    reciprocal: u64,
}

impl Modulus {
    fn new(m: u32) -> Modulus {
        let m = u64::from(m);
        Modulus { m, reciprocal: u64::MAX / m }
    }

    /// The product of a and b. The quotient by the reciprocal is right or one too
    /// small.
    fn mul(&self, a: u32, b: u32) -> u32 {
        let product = u64::from(a) * u64::from(b);
        let quotient = (u128::from(product) * u128::from(self.reciprocal)) >> 64;
        let rest = product - quotient as u64 * self.m;
        (if rest >= self.m { rest - self.m } else { rest }) as u32
    }

    /// The products of the lanes of a and b.
    fn mul_lanes(&self, a: Lanes, b: Lanes) -> Lanes {
        from_fn(|lane| self.mul(a[lane], b[lane]))
    }

    /// The power of each lane by exponent, the exponent's low bit first.
    fn pow_lanes(&self, bases: Lanes, mut exponent: u32) -> Lanes {
        let mut squares = bases;
        let mut powers = [1; 4];
        while exponent > 0 {
            if exponent & 1 == 1 {
                powers = self.mul_lanes(powers, squares);
            }
            squares = self.mul_lanes(squares, squares);
            exponent >>= 1;
        }
        powers
    }

    /// The power of each lane of two fours by exponent, two of its bits a turn, the
    /// highest first. The fours take their turns side by side, since the products of
    /// one wait for one another.
    fn pow_two(&self, bases: [Lanes; 2], exponent: u32) -> [Lanes; 2] {
        let tables = bases.map(|base| {
            let first = self.mul_lanes([1; 4], base);
            let second = self.mul_lanes(first, first);
            [[1; 4], first, second, self.mul_lanes(second, first)]
        });
        let digit = |k: u32| (exponent >> (2 * k)) as usize % 4;
        let top = (exponent | 1).ilog2() / 2;
        let mut powers = tables.map(|table| table[digit(top)]);
        for k in (0..top).rev() {
            powers = powers.map(|power| self.mul_lanes(power, power));
            powers = powers.map(|power| self.mul_lanes(power, power));
            powers = from_fn(|four| self.mul_lanes(powers[four], tables[four][digit(k)]));
        }
        powers
    }

    /// The power of each base by exponent.
    #[inline(never)]
    fn powers(&self, bases: &[u32], exponent: u32) -> Places {
        let (low, high) = bases.split_at(bases.len().min(4));
        let [low, high] = [low, high].map(|four| lanes(four.iter().copied()));
        let [low, high] = if bases.len() > 4 {
            self.pow_two([low, high], exponent)
        } else {
            [self.pow_lanes(low, exponent), [0; 4]]
        };
        places(low.into_iter().chain(high).take(bases.len()))
    }

    /// Each factor times the power of its base by exponent.
    #[inline(never)]
    fn products(&self, factors: &[u32], bases: &[u32], exponent: u32) -> Places {
        let pairs = factors.iter().zip(self.powers(bases, exponent));
        places(pairs.map(|(&factor, power)| self.mul(factor, power)))
    }

    /// The products of each choice of four columns: bit l of a place takes column l.
    fn choices(&self, columns: &[Lanes]) -> [Lanes; 16] {
        let pairs = |x, y| [[1; 4], x, y, self.mul_lanes(x, y)];
        let (low, high) = (pairs(columns[0], columns[1]), pairs(columns[2], columns[3]));
        from_fn(|place| {
            if place < 4 { low[place] } else { self.mul_lanes(low[place % 4], high[place / 4]) }
        })
    }

    /// The products over eight columns, by the bits of their exponents from the
    /// highest of `bits` on, with two products a bit whichever are set.
    fn by_choices(&self, columns: &[Lanes; 8], exponents: Places, bits: u32) -> Lanes {
        let tables = [self.choices(&columns[..4]), self.choices(&columns[4..])];
        let mut products = [1; 4];
        for bit in (0..bits).rev() {
            let place = |four: &[u32]| four.iter().rev().fold(0, |all, x| 2 * all + (x >> bit) % 2);
            let [low, high] = [place(&exponents[..4]), place(&exponents[4..])];
            products = self.mul_lanes(products, products);
            products = self.mul_lanes(products, tables[0][low as usize % 16]);
            products = self.mul_lanes(products, tables[1][high as usize % 16]);
        }
        products
    }

    /// For at most four rows, the product over the columns of the power of the
    /// entry by the column's exponent. The squarings serve all columns at once, the
    /// exponents' high bits first. More than four columns are taken by tables.
    fn four_products(&self, rows: &[Places], exponents: &[u32]) -> Lanes {
        let columns: [Lanes; 8] = from_fn(|j| lanes(rows.iter().map(|row| row[j])));
        let bits = u32::BITS - exponents.iter().fold(0, |all, x| all | x).leading_zeros();
        if exponents.len() > 4 {
            return self.by_choices(&columns, places(exponents.iter().copied()), bits);
        }
        let mut products = [1; 4];
        for bit in (0..bits).rev() {
            products = self.mul_lanes(products, products);
            for (&entries, x) in columns.iter().zip(exponents) {
                if (x >> bit) & 1 == 1 {
                    products = self.mul_lanes(products, entries);
                }
            }
        }
        products
    }

    /// For each row, the product over the columns of the power of the entry by the
    /// column's exponent.
    #[inline(never)]
    fn row_products(&self, rows: &[Places], exponents: &[u32]) -> Places {
        let mut products = [0; 8];
        for (products, rows) in products.chunks_mut(4).zip(rows.chunks(4)) {
            let four = self.four_products(rows, exponents);
            products[..rows.len()].copy_from_slice(&four[..rows.len()]);
        }
        products
    }
}

/// Whether n values modulo m are quicker side by side. Four are; two or three are
/// where products pass 32 bits, so that dividing takes long.
fn side_by_side(n: usize, m: u32) -> bool {
    n > 3 || n > 1 && m > 65_535
}

/// The values in the first lanes, and ones beyond them.
fn lanes(values: impl Iterator<Item = u32>) -> Lanes {
    let mut lanes = [1; 4];
    for (lane, value) in lanes.iter_mut().zip(values) {
        *lane = value;
    }
    lanes
}

impl Arithmetic for Tuned {
    /// Many challenges are searched by primes. Else only 2, 3 and the d between their
    /// multiples are tried, up to the square root of order; above it only order itself
    /// can be the first divisor.
    fn has_divisor(order: u32, challenges: u32) -> bool {
        if challenges > FEW && order >= FEW * FEW {
            return order % 2 == 0 || order % 3 == 0 || has_prime_divisor(order, challenges);
        }
        let end = challenges.min(order.isqrt() + 1);
        let divides = |d: u32| d < end && order % d == 0;
        order < challenges
            || divides(2)
            || divides(3)
            || (5..end).step_by(6).any(|d| divides(d) || divides(d + 2))
    }

    fn have_order(values: &[u32], order: u32, m: u32) -> bool {
        if !side_by_side(values.len(), m) {
            return Idiomatic::have_order(values, order, m);
        }
        values.iter().all(|&v| in_range(v, m)) && {
            let powers = Modulus::new(m).powers(values, order);
            powers[..values.len()].iter().all(|&power| power == 1)
        }
    }

    /// A product has no divisor in common with m where no factor has.
    fn have_inverses(values: &[u32], m: u32) -> bool {
        if !side_by_side(values.len(), m) {
            return Idiomatic::have_inverses(values, m);
        }
        values.iter().all(|&v| in_range(v, m)) && {
            let modulus = Modulus::new(m);
            let product = values.iter().fold(1, |product, &v| modulus.mul(product, v));
            gcd(product, m) == 1
        }
    }

    #[inline]
    fn powers(bases: &[u32], exponent: u32, m: u32) -> Places {
        if !side_by_side(bases.len(), m) {
            return Idiomatic::powers(bases, exponent, m);
        }
        Modulus::new(m).powers(bases, exponent)
    }

    #[inline]
    fn products(factors: &[u32], bases: &[u32], exponent: u32, m: u32) -> Places {
        if !side_by_side(bases.len(), m) {
            return Idiomatic::products(factors, bases, exponent, m);
        }
        Modulus::new(m).products(factors, bases, exponent)
    }

    #[inline]
    fn row_products(rows: &[Places], exponents: &[u32], m: u32) -> Places {
        if !side_by_side(rows.len(), m) {
            return Idiomatic::row_products(rows, exponents, m);
        }
        Modulus::new(m).row_products(rows, exponents)
    }
}
