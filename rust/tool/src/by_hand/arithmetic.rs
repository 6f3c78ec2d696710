//! Powers, products, Euclid's algorithm and inverses modulo a number, with the steps between.

/// A power modulo a modulus.
#[derive(Clone, Copy, Debug, PartialEq)]
pub struct Power {
    /// The base.
    pub base: u32,
    /// The exponent.
    pub exponent: u32,
    /// What the power leaves modulo the modulus.
    pub rest: u32,
}

/// The most that a class's calculator shows: ten digits.
pub const CALCULATOR: u64 = 9_999_999_999;

impl Power {
    /// The power before it is reduced, where a calculator shows it.
    pub fn whole(&self) -> Option<u64> {
        let whole = match self.base {
            0 | 1 => Some(u64::from(self.base).pow(self.exponent.min(1))),
            base => u64::from(base).checked_pow(self.exponent),
        };
        whole.filter(|whole| *whole <= CALCULATOR)
    }

    /// The powers with the exponents 2, 4, 8 and so on up to this one's, each the square of the one before.
    pub fn squares(&self, modulus: u32) -> Vec<Power> {
        let exponents =
            (1..32).map(|bit| 1 << bit).take_while(|exponent| *exponent <= self.exponent);
        exponents.map(|exponent| power(self.base, exponent, modulus)).collect()
    }
}

/// What a power of a base leaves.
pub fn power(base: u32, exponent: u32, modulus: u32) -> Power {
    let (mut rest, mut square, mut left) = (1 % modulus, base % modulus, exponent);
    while left > 0 {
        if left % 2 == 1 {
            rest = product(rest, square, modulus);
        }
        square = product(square, square, modulus);
        left /= 2;
    }
    Power { base, exponent, rest }
}

/// What a product leaves.
pub fn product(one: u32, other: u32, modulus: u32) -> u32 {
    (u64::from(one) * u64::from(other) % u64::from(modulus)) as u32
}

/// What an integer leaves, from 0 on where it is negative too.
pub fn rest(value: i128, modulus: u32) -> u32 {
    value.rem_euclid(i128::from(modulus)) as u32
}

/// A line of Euclid's algorithm on ℓ and d: its rest is ℓ·a + d·b.
#[derive(Clone, Copy, Debug, PartialEq)]
pub struct Line {
    /// How often the line above is taken from the one above that. It is 0 in the first two lines, which are ℓ and |d|.
    pub quotient: u64,
    /// The rest.
    pub rest: u64,
    /// How often ℓ is in it.
    pub a: i64,
    /// How often d is in it.
    pub b: i64,
}

/// Integers a and b with ℓ·a + d·b = 1, of which b is the one from 0 to ℓ − 1.
#[derive(Clone, Debug, PartialEq)]
pub struct Euclid {
    /// ℓ, the order or the exponent.
    pub order: u32,
    /// d, which may be negative.
    pub difference: i64,
    /// The lines, the last of which has the rest 1.
    pub lines: Vec<Line>,
    /// a.
    pub a: i64,
    /// b.
    pub b: i64,
}

/// Euclid's algorithm on ℓ and d: none where they have a factor in common.
pub fn euclid(order: u32, difference: i64) -> Option<Euclid> {
    let mut above = Line { quotient: 0, rest: order.into(), a: 1, b: 0 };
    let mut line =
        Line { quotient: 0, rest: difference.unsigned_abs(), a: 0, b: difference.signum() };
    let mut lines = vec![above, line];
    while line.rest > 1 {
        let quotient = above.rest / line.rest;
        let times = i64::try_from(quotient).ok()?;
        let next = Line {
            quotient,
            rest: above.rest % line.rest,
            a: above.a.checked_sub(times.checked_mul(line.a)?)?,
            b: above.b.checked_sub(times.checked_mul(line.b)?)?,
        };
        (above, line) = (line, next);
        lines.push(line);
    }
    if line.rest == 0 {
        return None;
    }
    // b ± ℓ with a ∓ d will do as well as a and b.
    let b = line.b.rem_euclid(order.into());
    let a = line.a - (b - line.b) / i64::from(order) * difference;
    Some(Euclid { order, difference, lines, a, b })
}

/// The inverse of a value: none where it has a factor in common with the modulus.
pub fn inverse(value: u32, modulus: u32) -> Option<u32> {
    let euclid = euclid(modulus, i64::from(value % modulus))?;
    u32::try_from(euclid.b).ok()
}
