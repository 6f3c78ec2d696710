//! Numbers modulo m.
//!
//! Every modulus handed to these functions is at least 2: it is m or ℓ of a
//! sheet whose tests 5 and 6 have passed.

/// The product a · b mod m.
pub(crate) fn multiply(a: u32, b: u32, m: u32) -> u32 {
    (u128::from(a) * u128::from(b) % u128::from(m)) as u32
}

/// The power base^exponent mod m, by squaring and multiplying.
pub(crate) fn power(base: u32, exponent: u128, m: u32) -> u32 {
    let mut result = 1;
    let mut square = base % m;
    let mut left = exponent;
    while left > 0 {
        if left % 2 == 1 {
            result = multiply(result, square, m);
        }
        square = multiply(square, square, m);
        left /= 2;
    }
    result
}

/// Numbers (g, x, y) with g = gcd(a, b) and a · x + b · y = g.
///
/// Both inputs may be negative. They are below 2^33 in size, so no step
/// leaves the range of an `i128`.
pub(crate) fn euclid(a: i128, b: i128) -> (i128, i128, i128) {
    let (mut g, mut x, mut y) = (a, 1, 0);
    let (mut next_g, mut next_x, mut next_y) = (b, 0, 1);
    while next_g != 0 {
        let times = g / next_g;
        (g, next_g) = (next_g, g - times * next_g);
        (x, next_x) = (next_x, x - times * next_x);
        (y, next_y) = (next_y, y - times * next_y);
    }
    if g < 0 { (-g, -x, -y) } else { (g, x, y) }
}

/// The greatest common divisor of v and m.
pub(crate) fn gcd(v: u32, m: u32) -> u32 {
    euclid(i128::from(v), i128::from(m)).0 as u32
}

/// The number from 0 to m − 1 that is congruent to v mod m.
pub(crate) fn reduce(v: i128, m: u32) -> u32 {
    v.rem_euclid(i128::from(m)) as u32
}

/// The inverse of v mod m, for a v with gcd(v, m) = 1.
pub(crate) fn inverse(v: u32, m: u32) -> u32 {
    reduce(euclid(i128::from(v), i128::from(m)).1, m)
}

/// The power v^exponent mod m, for a v with gcd(v, m) = 1.
///
/// A negative exponent takes the inverse of v.
pub(crate) fn signed_power(v: u32, exponent: i128, m: u32) -> u32 {
    let base = if exponent < 0 { inverse(v, m) } else { v };
    power(base, exponent.unsigned_abs(), m)
}

#[cfg(test)]
mod tests {
    use super::*;

    #[test]
    fn powers_are_repeated_products() {
        for m in 2..40 {
            for base in 0..45 {
                let mut product = 1 % m;
                for exponent in 0..30 {
                    assert_eq!(power(base, exponent, m), product);
                    product = product * base % m;
                }
            }
        }
    }

    #[test]
    fn products_and_powers_of_wide_numbers() {
        let m = u32::MAX;
        assert_eq!(multiply(m - 1, m - 1, m), 1);
        assert_eq!(power(m - 1, u128::from(u32::MAX), m), m - 1);
        // 2^32 − 5 is prime.
        let p = 4_294_967_291;
        assert_eq!(power(2, u128::from(p - 1), p), 1);
        assert_eq!(power(2, 32, p), 5);
    }

    #[test]
    fn euclid_gives_the_greatest_divisor_and_its_factors() {
        for a in -30_i128..=30 {
            for b in -30_i128..=30 {
                let (g, x, y) = euclid(a, b);
                assert_eq!(a * x + b * y, g);
                let greatest = (1..=30).filter(|d| a % d == 0 && b % d == 0).max().unwrap_or(0);
                let both_zero = a == 0 && b == 0;
                assert_eq!(g, if both_zero { 0 } else { greatest });
            }
        }
    }

    #[test]
    fn inverses_and_negative_powers() {
        for m in 2..60 {
            for v in (1..m).filter(|v| gcd(*v, m) == 1) {
                assert_eq!(multiply(v, inverse(v, m), m), 1);
                for exponent in 0_i128..12 {
                    let up = signed_power(v, exponent, m);
                    let down = signed_power(v, -exponent, m);
                    assert_eq!(multiply(up, down, m), 1);
                }
            }
        }
        let m = u32::MAX;
        let wide = i128::from(u32::MAX);
        assert_eq!(multiply(signed_power(2, wide, m), signed_power(2, -wide, m), m), 1);
    }

    #[test]
    fn reduction_of_negative_numbers() {
        assert_eq!(reduce(-1, 11), 10);
        assert_eq!(reduce(-22, 11), 0);
        assert_eq!(reduce(25, 11), 3);
    }
}
