//! Numbers modulo m, divisors and prime factors, for the making of sheets.

use std::sync::OnceLock;

/// The product a · b mod m.
pub fn multiply(a: u32, b: u32, m: u32) -> u32 {
    (u64::from(a) * u64::from(b) % u64::from(m)) as u32
}

/// The power base^exponent mod m, for an m of at least 2.
pub fn power(base: u32, exponent: u32, m: u32) -> u32 {
    let (mut result, mut square, mut left) = (1, base % m, exponent);
    while left > 0 {
        if left & 1 == 1 {
            result = multiply(result, square, m);
        }
        square = multiply(square, square, m);
        left >>= 1;
    }
    result
}

/// The greatest common divisor.
pub fn gcd(a: u32, b: u32) -> u32 {
    if b == 0 { a } else { gcd(b, a % b) }
}

/// The primes below 65,536. Every composite 32-bit number has one of them.
fn primes() -> &'static [u32] {
    static PRIMES: OnceLock<Vec<u32>> = OnceLock::new();
    PRIMES.get_or_init(|| {
        let mut composite = vec![false; 65_536];
        let mut primes = Vec::new();
        for candidate in 2..composite.len() {
            if !composite[candidate] {
                primes.push(candidate as u32);
                for multiple in (2 * candidate..composite.len()).step_by(candidate) {
                    composite[multiple] = true;
                }
            }
        }
        primes
    })
}

/// The least divisor above 1 of an n of at least 2, which is a prime.
pub fn least_divisor(n: u32) -> u32 {
    let candidates = primes().iter().take_while(|prime| *prime * *prime <= n);
    let mut divisors = candidates.filter(|prime| n % **prime == 0);
    divisors.next().copied().unwrap_or(n)
}

/// The least prime above an n of at most 65,536.
pub fn next_prime(n: u32) -> u32 {
    let mut above = n + 1..=65_537;
    above.find(|candidate| least_divisor(*candidate) == *candidate).unwrap_or(65_537)
}

/// The prime factors of an n of at least 1, each as often as it divides n.
pub fn prime_factors(n: u32) -> Vec<u32> {
    let mut factors = Vec::new();
    let mut left = n;
    while left > 1 {
        let divisor = least_divisor(left);
        factors.push(divisor);
        left /= divisor;
    }
    factors
}

/// How many numbers from 1 to m have no common divisor with m.
pub fn totient(m: u32) -> u32 {
    let mut factors = prime_factors(m);
    factors.dedup();
    factors.iter().fold(m, |count, prime| count / prime * (prime - 1))
}

/// The inverse of v mod m, for an m of at least 2 and a v with gcd(v, m) = 1.
pub fn inverse(v: u32, m: u32) -> u32 {
    power(v, totient(m) - 1, m)
}

#[cfg(test)]
mod tests {
    use super::*;

    #[test]
    fn least_divisors_and_totients_of_small_numbers() {
        for n in 2_u32..3000 {
            let least = (2..=n).find(|d| n % *d == 0);
            assert_eq!(Some(least_divisor(n)), least);
            let coprime = (1..=n).filter(|v| gcd(*v, n) == 1).count();
            assert_eq!(totient(n) as usize, coprime);
        }
    }

    #[test]
    fn least_divisors_of_wide_numbers() {
        for (n, least) in [
            (u32::MAX, 3),
            (4_294_967_291, 4_294_967_291),
            (65_521 * 65_521, 65_521),
            (65_521 * 65_537, 65_521),
            (65_519 * 65_521, 65_519),
        ] {
            assert_eq!(least_divisor(n), least);
        }
        assert_eq!(prime_factors(u32::MAX), [3, 5, 17, 257, 65_537]);
    }

    #[test]
    fn next_primes() {
        let first: Vec<u32> = (1..14).map(next_prime).collect();
        assert_eq!(first, [2, 3, 5, 5, 7, 7, 11, 11, 11, 11, 13, 13, 17]);
        assert_eq!((65_520..=65_521).map(next_prime).collect::<Vec<_>>(), [65_521, 65_537]);
        assert_eq!(next_prime(65_536), 65_537);
    }

    #[test]
    fn inverses_of_small_numbers() {
        for m in 2..200 {
            for v in (1..m).filter(|v| gcd(*v, m) == 1) {
                assert_eq!(multiply(v, inverse(v, m), m), 1);
            }
        }
    }

    #[test]
    fn powers_of_wide_numbers() {
        assert_eq!(power(2, 32, 4_294_967_291), 5);
        assert_eq!(power(u32::MAX - 1, u32::MAX, u32::MAX), u32::MAX - 1);
    }
}
