//! Numbers for a sheet, found by search over the library's own tests.

use super::{largest_of, with_ones};
use dimkhoros::{EXPONENT, Header, Instance, PLACES, ROOT, Refusal};

/// The fewest and the most bits of a modulus for which numbers are proposed.
pub const BITS: [u32; 2] = [4, 32];

/// How many generators are named.
const GENERATORS: usize = 4;

/// Numbers of an exponent sheet: a modulus, a prime order, elements of this order and the largest challenge count.
pub struct Exponent {
    /// m, a prime of the form 2q + 1.
    pub modulus: u32,
    /// q, a prime.
    pub order: u32,
    /// The least generators of the group of order q.
    pub generators: Vec<u32>,
    /// K.
    pub challenges: u32,
}

/// Numbers of a root sheet: a modulus of two primes, a prime exponent and the largest challenge count.
pub struct Root {
    /// The two primes.
    pub primes: [u32; 2],
    /// m, their product.
    pub modulus: u32,
    /// e, a prime that divides neither prime less 1, so that each element has one root.
    pub exponent: u32,
    /// K.
    pub challenges: u32,
}

/// A header with one row and column.
fn header(kind: u32, modulus: u32, order: u32, challenges: u32) -> Header {
    Header { kind, modulus, order, challenges, rows: 1, columns: 1 }
}

/// Whether a number of 2 or more is prime: the library takes it as an order with a challenge count up to it, or up to the most,
/// which is at least its square root.
pub fn is_prime(number: u32) -> bool {
    let taken =
        |challenges| with_ones(header(EXPONENT, 3, number, challenges)) != Err(Refusal::Challenges);
    // A small count is refused soon.
    number == 2 || number > 2 && taken(number.min(64)) && taken(number.min(65_536))
}

/// The largest numbers of an exponent sheet whose modulus has so many bits.
pub fn exponent(bits: u32) -> Option<Exponent> {
    let [least, most] = [1_u64 << (bits - 1), (1_u64 << bits) - 1].map(|number| number as u32);
    let modulus = (least..=most).rev().find(|m| m % 2 == 1 && is_prime(m / 2) && is_prime(*m))?;
    let order = modulus / 2;
    let challenges = largest_of(&header(EXPONENT, modulus, order, 2));
    let sheet = with_ones(header(EXPONENT, modulus, order, 2)).ok()?;
    let generators = (2..modulus).filter(|value| is_element(&sheet, *value));
    Some(Exponent { modulus, order, generators: generators.take(GENERATORS).collect(), challenges })
}

/// Whether a value is an element of a sheet's group.
fn is_element(sheet: &Instance, value: u32) -> bool {
    sheet.with_statement(&[value; PLACES]).is_ok()
}

/// The numbers of a root sheet whose modulus has so many bits: the product of two primes, of which the lesser is the largest one
/// of half the bits.
pub fn root(bits: u32) -> Option<Root> {
    let half = (1_u32 << (bits / 2)) - 1;
    let second = |first: u32| {
        let most = ((1_u64 << bits) - 1) / u64::from(first);
        (first + 1..=most as u32).rev().find(|number| is_prime(*number))
    };
    let mut lesser = (2..=half).rev().filter(|number| is_prime(*number));
    let [first, second] = lesser.find_map(|first| Some([first, second(first)?]))?;
    let modulus = first * second;
    let least = 1_u32 << (bits / 2);
    let divides = |e: u32| (first - 1) % e == 0 || (second - 1) % e == 0;
    let exponent = (least.max(3)..).find(|number| is_prime(*number) && !divides(*number))?;
    let challenges = largest_of(&header(ROOT, modulus, exponent, 2));
    Some(Root { primes: [first, second], modulus, exponent, challenges })
}

#[cfg(test)]
mod tests {
    use super::{BITS, exponent, is_prime, root};

    /// Whether a number is prime, by trying all divisors up to its root.
    fn by_division(number: u32) -> bool {
        let divisors = (2..).take_while(|divisor| u64::pow(*divisor, 2) <= number.into());
        number >= 2 && divisors.into_iter().all(|divisor| u64::from(number) % divisor != 0)
    }

    #[test]
    fn the_library_tells_primes() {
        let large = [65_521, 65_537, 4_294_049_777, 4_294_836_225, 4_294_967_291, u32::MAX];
        for number in (2..3000).chain(large) {
            assert_eq!(is_prime(number), by_division(number), "{number}");
        }
    }

    #[test]
    fn numbers_of_all_sizes_have_their_bits_and_are_primes() {
        for bits in BITS[0]..=BITS[1] {
            let found = exponent(bits).unwrap();
            assert_eq!(found.modulus.ilog2() + 1, bits);
            assert!(by_division(found.modulus) && by_division(found.order), "{bits} bits");
            assert_eq!(found.modulus, 2 * found.order + 1);
            assert_eq!(found.challenges, found.order.min(65_536));
            let found = root(bits).unwrap();
            assert_eq!(found.modulus.ilog2() + 1, bits, "{} of {bits} bits", found.modulus);
            let [first, second] = found.primes;
            assert!(first != second && found.modulus == first * second);
            assert!([first, second, found.exponent].into_iter().all(by_division), "{bits} bits");
            assert_eq!(found.challenges, found.exponent.min(65_536));
        }
    }
}
