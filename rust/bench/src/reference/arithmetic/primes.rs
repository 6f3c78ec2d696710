//! The search for a divisor by the primes from 5 to 65,521, with the library's table.
//! One inverse serves five primes, and one division serves a block of words.

/// How many words the table has, of five primes each.
const COUNT: usize = 1308;

/// How many words are searched with one quotient.
const BLOCK: usize = 16;

/// How many bits half a gap has, and the mask of the lowest.
const GAP_BITS: u32 = 6;
const GAP: u64 = (1 << GAP_BITS) - 1;

/// The primes, rising, five to a word. Each has six bits, the first the lowest: half of
/// how far it is from the prime before it, and the first of all from 3. The high 32 bits
/// have the inverse of the product of the five modulo 2^32.
static WORDS: [u64; COUNT] = words();

/// Whether a prime from 5 on and below challenges divides an order that is at least
/// challenges and that neither 2 nor 3 divides.
pub fn has_prime_divisor(order: u32, challenges: u32) -> bool {
    let mut last = 3;
    for block in WORDS.chunks(BLOCK) {
        let most = order / last;
        for &word in block {
            if challenges <= last || most < last {
                return false;
            }
            let primes = primes_after(last, word);
            if may_divide(order, (word >> 32) as u32, primes, most) {
                if let Some(divisor) = primes.into_iter().find(|p| order % p == 0) {
                    return divisor < challenges;
                }
            }
            last = primes[4];
        }
    }
    false
}

/// The primes of the word after the prime last.
fn primes_after(mut last: u32, word: u64) -> [u32; 5] {
    [0, 1, 2, 3, 4].map(|place| {
        last += 2 * ((word >> (place * GAP_BITS)) & GAP) as u32;
        last
    })
}

/// Whether one of five primes may divide order, by the inverse of their product, if no
/// quotient by them is above most. If p divides order, then order / p is order times the
/// inverse times the other four, modulo 2^32, and what is above most is no quotient.
fn may_divide(order: u32, inverse: u32, [p, q, r, s, t]: [u32; 5], most: u32) -> bool {
    let by_five = order.wrapping_mul(inverse);
    let by_four = by_five.wrapping_mul(t);
    let (front, back) = (p.wrapping_mul(q), r.wrapping_mul(s));
    let (by_front, by_back) = (by_four.wrapping_mul(back), by_four.wrapping_mul(front));
    by_front.wrapping_mul(q) <= most
        || by_front.wrapping_mul(p) <= most
        || by_back.wrapping_mul(s) <= most
        || by_back.wrapping_mul(r) <= most
        || by_five.wrapping_mul(front).wrapping_mul(back) <= most
}

/// The table, which is computed when the program is compiled.
const fn words() -> [u64; COUNT] {
    let composite = composites();
    let mut words = [0; COUNT];
    let (mut last, mut i) = (3, 0);
    while i < COUNT {
        (words[i], last) = word_after(last, &composite);
        i += 1;
    }
    words
}

/// The word of the five primes after the prime last, and the fifth of them.
const fn word_after(mut last: usize, composite: &Composites) -> (u64, usize) {
    let (mut gaps, mut product, mut place) = (0, 1u32, 0);
    while place < 5 {
        let prime = prime_after(last, composite);
        gaps |= ((prime - last) as u64 / 2) << (place * GAP_BITS);
        product = product.wrapping_mul(prime as u32);
        last = prime;
        place += 1;
    }
    (gaps | (inverse(product) as u64) << 32, last)
}

/// The first prime after the odd n.
const fn prime_after(mut n: usize, composite: &Composites) -> usize {
    n += 2;
    while composite[n / 2] {
        n += 2;
    }
    n
}

/// At n / 2, whether the odd n, at least 3, is composite.
type Composites = [bool; 32_768];

/// The odd composites below 65,536.
const fn composites() -> Composites {
    let mut composite = [false; 32_768];
    let mut p = 3;
    while p < 256 {
        let mut n = p * p;
        while n < 65_536 {
            composite[n / 2] = true;
            n += 2 * p;
        }
        p += 2;
    }
    composite
}

/// The inverse of an odd n modulo 2^32. Each step doubles the bits that are right, and
/// n itself has three of them.
const fn inverse(n: u32) -> u32 {
    let mut inverse = n;
    let mut right = 3;
    while right < 32 {
        inverse = inverse.wrapping_mul(2u32.wrapping_sub(n.wrapping_mul(inverse)));
        right *= 2;
    }
    inverse
}
