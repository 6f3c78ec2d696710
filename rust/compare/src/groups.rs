//! The kind, modulus and order of a sheet, and what is a group element there.

mod choosing;

use crate::arithmetic::{gcd, least_divisor, power, totient};
use crate::random::Random;

/// The largest challenge count that 01 allows.
const MOST_CHALLENGES: u32 = 65_536;

/// The first three numbers of a sheet, with m ≥ 3 and ℓ ≥ 2.
pub struct Group {
    pub kind: u32,
    pub modulus: u32,
    pub order: u32,
    totient: u32,
}

impl Group {
    /// The group of these numbers.
    pub fn new(kind: u32, modulus: u32, order: u32) -> Group {
        Group { kind, modulus, order, totient: totient(modulus) }
    }

    /// Any group of either kind.
    pub fn any(random: &mut Random) -> Group {
        let kind = random.between(1, 2);
        Group::of_kind(random, kind)
    }

    /// Any group of this kind.
    pub fn of_kind(random: &mut Random, kind: u32) -> Group {
        if random.once_in(20) {
            return Group::wide(random, kind);
        }
        let modulus = choosing::modulus(random);
        let order = choosing::order(random, kind, modulus);
        Group::new(kind, modulus, order)
    }

    /// A group whose order has no divisor up to 65,536, so that every challenge
    /// count is allowed.
    pub fn wide(random: &mut Random, kind: u32) -> Group {
        let modulus = random.pick(&choosing::SAFE_PRIMES);
        Group::new(kind, modulus, (modulus - 1) / 2)
    }

    /// A group whose order is a product of two primes, so that the challenge
    /// counts that it allows end at the least.
    pub fn divided(random: &mut Random, kind: u32) -> Group {
        let modulus = choosing::modulus(random);
        Group::new(kind, modulus, choosing::product(random))
    }

    /// Whether v is a group element.
    pub fn is_element(&self, v: u32) -> bool {
        let in_range = 1 <= v && v < self.modulus;
        in_range
            && match self.kind {
                1 => power(v, self.order, self.modulus) == 1,
                _ => gcd(v, self.modulus) == 1,
            }
    }

    /// A number below m that has no divisor with m in common.
    fn unit(&self, random: &mut Random) -> u32 {
        loop {
            let v = random.between(1, self.modulus - 1);
            if gcd(v, self.modulus) == 1 {
                return v;
            }
        }
    }

    /// A group element.
    pub fn element(&self, random: &mut Random) -> u32 {
        match self.kind {
            1 => self.root_of_unity(random),
            _ => self.unit(random),
        }
    }

    /// The power of v whose order divides ℓ.
    fn power_in_order(&self, v: u32) -> u32 {
        let exponent = self.totient / gcd(self.totient, self.order);
        power(v, exponent, self.modulus)
    }

    /// A domain slot, now and then one of the first two or the last of kind 1.
    pub fn slot(&self, random: &mut Random) -> u32 {
        match (self.kind, random.below(10)) {
            (1, 0) => 0,
            (1, 1) => self.order - 1,
            (1, 2) => 1,
            (1, _) => random.between(0, self.order - 1),
            _ => self.element(random),
        }
    }

    /// A number that is no domain slot, often one that is congruent to a slot.
    pub fn no_slot(&self, random: &mut Random) -> u32 {
        if self.kind == 2 {
            return self.other(random);
        }
        match random.below(6) {
            0 | 1 => self.order,
            2 | 3 => self.order.saturating_add(self.slot(random)),
            4 => u32::MAX,
            _ => random.between(self.order, u32::MAX),
        }
    }

    /// The power v^(−exponent), for a group element v.
    pub fn negative_power(&self, v: u32, exponent: u32) -> u32 {
        power(v, self.totient - exponent % self.totient, self.modulus)
    }

    /// An element whose power to ℓ is 1.
    pub fn root_of_unity(&self, random: &mut Random) -> u32 {
        self.power_in_order(self.unit(random))
    }

    /// A number that is no group element.
    pub fn other(&self, random: &mut Random) -> u32 {
        let element = self.element(random);
        for _ in 0..8 {
            let v = match random.below(8) {
                0 => 0,
                1 => self.modulus,
                2 => self.modulus.saturating_add(element),
                3 => self.with_divisor(random),
                4 => self.modulus - 1,
                5 => random.word(),
                _ => random.between(1, self.modulus - 1),
            };
            if !self.is_element(v) {
                return v;
            }
        }
        0
    }

    /// A number that has a divisor with m in common.
    fn with_divisor(&self, random: &mut Random) -> u32 {
        let divisor = least_divisor(self.modulus);
        divisor * random.between(1, self.modulus / divisor)
    }

    /// The largest challenge count, which is at most ℓ's least divisor.
    fn most_challenges(&self) -> u32 {
        least_divisor(self.order).min(MOST_CHALLENGES)
    }

    /// A challenge count.
    pub fn challenges(&self, random: &mut Random) -> u32 {
        count_up_to(random, self.most_challenges())
    }

    /// A challenge count that another group allows too.
    pub fn shared_challenges(&self, random: &mut Random, other: &Group) -> u32 {
        count_up_to(random, self.most_shared(other))
    }

    /// The largest challenge count that another group allows too.
    pub fn most_shared(&self, other: &Group) -> u32 {
        self.most_challenges().min(other.most_challenges())
    }

    /// A challenge count that is not this one, where there is one.
    pub fn other_challenges(&self, random: &mut Random, count: u32) -> Option<u32> {
        let most = self.most_challenges();
        let other = match random.below(4) {
            0 | 1 => count + 1,
            2 => count - 1,
            _ => count_up_to(random, most),
        };
        let allowed = |other: &u32| (2..=most).contains(other) && *other != count;
        [other, count + 1, 2].into_iter().find(allowed)
    }

    /// A challenge count that is refused.
    pub fn wrong_challenges(&self, random: &mut Random) -> u32 {
        let most = self.most_challenges();
        match random.below(6) {
            0 => random.between(0, 1),
            1..=3 => most + 1,
            4 => random.between(most + 1, u32::MAX),
            _ => random.pick(&[MOST_CHALLENGES + 1, 0x0001_0002, 0x8000_0000, u32::MAX]),
        }
    }
}

/// A challenge count up to this one. A large one is rare, because it takes long to
/// test.
fn count_up_to(random: &mut Random, most: u32) -> u32 {
    let usual = if most > 1000 && !random.once_in(12) { 100 } else { most };
    match random.below(3) {
        0 => 2,
        1 => usual,
        _ => random.between(2, usual),
    }
}

#[cfg(test)]
mod tests {
    use super::*;
    use crate::arithmetic::multiply;

    #[test]
    fn elements_are_elements_and_others_are_not() {
        for seed in 0..3000 {
            let mut random = Random::new(seed);
            let group = Group::any(&mut random);
            assert!(group.modulus >= 3 && group.order >= 2);
            let element = group.element(&mut random);
            let other = group.other(&mut random);
            assert!(group.is_element(element));
            assert!(!group.is_element(other));
        }
    }

    #[test]
    fn slots_are_slots_and_others_are_not() {
        for seed in 0..3000 {
            let mut random = Random::new(seed);
            let group = Group::any(&mut random);
            let is_slot = |v: u32| match group.kind {
                1 => v < group.order,
                _ => group.is_element(v),
            };
            let slot = group.slot(&mut random);
            let other = group.no_slot(&mut random);
            assert!(is_slot(slot));
            assert!(!is_slot(other));
        }
    }

    #[test]
    fn negative_powers_and_roots_of_unity() {
        for seed in 0..3000 {
            let mut random = Random::new(seed);
            let group = Group::any(&mut random);
            let (v, exponent) = (group.element(&mut random), random.word());
            let (up, down) = (power(v, exponent, group.modulus), group.negative_power(v, exponent));
            assert_eq!(multiply(up, down, group.modulus), 1);
            let root = group.root_of_unity(&mut random);
            assert_eq!(power(root, group.order, group.modulus), 1);
        }
    }

    #[test]
    fn challenge_counts_are_those_of_the_order() {
        let allowed = |group: &Group, count: u32| {
            (2..=MOST_CHALLENGES).contains(&count) && (2..count).all(|d| group.order % d != 0)
        };
        for seed in 0..1000 {
            let mut random = Random::new(seed);
            let group = Group::any(&mut random);
            let count = group.challenges(&mut random);
            let wrong = group.wrong_challenges(&mut random);
            assert!(allowed(&group, count));
            assert!(!allowed(&group, wrong));
        }
    }
}
