//! A sheet that loads with its group, and the rounds that are accepted there.

use crate::arithmetic::{least_divisor, multiply, power};
use crate::groups::Group;
use crate::library::{Places, Round};
use crate::random::Random;
use crate::sheets::Sheet;

/// A sheet that loads, its group and, where it is known, its witness.
pub struct Instance {
    pub group: Group,
    pub sheet: Sheet,
    pub witness: Option<Places>,
}

impl Instance {
    /// A sheet of the group with a known witness.
    pub fn known(random: &mut Random, group: Group) -> Instance {
        let (sheet, witness) = Sheet::with_witness(random, &group);
        Instance { group, sheet, witness: Some(witness) }
    }

    /// A sheet of the group. In half of the cases its witness is known.
    pub fn of_group(random: &mut Random, group: Group) -> Instance {
        if random.once_in(2) {
            return Instance::known(random, group);
        }
        Instance { sheet: Sheet::with_any_statement(random, &group), group, witness: None }
    }

    /// The rows s.
    pub fn rows(&self) -> usize {
        self.sheet.header.rows as usize
    }

    /// The columns n.
    pub fn columns(&self) -> usize {
        self.sheet.header.columns as usize
    }

    /// Any n domain slots, with 0 beyond.
    pub fn slots(&self, random: &mut Random) -> Places {
        let mut slots = [0; 8];
        for slot in &mut slots[..self.columns()] {
            *slot = self.group.slot(random);
        }
        slots
    }

    /// Any s group elements, with 0 beyond.
    pub fn elements(&self, random: &mut Random) -> Places {
        let mut elements = [0; 8];
        for element in &mut elements[..self.rows()] {
            *element = self.group.element(random);
        }
        elements
    }

    /// A challenge below K, often the first or the last.
    pub fn challenge(&self, random: &mut Random) -> u32 {
        let last = self.sheet.header.challenges - 1;
        match random.below(5) {
            0 => 0,
            1 => last,
            _ => random.between(0, last),
        }
    }

    /// A challenge below K that is not this one.
    pub fn other_challenge(&self, random: &mut Random, challenge: u32) -> u32 {
        let count = self.sheet.header.challenges;
        let other = random.between(1, count - 1);
        ((u64::from(challenge) + u64::from(other)) % u64::from(count)) as u32
    }

    /// The response to a challenge, slot by slot, with 0 beyond n.
    pub fn response(&self, nonce: &Places, challenge: u32, witness: &Places) -> Places {
        let Group { modulus, order, .. } = self.group;
        let mut response = [0; 8];
        for (j, slot) in response.iter_mut().enumerate().take(self.columns()) {
            *slot = match self.group.kind {
                1 => {
                    let product = u64::from(challenge) * u64::from(witness[j]);
                    ((u64::from(nonce[j]) + product) % u64::from(order)) as u32
                }
                _ => multiply(nonce[j], power(witness[j], challenge, modulus), modulus),
            };
        }
        response
    }

    /// The commitment with which this challenge and response are accepted.
    pub fn simulated(&self, challenge: u32, response: &Places) -> Places {
        let mut commitment = self.sheet.image(response);
        let rows = commitment.iter_mut().zip(&self.sheet.statement);
        for (value, z) in rows.take(self.rows()) {
            let factor = self.group.negative_power(*z, challenge);
            *value = multiply(*value, factor, self.group.modulus);
        }
        commitment
    }

    /// An accepted round, with 0 beyond s and n.
    pub fn accepted(&self, random: &mut Random) -> Round {
        let challenge = self.challenge(random);
        self.accepted_to(random, challenge)
    }

    /// An accepted round with this challenge.
    pub fn accepted_to(&self, random: &mut Random, challenge: u32) -> Round {
        let slots = self.slots(random);
        match &self.witness {
            Some(witness) if random.once_in(2) => Round {
                commitment: self.sheet.image(&slots),
                challenge,
                response: self.response(&slots, challenge, witness),
            },
            _ => {
                Round { commitment: self.simulated(challenge, &slots), challenge, response: slots }
            }
        }
    }

    /// Changes one slot so that the image stays the same, if that is easily
    /// done.
    pub fn shift(&self, random: &mut Random, slots: &mut Places) {
        let Group { modulus, order, .. } = self.group;
        let before = *slots;
        let slot = &mut slots[random.below(self.columns())];
        if self.group.kind == 1 {
            let part = u64::from(order / least_divisor(order));
            *slot = ((u64::from(*slot) + part) % u64::from(order)) as u32;
        } else {
            *slot = multiply(*slot, self.group.root_of_unity(random), modulus);
        }
        if self.sheet.image(slots) != self.sheet.image(&before) {
            *slots = before;
        }
    }
}

#[cfg(test)]
mod tests {
    use super::*;
    use crate::library::Library::Judge;

    fn any(random: &mut Random) -> Instance {
        let group = Group::any(random);
        Instance::of_group(random, group)
    }

    #[test]
    fn accepted_rounds_are_accepted() {
        for seed in 0..3000 {
            let mut random = Random::new(seed);
            let instance = any(&mut random);
            let mut round = instance.accepted(&mut random);
            let sheet = instance.sheet.bytes();
            assert_eq!(Judge.judge(&sheet, &round).accepted, 1);
            instance.shift(&mut random, &mut round.response);
            assert_eq!(Judge.judge(&sheet, &round).accepted, 1);
        }
    }

    #[test]
    fn slots_are_shifted_now_and_then() {
        let mut shifted = [0; 2];
        for seed in 0..3000 {
            let mut random = Random::new(seed);
            let instance = any(&mut random);
            let slots = instance.slots(&mut random);
            let mut other = slots;
            instance.shift(&mut random, &mut other);
            shifted[instance.group.kind as usize - 1] += u32::from(other != slots);
        }
        assert!(shifted.iter().all(|times| *times > 100), "{shifted:?}");
    }

    #[test]
    fn challenges_are_below_the_count() {
        for seed in 0..1000 {
            let mut random = Random::new(seed);
            let instance = any(&mut random);
            let count = instance.sheet.header.challenges;
            let challenge = instance.challenge(&mut random);
            let other = instance.other_challenge(&mut random, challenge);
            assert!(challenge < count && other < count && challenge != other);
        }
    }
}
