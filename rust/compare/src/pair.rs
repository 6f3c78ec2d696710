//! Two sheets with one challenge count, and the rounds of the OR proof that are
//! accepted there.

use crate::groups::Group;
use crate::instance::Instance;
use crate::library::{OrRound, Round};
use crate::random::Random;

/// Two sheets that load with one challenge count.
pub struct Pair {
    pub instances: [Instance; 2],
}

impl Pair {
    /// The sheets with one challenge count that both allow.
    pub fn new(random: &mut Random, mut instances: [Instance; 2]) -> Pair {
        let [first, second] = &instances;
        let count = first.group.shared_challenges(random, &second.group);
        for instance in &mut instances {
            instance.sheet.header.challenges = count;
        }
        Pair { instances }
    }

    /// A group to stand beside this one. Up to six are tried for one that allows
    /// three challenges with it.
    pub fn beside(random: &mut Random, group: &Group) -> Group {
        let mut other = Group::any(random);
        for _ in 0..6 {
            if group.most_shared(&other) > 2 {
                break;
            }
            other = Group::any(random);
        }
        other
    }

    /// The challenge count K.
    pub fn count(&self) -> u32 {
        self.instances[0].sheet.header.challenges
    }

    /// (c − d) mod K, for a d below K.
    pub fn left(&self, c: u32, d: u32) -> u32 {
        let count = u64::from(self.count());
        ((u64::from(c) + count - u64::from(d)) % count) as u32
    }

    /// The round of two sides. Its challenge is the sum of theirs, mod K where
    /// both are below it.
    pub fn joined(&self, [first, second]: &[Round; 2]) -> OrRound {
        let (c, d) = (first.challenge, second.challenge);
        let challenge =
            if c.max(d) < self.count() { self.left(c, self.left(0, d)) } else { c.wrapping_add(d) };
        OrRound {
            commitment0: first.commitment,
            commitment1: second.commitment,
            response0: first.response,
            response1: second.response,
            challenge,
            challenge0: c,
        }
    }

    /// Both sides of an accepted round.
    pub fn accepted(&self, random: &mut Random) -> [Round; 2] {
        let [first, second] = &self.instances;
        [first.accepted(random), second.accepted(random)]
    }
}

#[cfg(test)]
mod tests {
    use super::*;
    use crate::library::Library::Judge;

    #[test]
    fn accepted_rounds_are_accepted() {
        let mut below = 0;
        for seed in 0..3000 {
            let mut random = Random::new(seed);
            let first = Group::any(&mut random);
            let second = Pair::beside(&mut random, &first);
            let instances = [first, second].map(|group| Instance::of_group(&mut random, group));
            let pair = Pair::new(&mut random, instances);
            let sides = pair.accepted(&mut random);
            let round = pair.joined(&sides);
            let [first, second] = [0, 1].map(|side| pair.instances[side].sheet.bytes());
            assert_eq!(Judge.or_judge(&first, &second, &round).accepted, 1);
            assert_eq!(pair.left(round.challenge, round.challenge0), sides[1].challenge);
            below += u32::from(round.challenge < round.challenge0);
        }
        assert!(below > 300, "{below}");
    }
}
