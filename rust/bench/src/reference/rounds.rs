//! Judging, simulating and extracting: refusals 14 to 20.

use dimkhoros_sys::{Places, Round};

use super::arithmetic::{Arithmetic, inverse, mul_mod, places};
use super::sheet::{Kind, Sheet, load};

/// What judging a round that is not refused answers.
#[derive(PartialEq, Eq)]
pub enum Verdict {
    Accepted,
    /// The mask of the rows that differ.
    Rejected(u32),
}

/// The verdict on a round.
#[inline(never)]
pub fn judge<A: Arithmetic>(sheet: &[u8], round: &Round) -> Result<Verdict, u32> {
    load::<A>(sheet)?.judge(round)
}

/// The simulated commitment for a challenge and a response.
#[inline(never)]
pub fn simulate<A: Arithmetic>(
    sheet: &[u8],
    challenge: u32,
    response: &Places,
) -> Result<Places, u32> {
    load::<A>(sheet)?.simulate(challenge, response)
}

/// The witness from two accepted rounds with one commitment.
#[inline(never)]
pub fn extract<A: Arithmetic>(sheet: &[u8], first: &Round, second: &Round) -> Result<Places, u32> {
    load::<A>(sheet)?.extract(first, second)
}

impl<A: Arithmetic> Sheet<A> {
    /// The verdict on a round.
    pub fn judge(&self, round: &Round) -> Result<Verdict, u32> {
        if !self.is_commitment(&round.commitment) {
            return Err(14);
        }
        if round.challenge >= self.challenges {
            return Err(15);
        }
        if !self.is_domain(&round.response) {
            return Err(16);
        }
        Ok(self.verdict(round))
    }

    /// The verdict on a round whose values are elements and slots.
    fn verdict(&self, round: &Round) -> Verdict {
        let image = self.image(&round.response);
        let expected = self.expected_image(&round.commitment, round.challenge);
        let differ = (0..self.rows).filter(|&i| image[i] != expected[i]);
        match differ.fold(0, |rows, i| rows | 1 << i) {
            0 => Verdict::Accepted,
            rows => Verdict::Rejected(rows),
        }
    }

    /// What the image of the response has to be.
    pub fn expected_image(&self, commitment: &Places, challenge: u32) -> Places {
        let rows = self.rows;
        A::products(&commitment[..rows], &self.statement[..rows], challenge, self.modulus)
    }

    /// The inverse of each value of the statement modulo m.
    fn inverses(&self) -> Places {
        let values = self.statement[..self.rows].iter();
        places(values.map(|&z| inverse(z, self.modulus)))
    }

    /// The simulated commitment for a challenge and a response.
    fn simulate(&self, challenge: u32, response: &Places) -> Result<Places, u32> {
        if challenge >= self.challenges {
            return Err(15);
        }
        if !self.is_domain(response) {
            return Err(16);
        }
        let (bases, exponent) = match self.kind {
            Kind::Exponent => (self.statement, self.order - challenge),
            Kind::Root => (self.inverses(), challenge),
        };
        let (image, rows) = (self.image(response), self.rows);
        Ok(A::products(&image[..rows], &bases[..rows], exponent, self.modulus))
    }

    /// The number of 14 to 16, 18 and 19 that two rounds are refused with.
    fn test_pair(&self, first: &Round, second: &Round) -> Result<(), u32> {
        if !self.is_commitment(&first.commitment) || !self.is_commitment(&second.commitment) {
            return Err(14);
        }
        if first.challenge >= self.challenges || second.challenge >= self.challenges {
            return Err(15);
        }
        if !self.is_domain(&first.response) || !self.is_domain(&second.response) {
            return Err(16);
        }
        if first.commitment[..self.rows] != second.commitment[..self.rows] {
            return Err(18);
        }
        if first.challenge == second.challenge {
            return Err(19);
        }
        Ok(())
    }

    /// The witness from two accepted rounds with one commitment.
    fn extract(&self, first: &Round, second: &Round) -> Result<Places, u32> {
        self.test_pair(first, second)?;
        if self.verdict(first) != Verdict::Accepted || self.verdict(second) != Verdict::Accepted {
            return Err(20);
        }
        Ok(self.combined(first, second))
    }

    /// The witness from two accepted rounds with one commitment and two challenges.
    pub fn combined(&self, first: &Round, second: &Round) -> Places {
        if first.challenge > second.challenge {
            self.witness(first, second)
        } else {
            self.witness(second, first)
        }
    }

    /// The witness from two rounds, the first with the larger challenge: b (r - s)
    /// mod q, or z^(-a) (r/s)^b mod m, in each slot.
    fn witness(&self, first: &Round, second: &Round) -> Places {
        let (m, q, n) = (self.modulus, self.order, self.columns);
        let delta = first.challenge - second.challenge;
        let b = inverse(delta, q);
        let responses = first.response[..n].iter().zip(&second.response);
        match self.kind {
            Kind::Exponent => places(responses.map(|(&r, &s)| {
                let difference = if r >= s { r - s } else { r + (q - s) };
                mul_mod(b, difference, q)
            })),
            Kind::Root => {
                let a = (u64::from(delta) * u64::from(b) / u64::from(q)) as u32;
                let quotients = places(responses.map(|(&r, &s)| mul_mod(r, inverse(s, m), m)));
                let factors = A::powers(&self.inverses()[..n], a, m);
                A::products(&factors[..n], &quotients[..n], b, m)
            }
        }
    }
}
