//! Peggy's session: new, commit, respond, save, return.

use dimkhoros_sys::{MOST_ANSWERED, Memory, Places, Saved};

use super::arithmetic::{Arithmetic, places};
use super::sheet::{Kind, Sheet, load};

/// Peggy's states, by the numbers that they are saved as.
#[derive(Clone, Copy, PartialEq, Eq)]
pub enum Phase {
    New,
    Committed,
    Answered,
    Dropped,
}

impl From<u32> for Phase {
    /// The state of a number. Any other number is taken as Dropped.
    fn from(number: u32) -> Phase {
        match number {
            0 => Phase::New,
            1 => Phase::Committed,
            2 => Phase::Answered,
            _ => Phase::Dropped,
        }
    }
}

/// Peggy's session. A refused call leaves it as it is.
#[derive(Clone, Copy, PartialEq, Eq)]
pub struct Prover {
    pub phase: Phase,
    pub nonce: Places,
    pub commitment: Places,
    pub memory: Memory,
}

impl Prover {
    /// A new session: New, with zeros, and with nothing saved or listed.
    #[inline(never)]
    pub fn new() -> Prover {
        Prover { phase: Phase::New, nonce: [0; 8], commitment: [0; 8], memory: Memory::default() }
    }

    /// Commits to a nonce and answers the commitment.
    #[inline(never)]
    pub fn commit<A: Arithmetic>(&mut self, sheet: &[u8], nonce: &Places) -> Result<Places, u32> {
        let sheet = load::<A>(sheet)?;
        if !sheet.is_domain(nonce) {
            return Err(16);
        }
        if self.phase != Phase::New {
            return Err(21);
        }
        let commitment = sheet.image(nonce);
        self.phase = Phase::Committed;
        self.nonce = [0; 8];
        self.nonce[..sheet.columns].copy_from_slice(&nonce[..sheet.columns]);
        self.commitment = commitment;
        Ok(commitment)
    }

    /// Responds to a challenge with a witness and answers the response.
    #[inline(never)]
    pub fn respond<A: Arithmetic>(
        &mut self,
        sheet: &[u8],
        challenge: u32,
        witness: &Places,
    ) -> Result<Places, u32> {
        let sheet = load::<A>(sheet)?;
        if challenge >= sheet.challenges {
            return Err(15);
        }
        if !sheet.is_domain(witness) {
            return Err(16);
        }
        if sheet.image(witness)[..sheet.rows] != sheet.statement[..sheet.rows] {
            return Err(17);
        }
        if self.phase != Phase::Committed || !self.fits(&sheet) {
            return Err(21);
        }
        if self.is_listed() {
            return Err(32);
        }
        let at = self.memory.count as usize;
        if at >= MOST_ANSWERED {
            return Err(33);
        }
        let response = sheet.response(&self.nonce, challenge, witness);
        self.phase = Phase::Answered;
        self.nonce = [0; 8];
        self.memory.answered[at].commitment = self.commitment;
        self.memory.count += 1;
        Ok(response)
    }

    /// Saves the state, nonce and commitment under a name.
    #[inline(never)]
    pub fn save(&mut self, name: u32) -> Result<(), u32> {
        let place = self.memory.saved.get_mut(name as usize).ok_or(34u32)?;
        *place = Saved {
            nonce: self.nonce,
            commitment: self.commitment,
            phase: self.phase as u32,
            kept: 1,
        };
        Ok(())
    }

    /// Brings back the state, nonce and commitment that were saved under a name.
    #[inline(never)]
    pub fn return_to(&mut self, name: u32) -> Result<(), u32> {
        let place = self.memory.saved.get(name as usize);
        let saved = place.filter(|saved| saved.kept != 0).ok_or(34u32)?;
        self.nonce = saved.nonce;
        self.commitment = saved.commitment;
        self.phase = Phase::from(saved.phase);
        Ok(())
    }

    /// Whether the held commitment was answered before.
    fn is_listed(&self) -> bool {
        let count = (self.memory.count as usize).min(MOST_ANSWERED);
        let listed = &self.memory.answered[..count];
        listed.iter().any(|one| one.commitment == self.commitment)
    }

    /// Whether the held nonce and commitment are those of this sheet.
    fn fits<A: Arithmetic>(&self, sheet: &Sheet<A>) -> bool {
        sheet.is_domain(&self.nonce) && sheet.image(&self.nonce) == self.commitment
    }
}

impl<A: Arithmetic> Sheet<A> {
    /// The response: k + c x mod q, or k x^c mod m, in each slot.
    pub fn response(&self, nonce: &Places, challenge: u32, witness: &Places) -> Places {
        let (nonce, witness) = (&nonce[..self.columns], &witness[..self.columns]);
        match self.kind {
            Kind::Exponent => places(nonce.iter().zip(witness).map(|(&k, &x)| {
                let sum = u64::from(k) + u64::from(challenge) * u64::from(x);
                (sum % u64::from(self.order)) as u32
            })),
            Kind::Root => A::products(nonce, witness, challenge, self.modulus),
        }
    }
}
