//! A watch for used nonces: refusals 14 to 16 and 21.

use std::collections::VecDeque;

use dimkhoros_sys::{MOST_REMEMBERED, Places, Round};

use super::arithmetic::{Arithmetic, places};
use super::rounds::Verdict;
use super::sheet::{Sheet, load};

/// A watch: the bytes of its sheet, and the last accepted rounds, the newest first.
pub struct Watch {
    pub sheet: Vec<u8>,
    pub rounds: VecDeque<Round>,
}

/// A nonce that was used before: how many accepted rounds back, and the witness.
pub struct Reuse {
    pub back: usize,
    pub witness: Places,
}

impl Watch {
    /// Gives the watch a round: answers the verdict, and for an accepted round the
    /// nearest reuse. A refused call leaves the watch as it is.
    #[inline(never)]
    pub fn hear<A: Arithmetic>(
        &mut self,
        bytes: &[u8],
        round: &Round,
    ) -> Result<(Verdict, Option<Reuse>), u32> {
        let sheet = load::<A>(bytes)?;
        let verdict = sheet.judge(round)?;
        if self.sheet != bytes || self.rounds.len() > MOST_REMEMBERED {
            return Err(21);
        }
        if verdict != Verdict::Accepted {
            return Ok((verdict, None));
        }
        let reuse = self.nearest(&sheet, round)?;
        self.rounds.truncate(MOST_REMEMBERED - 1);
        self.rounds.push_front(sheet.used_places(round));
        Ok((verdict, reuse))
    }

    /// The nearest remembered round with the same commitment and another challenge,
    /// which has to be accepted.
    fn nearest<A: Arithmetic>(
        &self,
        sheet: &Sheet<A>,
        round: &Round,
    ) -> Result<Option<Reuse>, u32> {
        let commitment = &round.commitment[..sheet.rows];
        let reuses = |other: &Round| {
            other.commitment[..sheet.rows] == *commitment && other.challenge != round.challenge
        };
        let Some(place) = self.rounds.iter().position(reuses) else {
            return Ok(None);
        };
        let other = &self.rounds[place];
        if sheet.judge(other) != Ok(Verdict::Accepted) {
            return Err(21);
        }
        Ok(Some(Reuse { back: place + 1, witness: sheet.combined(round, other) }))
    }
}

impl<A: Arithmetic> Sheet<A> {
    /// A round with zeros in the places that are not read.
    fn used_places(&self, round: &Round) -> Round {
        Round {
            commitment: places(round.commitment[..self.rows].iter().copied()),
            challenge: round.challenge,
            response: places(round.response[..self.columns].iter().copied()),
        }
    }
}
