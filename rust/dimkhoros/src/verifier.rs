//! Vic's session.

use crate::protocol::verdict;
use crate::{Damaged, Instance, PLACES, Places, Refused, STORED_VERIFIER, Verdict, stored};
use dimkhoros_sys::phases::verifier::{ASKED, HOLDING, JUDGED, WAITING};
use dimkhoros_sys::{self as sys, VerifierAnswer, VerifierSession};

/// What a stored session of Vic's begins with: its mark and its version.
const START: &[u8; 5] = b"VRF\0\x01";

/// The phases of a verifier's session, in their order.
///
/// ```
/// use dimkhoros::{Verifier, VerifierPhase};
///
/// assert_eq!(Verifier::new().phase(), VerifierPhase::Waiting);
/// ```
#[derive(Clone, Copy, Debug, PartialEq, Eq, Hash)]
#[repr(u32)]
pub enum VerifierPhase {
    /// 0: nothing has been heard.
    Waiting = WAITING,
    /// 1: a commitment is held.
    Holding = HOLDING,
    /// 2: a commitment and the challenge given on it are held.
    Asked = ASKED,
    /// 3: a response was judged.
    Judged = JUDGED,
}

impl VerifierPhase {
    /// The phase's number, 0 to 3, for a box that stores it.
    ///
    /// ```
    /// assert_eq!(dimkhoros::VerifierPhase::Asked.number(), 2);
    /// ```
    pub const fn number(self) -> u32 {
        self as u32
    }

    /// The phase of a number. A number that is no phase's is taken as Judged, which allows no call.
    ///
    /// ```
    /// use dimkhoros::VerifierPhase;
    ///
    /// assert_eq!(VerifierPhase::from_number(1), VerifierPhase::Holding);
    /// assert_eq!(VerifierPhase::from_number(7), VerifierPhase::Judged);
    /// ```
    pub const fn from_number(number: u32) -> VerifierPhase {
        match number {
            WAITING => VerifierPhase::Waiting,
            HOLDING => VerifierPhase::Holding,
            ASKED => VerifierPhase::Asked,
            _ => VerifierPhase::Judged,
        }
    }
}

/// A verifier's session.
///
/// It takes the commitment, then the challenge, then the response, one in a call, and refuses any other order with 21: a
/// challenge cannot be given before the commitment is heard. Each call takes the session and hands it back, refused calls
/// too, and it is neither `Clone` nor `Copy`, so no old one is used by mistake.
///
/// ```
/// use dimkhoros::{places, Refusal, Verdict, Verifier};
/// # use dimkhoros::{Instance, Patterns, Plan};
/// # let plan = Plan { pattern: 1, modulus: 23, order: 11, challenges: 11, values: &[2], statement: &[13] };
/// # let instance = Instance::from_pattern(&Patterns::shipped(), &plan)?;
///
/// let early = Verifier::new().take_challenge(&instance, 3).unwrap_err();
/// assert_eq!(early.refusal, Refusal::Session);
///
/// let vic = early.session.take_commitment(&instance, &places([9]))?;
/// let vic = vic.take_challenge(&instance, 3)?;
/// let (vic, verdict) = vic.take_response(&instance, &places([4]))?;
/// assert_eq!(verdict, Verdict::Accepted);
/// # Ok::<(), Refusal>(())
/// ```
#[derive(Debug)]
#[must_use = "this is the session to go on with"]
pub struct Verifier {
    session: VerifierSession,
}

impl Verifier {
    /// A new session, which holds zeros.
    ///
    /// ```
    /// use dimkhoros::{Verifier, VerifierPhase};
    ///
    /// assert_eq!(Verifier::new().phase(), VerifierPhase::Waiting);
    /// ```
    pub fn new() -> Verifier {
        Verifier { session: sys::verifier_new() }
    }

    /// Brings the commitment to a waiting session. Refused with 14 or 21.
    ///
    /// ```
    /// use dimkhoros::{places, Refusal, Verifier, VerifierPhase};
    /// # use dimkhoros::{Instance, Patterns, Plan};
    /// # let plan = Plan { pattern: 1, modulus: 23, order: 11, challenges: 11, values: &[2], statement: &[13] };
    /// # let instance = Instance::from_pattern(&Patterns::shipped(), &plan)?;
    ///
    /// let refused = Verifier::new().take_commitment(&instance, &places([5])).unwrap_err();
    /// assert_eq!(refused.refusal, Refusal::Commitment);
    /// let vic = refused.session.take_commitment(&instance, &places([9]))?;
    /// assert_eq!(vic.phase(), VerifierPhase::Holding);
    /// # Ok::<(), Refusal>(())
    /// ```
    pub fn take_commitment(
        self,
        instance: &Instance,
        commitment: &Places,
    ) -> Result<Verifier, Refused<Verifier>> {
        step(sys::verifier_commitment(instance.bytes(), self.session, commitment))
    }

    /// Brings the challenge to a session that holds a commitment. Refused with 15 or 21. The challenge is the caller's, and
    /// has to be drawn at random below the sheet's challenge count.
    ///
    /// ```
    /// use dimkhoros::{places, Verifier, VerifierPhase};
    /// # use dimkhoros::{Instance, Patterns, Plan};
    /// # let plan = Plan { pattern: 1, modulus: 23, order: 11, challenges: 11, values: &[2], statement: &[13] };
    /// # let instance = Instance::from_pattern(&Patterns::shipped(), &plan)?;
    ///
    /// let vic = Verifier::new().take_commitment(&instance, &places([9]))?;
    /// let vic = vic.take_challenge(&instance, 3)?;
    /// assert_eq!(vic.phase(), VerifierPhase::Asked);
    /// # Ok::<(), dimkhoros::Refusal>(())
    /// ```
    pub fn take_challenge(
        self,
        instance: &Instance,
        challenge: u32,
    ) -> Result<Verifier, Refused<Verifier>> {
        step(sys::verifier_challenge(instance.bytes(), self.session, challenge))
    }

    /// Brings the response to a session that has asked, and answers the verdict. Refused with 16 or 21.
    ///
    /// ```
    /// use dimkhoros::{places, Rows, Verdict, Verifier, VerifierPhase};
    /// # use dimkhoros::{Instance, Patterns, Plan};
    /// # let plan = Plan { pattern: 1, modulus: 23, order: 11, challenges: 11, values: &[2], statement: &[13] };
    /// # let instance = Instance::from_pattern(&Patterns::shipped(), &plan)?;
    ///
    /// let vic = Verifier::new().take_commitment(&instance, &places([9]))?;
    /// let vic = vic.take_challenge(&instance, 3)?;
    /// let (vic, verdict) = vic.take_response(&instance, &places([5]))?;
    /// assert_eq!(verdict, Verdict::Rejected { rows: Rows::from_mask(1) });
    /// assert_eq!(vic.phase(), VerifierPhase::Judged);
    /// # Ok::<(), dimkhoros::Refusal>(())
    /// ```
    pub fn take_response(
        self,
        instance: &Instance,
        response: &Places,
    ) -> Result<(Verifier, Verdict), Refused<Verifier>> {
        let answer = sys::verifier_response(instance.bytes(), self.session, response);
        let session = Verifier { session: answer.session };
        match verdict(&answer.verdict) {
            Ok(verdict) => Ok((session, verdict)),
            Err(refusal) => Err(Refused { session, refusal }),
        }
    }

    /// The session's phase.
    ///
    /// ```
    /// use dimkhoros::{Verifier, VerifierPhase};
    ///
    /// assert_eq!(Verifier::default().phase(), VerifierPhase::Waiting);
    /// ```
    pub fn phase(&self) -> VerifierPhase {
        VerifierPhase::from_number(self.session.phase)
    }

    /// The commitment that the session holds, zeros in a new one.
    ///
    /// ```
    /// use dimkhoros::{places, Verifier};
    /// # use dimkhoros::{Instance, Patterns, Plan};
    /// # let plan = Plan { pattern: 1, modulus: 23, order: 11, challenges: 11, values: &[2], statement: &[13] };
    /// # let instance = Instance::from_pattern(&Patterns::shipped(), &plan)?;
    ///
    /// let vic = Verifier::new().take_commitment(&instance, &places([9]))?;
    /// assert_eq!(vic.commitment(), &places([9]));
    /// # Ok::<(), dimkhoros::Refusal>(())
    /// ```
    pub fn commitment(&self) -> &Places {
        &self.session.commitment
    }

    /// The challenge that the session holds, 0 in a new one.
    ///
    /// ```
    /// use dimkhoros::{places, Verifier};
    /// # use dimkhoros::{Instance, Patterns, Plan};
    /// # let plan = Plan { pattern: 1, modulus: 23, order: 11, challenges: 11, values: &[2], statement: &[13] };
    /// # let instance = Instance::from_pattern(&Patterns::shipped(), &plan)?;
    ///
    /// let vic = Verifier::new().take_commitment(&instance, &places([9]))?;
    /// assert_eq!(vic.take_challenge(&instance, 3)?.challenge(), 3);
    /// # Ok::<(), dimkhoros::Refusal>(())
    /// ```
    pub fn challenge(&self) -> u32 {
        self.session.challenge
    }

    /// The session's stored form, as docs/FORMATS.md describes it: 51 bytes with a mark, a version, a length and a check
    /// value.
    ///
    /// ```
    /// use dimkhoros::Verifier;
    ///
    /// let stored = Verifier::new().to_stored();
    /// assert_eq!(stored[..7], *b"VRF\0\x01\0\x33");
    /// ```
    pub fn to_stored(&self) -> [u8; STORED_VERIFIER] {
        let mut values = [0; PLACES + 2];
        values[..PLACES].copy_from_slice(&self.session.commitment);
        values[PLACES] = self.session.challenge;
        values[PLACES + 1] = self.session.phase;
        stored::write(START, &values)
    }

    /// The session of a stored form. Any other bytes are [`Damaged`]: a file that was cut, changed in a byte, lengthened or
    /// emptied, and a session of Peggy's.
    ///
    /// ```
    /// use dimkhoros::{Damaged, Verifier, VerifierPhase};
    ///
    /// let stored = Verifier::new().to_stored();
    /// assert_eq!(Verifier::from_stored(&stored)?.phase(), VerifierPhase::Waiting);
    /// assert_eq!(Verifier::from_stored(&stored[..50]).unwrap_err(), Damaged);
    /// # Ok::<(), Damaged>(())
    /// ```
    pub fn from_stored(bytes: &[u8]) -> Result<Verifier, Damaged> {
        let values = stored::read::<STORED_VERIFIER, { PLACES + 2 }>(START, bytes)?;
        let mut session = sys::verifier_new();
        session.commitment.copy_from_slice(&values[..PLACES]);
        session.challenge = values[PLACES];
        session.phase = values[PLACES + 1];
        if session.phase > stored::LAST_PHASE {
            return Err(Damaged);
        }
        Ok(Verifier { session })
    }

    /// Takes the session apart. [`to_stored`](Verifier::to_stored) is for a box that stores it.
    ///
    /// ```
    /// use dimkhoros::{places, Verifier};
    /// # use dimkhoros::{Instance, Patterns, Plan};
    /// # let plan = Plan { pattern: 1, modulus: 23, order: 11, challenges: 11, values: &[2], statement: &[13] };
    /// # let instance = Instance::from_pattern(&Patterns::shipped(), &plan)?;
    ///
    /// let vic = Verifier::new().take_commitment(&instance, &places([9]))?;
    /// assert_eq!(vic.into_parts().commitment, places([9]));
    /// # Ok::<(), dimkhoros::Refusal>(())
    /// ```
    pub fn into_parts(self) -> VerifierParts {
        VerifierParts {
            phase: self.phase(),
            commitment: self.session.commitment,
            challenge: self.session.challenge,
        }
    }

    /// Puts a session together from its parts, which may be any: a session whose held values do not fit the sheet is refused
    /// with 21 by the calls.
    ///
    /// ```
    /// use dimkhoros::{Verifier, VerifierPhase};
    ///
    /// let vic = Verifier::from_parts(Verifier::new().into_parts());
    /// assert_eq!(vic.phase(), VerifierPhase::Waiting);
    /// ```
    pub fn from_parts(parts: VerifierParts) -> Verifier {
        let session = VerifierSession {
            phase: parts.phase.number(),
            commitment: parts.commitment,
            challenge: parts.challenge,
        };
        Verifier { session }
    }
}

impl Default for Verifier {
    fn default() -> Verifier {
        Verifier::new()
    }
}

/// A verifier's session taken apart. The library cannot know of copies: a box that asks two challenges on one commitment,
/// from two copies of a session, invites the prover to give her witness away.
///
/// ```
/// use dimkhoros::{Verifier, VerifierParts, VerifierPhase};
///
/// let parts = VerifierParts { phase: VerifierPhase::Waiting, commitment: [0; 8], challenge: 0 };
/// assert_eq!(Verifier::new().into_parts(), parts);
/// ```
#[derive(Debug, PartialEq, Eq)]
pub struct VerifierParts {
    /// The phase.
    pub phase: VerifierPhase,
    /// The commitment, zeros where the session has heard none.
    pub commitment: Places,
    /// The challenge, 0 where the session has given none.
    pub challenge: u32,
}

/// The session of an answer, or the session with why the call was refused.
fn step(answer: VerifierAnswer) -> Result<Verifier, Refused<Verifier>> {
    let session = Verifier { session: answer.session };
    Refused::check(session, answer.refusal)
}
