//! Peggy's session of the OR proof.

use crate::{
    Damaged, Found, NoResponse, OrRound, PLACES, Pair, Places, ProverPhase, Refused,
    STORED_OR_PROVER, Side, stored,
};
use core::fmt;
use dimkhoros_sys::{self as sys, OrSession};

/// What a stored session of Peggy's of the OR proof begins with: its mark and its version.
const START: &[u8; 5] = b"ORP\0\x01";

/// How many numbers a stored session has.
const NUMBERS: usize = 4 * PLACES + 3;

/// A prover's session of the OR proof: she knows a witness of one of two sheets, and simulates the other.
///
/// It is handed on as a [`Prover`](crate::Prover) is: each call takes the session and hands it back, refused calls too, and it is
/// neither `Clone` nor `Copy`. Over any chain of calls in which each is given the session that the last one handed back, at most
/// one challenge is answered: this is proved of the library.
///
/// Holders of either witness make exactly the accepted rounds for a challenge, each from a single choice of nonce, simulated
/// challenge and simulated response. So a round does not tell which witness is known where these are drawn at random.
///
/// ```
/// use dimkhoros::{OrProver, ProverPhase, Refusal, Side, places};
/// # use dimkhoros::{Instance, Pair, Patterns, Plan};
/// # let plan = Plan { pattern: 1, modulus: 23, order: 11, challenges: 5, values: &[2], statement: &[13] };
/// # let first = Instance::from_pattern(&Patterns::shipped(), &plan)?;
/// # let root = Plan { pattern: 0, modulus: 35, order: 5, challenges: 5, values: &[], statement: &[32] };
/// # let second = Instance::from_pattern(&Patterns::shipped(), &root)?;
/// # let pair = Pair::new(&first, &second)?;
///
/// // She knows 7, with 2^7 = 13 modulo 23, and simulates the second sheet with the challenge 4 and the response 6.
/// let (peggy, commitments) = OrProver::new().commit(&pair, Side::First, &places([5]), 4, &places([6]))?;
/// assert_eq!(commitments, [places([9]), places([26])]);
/// let (peggy, round) = peggy.respond(&pair, 2, &places([7]))?;
/// // 2 - 4 is 3 modulo 5, and 5 + 3 * 7 is 4 modulo 11.
/// assert_eq!((round.challenge0, round.response0), (3, places([4])));
/// assert!(pair.judge(&round)?.is_accepted());
///
/// let again = peggy.respond(&pair, 1, &places([7])).unwrap_err();
/// assert_eq!(again.refusal, Refusal::Session);
/// assert_eq!(again.session.phase(), ProverPhase::Answered);
/// # Ok::<(), Refusal>(())
/// ```
///
/// A session that was used cannot be used again.
///
/// ```compile_fail,E0382
/// # use dimkhoros::{places, Instance, OrProver, Pair, Patterns, Plan, Side};
/// # let plan = Plan { pattern: 1, modulus: 23, order: 11, challenges: 11, values: &[2], statement: &[13] };
/// # let first = Instance::from_pattern(&Patterns::shipped(), &plan).unwrap();
/// # let pair = Pair::new(&first, &first).unwrap();
/// let (peggy, _) = OrProver::new().commit(&pair, Side::First, &places([5]), 4, &places([0])).unwrap();
/// let first = peggy.respond(&pair, 3, &places([7]));
/// let second = peggy.respond(&pair, 1, &places([7]));
/// ```
///
/// Nor can it be cloned.
///
/// ```compile_fail,E0599
/// let copy = dimkhoros::OrProver::new().clone();
/// ```
#[must_use = "this is the session to go on with"]
pub struct OrProver {
    session: OrSession,
}

#[allow(clippy::result_large_err, reason = "a refused call hands the session back")]
impl OrProver {
    /// A new session, which holds zeros.
    ///
    /// ```
    /// use dimkhoros::{OrProver, ProverPhase};
    ///
    /// assert_eq!(OrProver::new().phase(), ProverPhase::New);
    /// ```
    pub fn new() -> OrProver {
        OrProver { session: sys::or_prover_new() }
    }

    /// Commits a new session: to a nonce of the side whose witness is known, and to a challenge and a response with which the
    /// other side is simulated. Answers both commitments. Refused with 15, 16 or 21.
    ///
    /// Nonce, challenge and response are the caller's. They have to be drawn at random, anew for each session: the nonce and the
    /// response from all coordinates of their sheets, the challenge below the challenge count.
    ///
    /// ```
    /// use dimkhoros::{OrProver, Refusal, Side, places};
    /// # use dimkhoros::{Instance, Pair, Patterns, Plan};
    /// # let plan = Plan { pattern: 1, modulus: 23, order: 11, challenges: 11, values: &[2], statement: &[13] };
    /// # let first = Instance::from_pattern(&Patterns::shipped(), &plan)?;
    /// # let pair = Pair::new(&first, &first)?;
    ///
    /// let refused = OrProver::new().commit(&pair, Side::Second, &places([5]), 11, &places([0])).unwrap_err();
    /// assert_eq!(refused.refusal, Refusal::Challenge);
    /// let (peggy, commitments) = refused.session.commit(&pair, Side::Second, &places([5]), 3, &places([0]))?;
    /// assert_eq!(commitments, [places([2]), places([9])]);
    /// assert_eq!(peggy.commitments(), [&places([2]), &places([9])]);
    /// # Ok::<(), Refusal>(())
    /// ```
    pub fn commit(
        self,
        pair: &Pair<'_>,
        known: Side,
        nonce: &Places,
        challenge: u32,
        response: &Places,
    ) -> Result<(OrProver, [Places; 2]), Refused<OrProver>> {
        let ((first, second), side) = (pair.bytes(), known.number());
        let answer =
            sys::or_prover_commit(first, second, self.session, side, nonce, challenge, response);
        let session = OrProver { session: answer.session };
        let session = Refused::check(session, answer.refusal)?;
        Ok((session, [answer.values0, answer.values1]))
    }

    /// Answers a challenge by a witness of the side that the session holds, and sets nonce, side and simulated values to zeros.
    /// The answer is the whole round, with the held commitments. Refused with 15 to 17 or 21; a committed session that is
    /// refused stays committed and can still answer.
    ///
    /// ```
    /// use dimkhoros::{OrProver, Refusal, Side, places};
    /// # use dimkhoros::{Instance, Pair, Patterns, Plan};
    /// # let plan = Plan { pattern: 1, modulus: 23, order: 11, challenges: 11, values: &[2], statement: &[13] };
    /// # let first = Instance::from_pattern(&Patterns::shipped(), &plan)?;
    /// # let pair = Pair::new(&first, &first)?;
    ///
    /// let (peggy, _) = OrProver::new().commit(&pair, Side::Second, &places([5]), 3, &places([0]))?;
    /// let refused = peggy.respond(&pair, 6, &places([8])).unwrap_err();
    /// assert_eq!(refused.refusal, Refusal::Witness);
    /// let (_, round) = refused.session.respond(&pair, 6, &places([7]))?;
    /// assert_eq!((round.challenge0, round.response0, round.response1), (3, places([0]), places([4])));
    /// # Ok::<(), Refusal>(())
    /// ```
    pub fn respond(
        self,
        pair: &Pair<'_>,
        challenge: u32,
        witness: &Places,
    ) -> Result<(OrProver, OrRound), Refused<OrProver>> {
        let (first, second) = pair.bytes();
        let answer = sys::or_prover_respond(first, second, self.session, challenge, witness);
        let session = OrProver { session: answer.session };
        let session = Refused::check(session, answer.refusal)?;
        let round = OrRound {
            commitment0: answer.session.commitment0,
            commitment1: answer.session.commitment1,
            response0: answer.values0,
            response1: answer.values1,
            challenge,
            challenge0: answer.challenge0,
        };
        Ok((session, round))
    }

    /// Responds as [`respond`](OrProver::respond) does, and hands the round out only after `store` has succeeded, as
    /// [`Prover::respond_after`](crate::Prover::respond_after) does.
    ///
    /// ```
    /// use dimkhoros::{OrProver, Refusal, Side, places};
    /// # use dimkhoros::{Instance, Pair, Patterns, Plan};
    /// # let plan = Plan { pattern: 1, modulus: 23, order: 11, challenges: 11, values: &[2], statement: &[13] };
    /// # let first = Instance::from_pattern(&Patterns::shipped(), &plan)?;
    /// # let pair = Pair::new(&first, &first)?;
    ///
    /// let (peggy, _) = OrProver::new().commit(&pair, Side::First, &places([5]), 3, &places([0]))?;
    /// let mut disk = peggy.to_stored();
    /// let store = |stored: &_| -> Result<(), &str> { disk = *stored; Ok(()) };
    /// let (_, round) = peggy.respond_after(&pair, 6, &places([7]), store).unwrap();
    /// assert!(pair.judge(&round)?.is_accepted());
    ///
    /// // The box is restarted, and asked another challenge.
    /// let (peggy, _) = OrProver::reopen(&disk);
    /// let again = peggy.respond(&pair, 1, &places([7])).unwrap_err();
    /// assert_eq!(again.refusal, Refusal::Session);
    /// # Ok::<(), Refusal>(())
    /// ```
    pub fn respond_after<E>(
        self,
        pair: &Pair<'_>,
        challenge: u32,
        witness: &Places,
        store: impl FnOnce(&[u8; STORED_OR_PROVER]) -> Result<(), E>,
    ) -> Result<(OrProver, OrRound), NoResponse<E, OrProver>> {
        let (session, round) = self.respond(pair, challenge, witness)?;
        match store(&session.to_stored()) {
            Ok(()) => Ok((session, round)),
            Err(error) => Err(NoResponse::NotStored { session, error }),
        }
    }

    /// Gives up a new or committed session, and sets all but its commitments to zeros. Refused with 21.
    ///
    /// ```
    /// use dimkhoros::{OrProver, ProverPhase};
    ///
    /// let peggy = OrProver::new().drop_session()?;
    /// assert_eq!(peggy.phase(), ProverPhase::Dropped);
    /// # Ok::<(), dimkhoros::Refusal>(())
    /// ```
    pub fn drop_session(self) -> Result<OrProver, Refused<OrProver>> {
        let answer = sys::or_prover_drop(self.session);
        Refused::check(OrProver { session: answer.session }, answer.refusal)
    }

    /// The session's phase.
    ///
    /// ```
    /// use dimkhoros::{OrProver, ProverPhase};
    ///
    /// assert_eq!(OrProver::default().phase(), ProverPhase::New);
    /// ```
    pub fn phase(&self) -> ProverPhase {
        ProverPhase::from_number(self.session.phase)
    }

    /// The commitments that the session holds, zeros in a new one.
    ///
    /// ```
    /// use dimkhoros::OrProver;
    ///
    /// assert_eq!(OrProver::new().commitments(), [&[0; 8]; 2]);
    /// ```
    pub fn commitments(&self) -> [&Places; 2] {
        [&self.session.commitment0, &self.session.commitment1]
    }

    /// The session's stored form, as docs/FORMATS.md describes it: 151 bytes with a mark, a version, a length and a check
    /// value. They hold the nonce and the side. See [`ProverParts`](crate::ProverParts) for what a box that stores sessions has
    /// to see to.
    ///
    /// ```
    /// use dimkhoros::OrProver;
    ///
    /// let stored = OrProver::new().to_stored();
    /// assert_eq!(stored[..7], *b"ORP\0\x01\0\x97");
    /// ```
    pub fn to_stored(&self) -> [u8; STORED_OR_PROVER] {
        let OrSession { nonce, response, commitment0, commitment1, challenge, side, phase } =
            &self.session;
        let mut values = [0; NUMBERS];
        let places = [nonce, response, commitment0, commitment1];
        for (part, held) in values.chunks_exact_mut(PLACES).zip(places) {
            part.copy_from_slice(held);
        }
        values[4 * PLACES..].copy_from_slice(&[*challenge, *side, *phase]);
        stored::write(START, &values)
    }

    /// Reads a stored session back without nonce, side and simulated values, and tells what was found, as
    /// [`Prover::reopen`](crate::Prover::reopen) does. The session is never Committed.
    ///
    /// ```
    /// use dimkhoros::{Found, OrProver, ProverPhase, Side, places};
    /// # use dimkhoros::{Instance, Pair, Patterns, Plan};
    /// # let plan = Plan { pattern: 1, modulus: 23, order: 11, challenges: 11, values: &[2], statement: &[13] };
    /// # let first = Instance::from_pattern(&Patterns::shipped(), &plan)?;
    /// # let pair = Pair::new(&first, &first)?;
    ///
    /// let (peggy, _) = OrProver::new().commit(&pair, Side::First, &places([5]), 3, &places([0]))?;
    /// let (peggy, found) = OrProver::reopen(&peggy.to_stored());
    /// assert_eq!((found, peggy.phase()), (Found::Committed, ProverPhase::Dropped));
    /// # Ok::<(), dimkhoros::Refusal>(())
    /// ```
    pub fn reopen(bytes: &[u8]) -> (OrProver, Found) {
        let Ok(OrProver { session }) = OrProver::from_stored_with_nonce(bytes) else {
            return (OrProver::new(), Found::Damaged);
        };
        let found = Found::of(ProverPhase::from_number(session.phase));
        let kept = match found {
            Found::Committed => sys::or_prover_drop(session).session,
            _ => session,
        };
        (OrProver { session: kept }, found)
    }

    /// Reads a stored session back with nonce, side and simulated values. Bytes that are no stored form are [`Damaged`]: a file
    /// that was cut, changed in a byte, lengthened or emptied, another session, and one whose side is neither 0 nor 1.
    ///
    /// A box must not answer on what this hands back, by rule 1 of docs/BOXES.md, as
    /// [`Prover::from_stored_with_nonce`](crate::Prover::from_stored_with_nonce) says. Use [`reopen`](OrProver::reopen).
    ///
    /// ```
    /// use dimkhoros::{Damaged, OrProver, ProverPhase};
    ///
    /// let mut stored = OrProver::new().to_stored();
    /// assert_eq!(OrProver::from_stored_with_nonce(&stored)?.phase(), ProverPhase::New);
    /// stored[20] = 1;
    /// assert_eq!(OrProver::from_stored_with_nonce(&stored).unwrap_err(), Damaged);
    /// # Ok::<(), Damaged>(())
    /// ```
    pub fn from_stored_with_nonce(bytes: &[u8]) -> Result<OrProver, Damaged> {
        let values = stored::read::<STORED_OR_PROVER, NUMBERS>(START, bytes)?;
        let mut session = sys::or_prover_new();
        let OrSession { nonce, response, commitment0, commitment1, .. } = &mut session;
        let places = [nonce, response, commitment0, commitment1];
        for (part, held) in values.chunks_exact(PLACES).zip(places) {
            held.copy_from_slice(part);
        }
        session.challenge = values[4 * PLACES];
        session.side = values[4 * PLACES + 1];
        session.phase = values[4 * PLACES + 2];
        if session.side > Side::Second.number() || session.phase > stored::LAST_PHASE {
            return Err(Damaged);
        }
        Ok(OrProver { session })
    }

    /// Takes the session apart. [`to_stored`](OrProver::to_stored) is for a box that stores it.
    ///
    /// ```
    /// use dimkhoros::{OrProver, Side};
    ///
    /// assert_eq!(OrProver::new().into_parts().side, Side::First);
    /// ```
    pub fn into_parts(self) -> OrProverParts {
        OrProverParts {
            phase: self.phase(),
            side: Side::from_number(self.session.side),
            nonce: self.session.nonce,
            challenge: self.session.challenge,
            response: self.session.response,
            commitments: [self.session.commitment0, self.session.commitment1],
        }
    }

    /// Puts a session together from its parts, which may be any: a committed session whose held values do not fit the sheets is
    /// refused with 21 by the calls. See [`ProverParts`](crate::ProverParts) for what a box that copies sessions has to see to.
    ///
    /// ```
    /// use dimkhoros::{OrProver, ProverPhase};
    ///
    /// let peggy = OrProver::from_parts(OrProver::new().into_parts());
    /// assert_eq!(peggy.phase(), ProverPhase::New);
    /// ```
    pub fn from_parts(parts: OrProverParts) -> OrProver {
        let [commitment0, commitment1] = parts.commitments;
        let session = OrSession {
            nonce: parts.nonce,
            response: parts.response,
            commitment0,
            commitment1,
            challenge: parts.challenge,
            side: parts.side.number(),
            phase: parts.phase.number(),
        };
        OrProver { session }
    }
}

impl Default for OrProver {
    fn default() -> OrProver {
        OrProver::new()
    }
}

/// Shows the phase and the commitments, and never the nonce or which side is known.
impl fmt::Debug for OrProver {
    fn fmt(&self, f: &mut fmt::Formatter<'_>) -> fmt::Result {
        f.debug_struct("OrProver")
            .field("phase", &self.phase())
            .field("commitments", &self.commitments())
            .finish_non_exhaustive()
    }
}

/// A prover's session of the OR proof taken apart. What [`ProverParts`](crate::ProverParts) says of copies holds of these too.
///
/// ```
/// use dimkhoros::{OrProver, OrProverParts, ProverPhase, Side};
///
/// let parts = OrProverParts {
///     phase: ProverPhase::New,
///     side: Side::First,
///     nonce: [0; 8],
///     challenge: 0,
///     response: [0; 8],
///     commitments: [[0; 8]; 2],
/// };
/// assert!(OrProver::new().into_parts() == parts);
/// ```
#[derive(PartialEq, Eq)]
pub struct OrProverParts {
    /// The phase.
    pub phase: ProverPhase,
    /// The side whose witness is known.
    pub side: Side,
    /// That side's nonce, zeros where the session holds none.
    pub nonce: Places,
    /// The challenge with which the other side is simulated.
    pub challenge: u32,
    /// The response with which it is simulated.
    pub response: Places,
    /// Both sides' commitments.
    pub commitments: [Places; 2],
}
