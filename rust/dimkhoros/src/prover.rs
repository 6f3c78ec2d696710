//! Peggy's session.

use crate::stored_prover;
use crate::{Damaged, Found, Instance, Memory, NoResponse, Places, Refused, STORED_PROVER};
use core::fmt;
use dimkhoros_sys::phases::prover::{ANSWERED, COMMITTED, DROPPED, NEW};
use dimkhoros_sys::{self as sys, ProverAnswer, ProverSession};

/// The phases of a prover's session.
///
/// ```
/// use dimkhoros::{Prover, ProverPhase};
///
/// assert_eq!(Prover::new().phase(), ProverPhase::New);
/// ```
#[derive(Clone, Copy, Debug, PartialEq, Eq, Hash)]
#[repr(u32)]
pub enum ProverPhase {
    /// 0: nothing has happened.
    New = NEW,
    /// 1: a nonce and its commitment are held.
    Committed = COMMITTED,
    /// 2: a challenge was answered and the nonce is gone, but for saved copies.
    Answered = ANSWERED,
    /// 3: the session was given up and the nonce is gone, but for saved copies.
    Dropped = DROPPED,
}

impl ProverPhase {
    /// The phase's number, 0 to 3, for a box that stores it.
    ///
    /// ```
    /// assert_eq!(dimkhoros::ProverPhase::Answered.number(), 2);
    /// ```
    pub const fn number(self) -> u32 {
        self as u32
    }

    /// The phase of a number. A number that is no phase's is taken as Dropped, which allows no call.
    ///
    /// ```
    /// use dimkhoros::ProverPhase;
    ///
    /// assert_eq!(ProverPhase::from_number(2), ProverPhase::Answered);
    /// assert_eq!(ProverPhase::from_number(7), ProverPhase::Dropped);
    /// ```
    pub const fn from_number(number: u32) -> ProverPhase {
        match number {
            NEW => ProverPhase::New,
            COMMITTED => ProverPhase::Committed,
            ANSWERED => ProverPhase::Answered,
            _ => ProverPhase::Dropped,
        }
    }
}

/// A prover's session.
///
/// Each call takes the session and hands it back, refused calls too, and there is no way to copy it by mistake: it is neither
/// `Clone` nor `Copy`. Over any chain of calls in which each is given the session that the last one handed back, no commitment is
/// answered twice, and at most one challenge is answered if no call returns: this is proved of the library. It cannot know of
/// copies that are made by [`to_stored`](Prover::to_stored) and [`from_stored_with_nonce`](Prover::from_stored_with_nonce), or by
/// [`into_parts`](Prover::into_parts) and [`from_parts`](Prover::from_parts). A box that stores its session answers by
/// [`respond_after`](Prover::respond_after) and reads it back by [`reopen`](Prover::reopen). Nor does the library wipe the
/// memory that a session was moved out of.
///
/// A session can be saved under eight names and returned to: see [`save`](Prover::save). That is for demonstrations, and a box
/// does not save: a saved copy keeps its nonce, also after the session has answered or was dropped.
///
/// ```
/// use dimkhoros::{places, Prover, ProverPhase, Refusal};
/// # use dimkhoros::{Instance, Patterns, Plan};
/// # let plan = Plan { pattern: 1, modulus: 23, order: 11, challenges: 11, values: &[2], statement: &[13] };
/// # let instance = Instance::from_pattern(&Patterns::shipped(), &plan)?;
///
/// let (peggy, commitment) = Prover::new().commit(&instance, &places([5]))?;
/// assert_eq!(commitment, places([9]));
/// let (peggy, response) = peggy.respond(&instance, 3, &places([7]))?;
/// assert_eq!(response, places([4]));
///
/// let again = peggy.respond(&instance, 1, &places([7])).unwrap_err();
/// assert_eq!(again.refusal, Refusal::Session);
/// assert_eq!(again.session.phase(), ProverPhase::Answered);
/// # Ok::<(), Refusal>(())
/// ```
///
/// A session that was used cannot be used again.
///
/// ```compile_fail,E0382
/// # use dimkhoros::{places, Instance, Patterns, Plan, Prover};
/// # let plan = Plan { pattern: 1, modulus: 23, order: 11, challenges: 11, values: &[2], statement: &[13] };
/// # let instance = Instance::from_pattern(&Patterns::shipped(), &plan).unwrap();
/// let (peggy, _) = Prover::new().commit(&instance, &places([5])).unwrap();
/// let first = peggy.respond(&instance, 3, &places([7]));
/// let second = peggy.respond(&instance, 1, &places([7]));
/// ```
///
/// Nor can it be cloned.
///
/// ```compile_fail,E0599
/// let copy = dimkhoros::Prover::new().clone();
/// ```
#[must_use = "this is the session to go on with"]
pub struct Prover {
    session: ProverSession,
}

#[allow(clippy::result_large_err, reason = "a refused call hands the session back")]
impl Prover {
    /// A new session, which holds zeros. Nothing is saved in it, and nothing listed as answered.
    ///
    /// ```
    /// use dimkhoros::{Prover, ProverPhase};
    ///
    /// assert_eq!(Prover::new().phase(), ProverPhase::New);
    /// ```
    pub fn new() -> Prover {
        Prover { session: sys::prover_new() }
    }

    /// Commits a new session to a nonce, and answers the commitment. Refused with 16 or 21.
    ///
    /// The nonce is the caller's. It has to be drawn at random from all coordinates, anew for each commitment. A commitment that
    /// was answered before is not refused here: responding to it is, with 32.
    ///
    /// ```
    /// use dimkhoros::{places, Prover, ProverPhase};
    /// # use dimkhoros::{Instance, Patterns, Plan};
    /// # let plan = Plan { pattern: 1, modulus: 23, order: 11, challenges: 11, values: &[2], statement: &[13] };
    /// # let instance = Instance::from_pattern(&Patterns::shipped(), &plan)?;
    ///
    /// let (peggy, commitment) = Prover::new().commit(&instance, &places([5]))?;
    /// assert_eq!(commitment, places([9]));
    /// assert_eq!(peggy.phase(), ProverPhase::Committed);
    /// # Ok::<(), dimkhoros::Refusal>(())
    /// ```
    pub fn commit(
        self,
        instance: &Instance,
        nonce: &Places,
    ) -> Result<(Prover, Places), Refused<Prover>> {
        step(sys::prover_commit(instance.bytes(), self.session, nonce))
    }

    /// Answers the response of a committed session to a challenge, by a witness, sets the held nonce to zeros and lists the
    /// commitment as answered. Saved states stay, with their nonces. Refused with 15 to 17, 21, then 32 if the held commitment is
    /// listed, compared in all eight places, and 33 if the list holds 64. A committed session that is refused stays committed.
    /// After 15 to 21 it can still answer; after 32 and 33 it can be dropped or returned from.
    ///
    /// ```
    /// use dimkhoros::{places, Prover, Refusal};
    /// # use dimkhoros::{Instance, Patterns, Plan};
    /// # let plan = Plan { pattern: 1, modulus: 23, order: 11, challenges: 11, values: &[2], statement: &[13] };
    /// # let instance = Instance::from_pattern(&Patterns::shipped(), &plan)?;
    ///
    /// let (peggy, _) = Prover::new().commit(&instance, &places([5]))?;
    /// let refused = peggy.respond(&instance, 3, &places([8])).unwrap_err();
    /// assert_eq!(refused.refusal, Refusal::Witness);
    /// let (_, response) = refused.session.respond(&instance, 3, &places([7]))?;
    /// assert_eq!(response, places([4]));
    /// # Ok::<(), Refusal>(())
    /// ```
    pub fn respond(
        self,
        instance: &Instance,
        challenge: u32,
        witness: &Places,
    ) -> Result<(Prover, Places), Refused<Prover>> {
        step(sys::prover_respond(instance.bytes(), self.session, challenge, witness))
    }

    /// Responds as [`respond`](Prover::respond) does, and hands the response out only after `store` has succeeded.
    ///
    /// `store` is given the stored form of the session as it is after the response. It has to write it over the one that was
    /// stored before, and to answer `Ok` only once it would be found again after the box is switched off. The whole session is
    /// stored, with its saved states and its list: so what is found when the box starts lists each commitment of this session
    /// whose response was sent, and does not answer it again. An old copy does not list it: see [`reopen`](Prover::reopen).
    /// If `store` fails, the response is gone and the error holds the session, which answers no challenge if no call returns; if
    /// the call is refused, `store` is not called.
    ///
    /// ```
    /// use dimkhoros::{Prover, Refusal, places};
    /// # use dimkhoros::{Instance, Patterns, Plan};
    /// # let plan = Plan { pattern: 1, modulus: 23, order: 11, challenges: 11, values: &[2], statement: &[13] };
    /// # let instance = Instance::from_pattern(&Patterns::shipped(), &plan)?;
    ///
    /// let (peggy, _) = Prover::new().commit(&instance, &places([5]))?;
    /// let mut disk = peggy.to_stored();
    /// let store = |stored: &_| -> Result<(), &str> { disk = *stored; Ok(()) };
    /// let (_, response) = peggy.respond_after(&instance, 3, &places([7]), store).unwrap();
    /// assert_eq!(response, places([4]));
    ///
    /// // The box is restarted, and asked another challenge.
    /// let (peggy, _) = Prover::reopen(&disk);
    /// let again = peggy.respond(&instance, 1, &places([7])).unwrap_err();
    /// assert_eq!(again.refusal, Refusal::Session);
    /// # Ok::<(), Refusal>(())
    /// ```
    pub fn respond_after<E>(
        self,
        instance: &Instance,
        challenge: u32,
        witness: &Places,
        store: impl FnOnce(&[u8; STORED_PROVER]) -> Result<(), E>,
    ) -> Result<(Prover, Places), NoResponse<E>> {
        let (session, response) = self.respond(instance, challenge, witness)?;
        match store(&session.to_stored()) {
            Ok(()) => Ok((session, response)),
            Err(error) => Err(NoResponse::NotStored { session, error }),
        }
    }

    /// Gives up a new or committed session, and sets the held nonce to zeros. Saved states stay, with their nonces. Refused with 21.
    ///
    /// ```
    /// use dimkhoros::{Prover, ProverPhase};
    ///
    /// let peggy = Prover::new().drop_session()?;
    /// assert_eq!(peggy.phase(), ProverPhase::Dropped);
    /// # Ok::<(), dimkhoros::Refusal>(())
    /// ```
    pub fn drop_session(self) -> Result<Prover, Refused<Prover>> {
        let (session, _) = step(sys::prover_drop(self.session))?;
        Ok(session)
    }

    /// Saves the state, nonce and commitment of a session, in whatever phase, under a name from 0 to 7, in the place of what was
    /// saved there. Nothing else of the session changes. Refused with 34.
    ///
    /// Saving is for demonstrations: a box does not save. The saved copy keeps its nonce until the same name is saved again,
    /// whatever the session does, and it stands in [`to_stored`](Prover::to_stored) too.
    ///
    /// ```
    /// use dimkhoros::{places, Prover, ProverPhase, Refusal};
    /// # use dimkhoros::{Instance, Patterns, Plan};
    /// # let plan = Plan { pattern: 1, modulus: 23, order: 11, challenges: 11, values: &[2], statement: &[13] };
    /// # let instance = Instance::from_pattern(&Patterns::shipped(), &plan)?;
    ///
    /// // A demonstrator saves a committed session, and returns to it for a second answer on the same nonce.
    /// let (peggy, _) = Prover::new().save(0)?.commit(&instance, &places([5]))?;
    /// let (peggy, response) = peggy.save(1)?.respond(&instance, 3, &places([7]))?;
    /// assert_eq!(response, places([4]));
    /// let again = peggy.return_to(1)?.respond(&instance, 1, &places([7])).unwrap_err();
    /// assert_eq!(again.refusal, Refusal::Answered);
    ///
    /// // With the new session, saved under 0, another round begins, on another nonce.
    /// let (peggy, _) = again.session.return_to(0)?.commit(&instance, &places([6]))?;
    /// let (peggy, _) = peggy.respond(&instance, 1, &places([7]))?;
    /// assert_eq!((peggy.saved(1), peggy.answered()), (Some(ProverPhase::Committed), 2));
    /// # Ok::<(), Refusal>(())
    /// ```
    pub fn save(self, name: u32) -> Result<Prover, Refused<Prover>> {
        let (session, _) = step(sys::prover_save(self.session, name))?;
        Ok(session)
    }

    /// Brings back the state, nonce and commitment that were saved under a name, in whatever phase the session is. Nothing else
    /// changes: the saved states and the list of answered commitments stay, so that the return can be made again. Refused with 34,
    /// for a name of 8 or more and for one that was never saved.
    ///
    /// ```
    /// use dimkhoros::{Prover, ProverPhase, Refusal};
    ///
    /// let peggy = Prover::new().save(7)?.drop_session()?;
    /// let never = peggy.return_to(6).unwrap_err();
    /// assert_eq!(never.refusal, Refusal::Name);
    /// assert_eq!(never.session.return_to(7)?.phase(), ProverPhase::New);
    /// # Ok::<(), Refusal>(())
    /// ```
    pub fn return_to(self, name: u32) -> Result<Prover, Refused<Prover>> {
        let (session, _) = step(sys::prover_return(self.session, name))?;
        Ok(session)
    }

    /// The phase that is saved under a name, none for a name of 8 or more and for one that was never saved.
    ///
    /// ```
    /// use dimkhoros::{Prover, ProverPhase};
    ///
    /// let peggy = Prover::new().save(3)?;
    /// assert_eq!((peggy.saved(3), peggy.saved(4)), (Some(ProverPhase::New), None));
    /// # Ok::<(), dimkhoros::Refusal>(())
    /// ```
    pub fn saved(&self, name: u32) -> Option<ProverPhase> {
        let saved = self.session.memory.saved.get(usize::try_from(name).ok()?)?;
        (saved.kept != 0).then(|| ProverPhase::from_number(saved.phase))
    }

    /// How many commitments the session has answered, at most 64. A return does not lower it.
    ///
    /// ```
    /// assert_eq!(dimkhoros::Prover::new().answered(), 0);
    /// ```
    pub fn answered(&self) -> u32 {
        self.session.memory.count
    }

    /// The session's phase.
    ///
    /// ```
    /// use dimkhoros::{Prover, ProverPhase};
    ///
    /// assert_eq!(Prover::default().phase(), ProverPhase::New);
    /// ```
    pub fn phase(&self) -> ProverPhase {
        ProverPhase::from_number(self.session.phase)
    }

    /// The commitment that the session holds, zeros in a new one.
    ///
    /// ```
    /// use dimkhoros::{places, Prover};
    /// # use dimkhoros::{Instance, Patterns, Plan};
    /// # let plan = Plan { pattern: 1, modulus: 23, order: 11, challenges: 11, values: &[2], statement: &[13] };
    /// # let instance = Instance::from_pattern(&Patterns::shipped(), &plan)?;
    ///
    /// let (peggy, _) = Prover::new().commit(&instance, &places([5]))?;
    /// assert_eq!(peggy.commitment(), &places([9]));
    /// # Ok::<(), dimkhoros::Refusal>(())
    /// ```
    pub fn commitment(&self) -> &Places {
        &self.session.commitment
    }

    /// The session's stored form, as docs/FORMATS.md describes it: 2,707 bytes with a mark, a version, a length and a check
    /// value. They hold the nonce and every saved nonce, these also after the session has answered or was dropped. See
    /// [`ProverParts`] for what a box that stores sessions has to see to.
    ///
    /// ```
    /// use dimkhoros::Prover;
    ///
    /// let stored = Prover::new().to_stored();
    /// assert_eq!(stored[..7], *b"PRV\0\x02\x0a\x93");
    /// ```
    pub fn to_stored(&self) -> [u8; STORED_PROVER] {
        stored_prover::write(self.session)
    }

    /// Reads a stored session back without the nonce that it holds, and tells what was found. A session that was Committed is
    /// dropped; of bytes that are damaged, a new session is handed back. Both have to be stored over these bytes. A session in
    /// another phase is handed back as it was stored.
    ///
    /// So the session is never Committed. This is rule 1 of docs/BOXES.md: only what this run has drawn is answered. The bytes may
    /// be an old copy, from a backup or a write that the disk lost, of a session whose challenge was answered long ago. Saved states
    /// and the list come back as they were stored: a box must not return to a state that it finds saved, for the same reason.
    ///
    /// ```
    /// use dimkhoros::{Found, Prover, ProverPhase, Refusal, places};
    /// # use dimkhoros::{Instance, Patterns, Plan};
    /// # let plan = Plan { pattern: 1, modulus: 23, order: 11, challenges: 11, values: &[2], statement: &[13] };
    /// # let instance = Instance::from_pattern(&Patterns::shipped(), &plan)?;
    ///
    /// let (peggy, _) = Prover::new().commit(&instance, &places([5]))?;
    /// let old_copy = peggy.to_stored();
    /// let (_, response) = peggy.respond(&instance, 3, &places([7]))?;
    /// assert_eq!(response, places([4]));
    ///
    /// let (peggy, found) = Prover::reopen(&old_copy);
    /// assert_eq!((found, peggy.phase()), (Found::Committed, ProverPhase::Dropped));
    /// let again = peggy.respond(&instance, 1, &places([7])).unwrap_err();
    /// assert_eq!(again.refusal, Refusal::Session);
    /// # Ok::<(), Refusal>(())
    /// ```
    pub fn reopen(bytes: &[u8]) -> (Prover, Found) {
        let Ok(Prover { session }) = Prover::from_stored_with_nonce(bytes) else {
            return (Prover::new(), Found::Damaged);
        };
        let found = Found::of(ProverPhase::from_number(session.phase));
        let kept = match found {
            Found::Committed => sys::prover_drop(session).session,
            _ => session,
        };
        (Prover { session: kept }, found)
    }

    /// Reads a stored session back with its nonce. Bytes that are no stored form are [`Damaged`]: a file that was cut, changed
    /// in a byte, lengthened or emptied, a session of Vic's, and version 1 of the form, which had no saved states.
    ///
    /// A box must not answer on what this hands back. Rule 1 of docs/BOXES.md: only what this run has drawn is answered, and a
    /// committed session that is found in a file is dropped. If the same nonce was answered before, another answer gives the
    /// witness away, and nothing in the bytes tells. Use [`reopen`](Prover::reopen). This is for programs that look at stored
    /// sessions, and for those who know that no other copy of these bytes is ever read.
    ///
    /// ```
    /// use dimkhoros::{Damaged, Prover, ProverPhase};
    ///
    /// let mut stored = Prover::new().to_stored();
    /// assert_eq!(Prover::from_stored_with_nonce(&stored)?.phase(), ProverPhase::New);
    /// stored[20] = 1;
    /// assert_eq!(Prover::from_stored_with_nonce(&stored).unwrap_err(), Damaged);
    /// # Ok::<(), Damaged>(())
    /// ```
    pub fn from_stored_with_nonce(bytes: &[u8]) -> Result<Prover, Damaged> {
        Ok(Prover { session: stored_prover::read(bytes)? })
    }

    /// Takes the session apart. [`to_stored`](Prover::to_stored) is for a box that stores it.
    ///
    /// ```
    /// use dimkhoros::{places, Prover};
    /// # use dimkhoros::{Instance, Patterns, Plan};
    /// # let plan = Plan { pattern: 1, modulus: 23, order: 11, challenges: 11, values: &[2], statement: &[13] };
    /// # let instance = Instance::from_pattern(&Patterns::shipped(), &plan)?;
    ///
    /// let (peggy, _) = Prover::new().commit(&instance, &places([5]))?;
    /// assert_eq!(peggy.into_parts().nonce, places([5]));
    /// # Ok::<(), dimkhoros::Refusal>(())
    /// ```
    pub fn into_parts(self) -> ProverParts {
        ProverParts {
            phase: self.phase(),
            nonce: self.session.nonce,
            commitment: self.session.commitment,
            memory: self.session.memory,
        }
    }

    /// Puts a session together from its parts, which may be any: a committed session whose held values do not fit the sheet is
    /// refused with 21 by the calls. See [`ProverParts`] for what a box that copies sessions has to see to.
    ///
    /// ```
    /// use dimkhoros::{Prover, ProverPhase};
    ///
    /// let peggy = Prover::from_parts(Prover::new().into_parts());
    /// assert_eq!(peggy.phase(), ProverPhase::New);
    /// ```
    pub fn from_parts(parts: ProverParts) -> Prover {
        let session = ProverSession {
            phase: parts.phase.number(),
            nonce: parts.nonce,
            commitment: parts.commitment,
            memory: parts.memory,
        };
        Prover { session }
    }
}

impl Default for Prover {
    fn default() -> Prover {
        Prover::new()
    }
}

/// Shows the phase and the commitment, and never a nonce, held or saved.
impl fmt::Debug for Prover {
    fn fmt(&self, f: &mut fmt::Formatter<'_>) -> fmt::Result {
        f.debug_struct("Prover")
            .field("phase", &self.phase())
            .field("commitment", self.commitment())
            .finish_non_exhaustive()
    }
}

/// A prover's session taken apart.
///
/// Parts and stored bytes are the two forms in which a session can be copied, by hand. Whoever answers two challenges on one
/// nonce gives the witness away, and the library cannot know of copies: what is proved, that one session answers no commitment
/// twice, and at most one challenge if no call returns, is proved of chains of calls in which each is given the session that the
/// last one handed back. So a box that stores a session stores what a call handed back in the place of what it gave, and does so
/// before it sends the answer: [`Prover::respond_after`] keeps this order. It answers on no session that it finds, which
/// [`Prover::reopen`] drops, and returns to no state that it finds saved.
///
/// ```
/// use dimkhoros::{Memory, Prover, ProverParts, ProverPhase};
///
/// let (phase, memory) = (ProverPhase::New, Memory::default());
/// let parts = ProverParts { phase, nonce: [0; 8], commitment: [0; 8], memory };
/// assert!(Prover::new().into_parts() == parts);
/// ```
#[derive(PartialEq, Eq)]
pub struct ProverParts {
    /// The phase.
    pub phase: ProverPhase,
    /// The nonce, zeros where the session holds none.
    pub nonce: Places,
    /// The commitment.
    pub commitment: Places,
    /// The saved states, each with its nonce, and the answered commitments.
    pub memory: Memory,
}

/// The session of an answer with its values, or the session with why the call was refused.
#[allow(clippy::result_large_err, reason = "a refused call hands the session back")]
fn step(answer: ProverAnswer) -> Result<(Prover, Places), Refused<Prover>> {
    let session = Prover { session: answer.session };
    let session = Refused::check(session, answer.refusal)?;
    Ok((session, answer.values))
}
