//! A watch for nonces that are used twice.

use crate::protocol::verdict;
use crate::{Instance, MOST_REMEMBERED, Places, Refusal, Round, Verdict, WatchParts};
use core::fmt;
use dimkhoros_sys as sys;

/// A watch for used nonces: it is opened on one sheet, is given rounds one by one, and remembers the last 63 accepted ones.
///
/// For each accepted round it names the nearest remembered round with the same commitment and another challenge, and gives the
/// witness that the two give away. It names none exactly if it remembers no such round: this is proved. So two uses of a nonce
/// that are more than 63 accepted rounds apart are not seen. Rounds that are rejected or refused are not remembered, and do not
/// count. A round is given by its values, so versions of files play no part.
///
/// A watch is a value: two clones go on apart, and neither knows the rounds that the other is given. It has 4,600 bytes.
///
/// ```
/// use dimkhoros::{Reuse, Round, Watch, places};
/// # use dimkhoros::{Instance, Patterns, Plan};
/// # let plan = Plan { pattern: 1, modulus: 23, order: 11, challenges: 11, values: &[2], statement: &[13] };
/// # let instance = Instance::from_pattern(&Patterns::shipped(), &plan)?;
///
/// let mut watch = Watch::open(&instance);
/// let round = |t, c, r| Round { commitment: places([t]), challenge: c, response: places([r]) };
/// assert_eq!(watch.hear(&instance, &round(9, 3, 4))?.reuse, None);
/// assert_eq!(watch.hear(&instance, &round(2, 3, 0))?.reuse, None);
///
/// // The commitment 9 comes again, with another challenge: the first round stands two accepted rounds back.
/// let heard = watch.hear(&instance, &round(9, 1, 1))?;
/// assert!(heard.verdict.is_accepted());
/// assert_eq!(heard.reuse, Some(Reuse { back: 2, witness: places([7]) }));
/// # Ok::<(), dimkhoros::Refusal>(())
/// ```
#[derive(Clone, PartialEq, Eq, Hash)]
pub struct Watch {
    parts: WatchParts,
}

impl Watch {
    /// Opens a watch on a sheet. It remembers nothing.
    ///
    /// ```
    /// use dimkhoros::Watch;
    /// # use dimkhoros::{Instance, Patterns, Plan};
    /// # let plan = Plan { pattern: 1, modulus: 23, order: 11, challenges: 11, values: &[2], statement: &[13] };
    /// # let instance = Instance::from_pattern(&Patterns::shipped(), &plan)?;
    ///
    /// assert!(Watch::open(&instance).remembered().is_empty());
    /// # Ok::<(), dimkhoros::Refusal>(())
    /// ```
    pub fn open(instance: &Instance) -> Watch {
        // The sheet of an instance has loaded, so that nothing is refused.
        Watch { parts: sys::watch_open(instance.bytes()).watch }
    }

    /// Gives the watch a round, and answers the verdict on it and the reuse that the watch sees. An accepted round is then the
    /// newest that it remembers, and of 63 older ones the oldest is forgotten.
    ///
    /// Refused with 14 to 16 by the sheet that is handed in, and then with 21: if the watch was opened on other bytes; and if a
    /// watch that was [made by hand](Watch::from_parts) counts more than 63 rounds, or would name a round that is not accepted.
    /// A round that is rejected or refused leaves the watch as it is.
    ///
    /// ```
    /// use dimkhoros::{Refusal, Round, Rows, Verdict, Watch, places};
    /// # use dimkhoros::{Instance, Patterns, Plan};
    /// # let plan = Plan { pattern: 1, modulus: 23, order: 11, challenges: 11, values: &[2], statement: &[13] };
    /// # let instance = Instance::from_pattern(&Patterns::shipped(), &plan)?;
    ///
    /// let mut watch = Watch::open(&instance);
    /// let round = Round { commitment: places([9]), challenge: 3, response: places([5]) };
    /// let heard = watch.hear(&instance, &round)?;
    /// assert_eq!(heard.verdict, Verdict::Rejected { rows: Rows::from_mask(1) });
    /// assert!(watch.remembered().is_empty());
    ///
    /// let other = instance.with_statement(&places([3]))?;
    /// assert_eq!(watch.hear(&other, &round), Err(Refusal::Session));
    /// # Ok::<(), Refusal>(())
    /// ```
    pub fn hear(&mut self, instance: &Instance, round: &Round) -> Result<Heard, Refusal> {
        let answer = sys::watch_round(instance.bytes(), &self.parts, round);
        let verdict = verdict(&answer.verdict)?;
        self.parts = answer.watch;
        let reuse = Reuse { back: answer.back as usize, witness: answer.witness };
        Ok(Heard { verdict, reuse: (reuse.back != 0).then_some(reuse) })
    }

    /// The rounds that the watch remembers, the newest first, 63 at most.
    ///
    /// ```
    /// use dimkhoros::{Round, Watch, places};
    /// # use dimkhoros::{Instance, Patterns, Plan};
    /// # let plan = Plan { pattern: 1, modulus: 23, order: 11, challenges: 11, values: &[2], statement: &[13] };
    /// # let instance = Instance::from_pattern(&Patterns::shipped(), &plan)?;
    ///
    /// let mut watch = Watch::open(&instance);
    /// let round = Round { commitment: places([9]), challenge: 3, response: places([4]) };
    /// assert!(watch.hear(&instance, &round)?.verdict.is_accepted());
    /// assert_eq!(watch.remembered(), [round]);
    /// # Ok::<(), dimkhoros::Refusal>(())
    /// ```
    pub fn remembered(&self) -> &[Round] {
        let count = usize::try_from(self.parts.count).unwrap_or(MOST_REMEMBERED);
        &self.parts.rounds[..count.min(MOST_REMEMBERED)]
    }

    /// Takes the watch apart.
    ///
    /// ```
    /// use dimkhoros::Watch;
    /// # use dimkhoros::{Instance, Patterns, Plan};
    /// # let plan = Plan { pattern: 1, modulus: 23, order: 11, challenges: 11, values: &[2], statement: &[13] };
    /// # let instance = Instance::from_pattern(&Patterns::shipped(), &plan)?;
    ///
    /// let parts = Watch::open(&instance).into_parts();
    /// assert_eq!((parts.length, parts.count), (28, 0));
    /// assert_eq!(parts.sheet[..28], *instance.bytes());
    /// # Ok::<(), dimkhoros::Refusal>(())
    /// ```
    pub fn into_parts(self) -> WatchParts {
        self.parts
    }

    /// Puts a watch together from its parts, which may be any: one that does not fit the sheet is refused with 21 by
    /// [`hear`](Watch::hear).
    ///
    /// ```
    /// use dimkhoros::{Refusal, Round, Watch, WatchParts, places};
    /// # use dimkhoros::{Instance, Patterns, Plan};
    /// # let plan = Plan { pattern: 1, modulus: 23, order: 11, challenges: 11, values: &[2], statement: &[13] };
    /// # let instance = Instance::from_pattern(&Patterns::shipped(), &plan)?;
    ///
    /// let parts = WatchParts { count: 64, ..Watch::open(&instance).into_parts() };
    /// let round = Round { commitment: places([9]), challenge: 3, response: places([4]) };
    /// assert_eq!(Watch::from_parts(parts).hear(&instance, &round), Err(Refusal::Session));
    /// # Ok::<(), Refusal>(())
    /// ```
    pub fn from_parts(parts: WatchParts) -> Watch {
        Watch { parts }
    }
}

/// Shows the remembered rounds.
impl fmt::Debug for Watch {
    fn fmt(&self, f: &mut fmt::Formatter<'_>) -> fmt::Result {
        f.debug_struct("Watch").field("remembered", &self.remembered()).finish_non_exhaustive()
    }
}

/// What a watch says of a round.
///
/// ```
/// use dimkhoros::{Heard, Verdict};
///
/// let heard = Heard { verdict: Verdict::Accepted, reuse: None };
/// assert!(heard.verdict.is_accepted());
/// ```
#[derive(Clone, Copy, Debug, PartialEq, Eq, Hash)]
#[must_use]
pub struct Heard {
    /// The verdict on the round.
    pub verdict: Verdict,
    /// The nearest earlier use of the round's nonce with another challenge, if the watch remembers one. A round that is rejected
    /// has none.
    pub reuse: Option<Reuse>,
}

/// An earlier use of a nonce: a remembered round with the same commitment and another challenge.
///
/// ```
/// use dimkhoros::{Reuse, places};
///
/// let reuse = Reuse { back: 1, witness: places([7]) };
/// assert_eq!(reuse.witness[0], 7);
/// ```
#[derive(Clone, Copy, Debug, PartialEq, Eq, Hash)]
pub struct Reuse {
    /// How many accepted rounds back it stands, 1 to 63: 1 is the accepted round just before.
    pub back: usize,
    /// The witness that the two rounds give away.
    pub witness: Places,
}
