//! Two sheets, and the OR proof of a witness of one of them: judging and extracting.

use crate::{Instance, OrRound, Places, Refusal, Rows};
use core::fmt;
use dimkhoros_sys as sys;

/// One of two sheets.
///
/// ```
/// use dimkhoros::Side;
///
/// assert_eq!(Side::First.other(), Side::Second);
/// assert_eq!(Side::Second.to_string(), "side 1");
/// ```
#[derive(Clone, Copy, Debug, PartialEq, Eq, Hash)]
#[repr(u32)]
pub enum Side {
    /// 0: the first sheet.
    First = 0,
    /// 1: the second sheet.
    Second = 1,
}

impl Side {
    /// The side's number, 0 or 1.
    ///
    /// ```
    /// assert_eq!(dimkhoros::Side::Second.number(), 1);
    /// ```
    pub const fn number(self) -> u32 {
        self as u32
    }

    /// The side of a number. Every number but 0 is side 1, as in the library's calls.
    ///
    /// ```
    /// use dimkhoros::Side;
    ///
    /// assert_eq!([0, 1, 7].map(Side::from_number), [Side::First, Side::Second, Side::Second]);
    /// ```
    pub const fn from_number(number: u32) -> Side {
        match number {
            0 => Side::First,
            _ => Side::Second,
        }
    }

    /// The other side.
    ///
    /// ```
    /// use dimkhoros::Side;
    ///
    /// assert_eq!(Side::Second.other(), Side::First);
    /// ```
    pub const fn other(self) -> Side {
        match self {
            Side::First => Side::Second,
            Side::Second => Side::First,
        }
    }
}

impl fmt::Display for Side {
    fn fmt(&self, f: &mut fmt::Formatter<'_>) -> fmt::Result {
        write!(f, "side {}", self.number())
    }
}

/// Two sheets with one challenge count K, of one of which a witness is claimed. They may differ in everything else.
///
/// A round of the OR proof (R. Cramer, I. Damgård, B. Schoenmakers, 1994) is both sheets' commitments, a challenge c, the first
/// sheet's own challenge c0 and both responses. The second sheet's challenge is (c - c0) mod K. Holders of either witness make
/// the same rounds, by an [`OrProver`](crate::OrProver).
///
/// ```
/// use dimkhoros::{OrProver, OrVerdict, Pair, Side, places};
/// # use dimkhoros::{Instance, Patterns, Plan};
/// # let shipped = Patterns::shipped();
/// # let plan = Plan { pattern: 1, modulus: 23, order: 11, challenges: 5, values: &[2], statement: &[13] };
/// # let first = Instance::from_pattern(&shipped, &plan)?;
/// # let root = Plan { pattern: 0, modulus: 35, order: 5, challenges: 5, values: &[], statement: &[32] };
/// # let second = Instance::from_pattern(&shipped, &root)?;
///
/// // 2^x = 13 modulo 23, or x^5 = 32 modulo 35: Peggy knows 2, a witness of the second.
/// let pair = Pair::new(&first, &second)?;
/// let (peggy, _) = OrProver::new().commit(&pair, Side::Second, &places([3]), 4, &places([10]))?;
/// let (_, round) = peggy.respond(&pair, 2, &places([2]))?;
/// assert_eq!(pair.judge(&round), Ok(OrVerdict::Accepted));
/// # Ok::<(), dimkhoros::Refusal>(())
/// ```
#[derive(Clone, Copy, Debug)]
pub struct Pair<'a> {
    first: &'a Instance,
    second: &'a Instance,
}

impl<'a> Pair<'a> {
    /// Takes two sheets together, or refuses them with 26.
    ///
    /// ```
    /// use dimkhoros::{Pair, Refusal};
    /// # use dimkhoros::{Instance, Patterns, Plan};
    /// # let plan = Plan { pattern: 1, modulus: 23, order: 11, challenges: 11, values: &[2], statement: &[13] };
    /// # let first = Instance::from_pattern(&Patterns::shipped(), &plan)?;
    /// # let second = Instance::from_pattern(&Patterns::shipped(), &Plan { challenges: 5, ..plan })?;
    ///
    /// assert!(Pair::new(&first, &first).is_ok());
    /// assert_eq!(Pair::new(&first, &second).unwrap_err(), Refusal::CountsDiffer);
    /// # Ok::<(), Refusal>(())
    /// ```
    pub fn new(first: &'a Instance, second: &'a Instance) -> Result<Pair<'a>, Refusal> {
        // No call of the library only tests two sheets: judging does so first. A commitment of zeros is none, so that it is
        // refused with 14 where the counts are the same, and else with 26.
        let judged = sys::or_judge(first.bytes(), second.bytes(), &OrRound::default());
        match Refusal::of_answer(judged.refusal) {
            Some(Refusal::Commitment) | None => Ok(Pair { first, second }),
            Some(refusal) => Err(refusal),
        }
    }

    /// The sheet of a side.
    ///
    /// ```
    /// use dimkhoros::{Pair, Side};
    /// # use dimkhoros::{Instance, Patterns, Plan};
    /// # let plan = Plan { pattern: 1, modulus: 23, order: 11, challenges: 11, values: &[2], statement: &[13] };
    /// # let first = Instance::from_pattern(&Patterns::shipped(), &plan)?;
    /// # let second = Instance::from_pattern(&Patterns::shipped(), &Plan { statement: &[9], ..plan })?;
    ///
    /// let pair = Pair::new(&first, &second)?;
    /// assert_eq!(pair.instance(Side::Second).values().statement[0], 9);
    /// # Ok::<(), dimkhoros::Refusal>(())
    /// ```
    pub fn instance(&self, side: Side) -> &'a Instance {
        match side {
            Side::First => self.first,
            Side::Second => self.second,
        }
    }

    /// Both sheets' bytes.
    pub(crate) fn bytes(&self) -> (&'a [u8], &'a [u8]) {
        (self.first.bytes(), self.second.bytes())
    }

    /// The verdict on a round, or a refusal 14 to 16: accepted where both sides are, else rejected with the rows of each side in
    /// which its two values differ.
    ///
    /// ```
    /// use dimkhoros::{OrRound, OrVerdict, Pair, Refusal, Rows, places};
    /// # use dimkhoros::{Instance, Patterns, Plan};
    /// # let plan = Plan { pattern: 1, modulus: 23, order: 11, challenges: 11, values: &[2], statement: &[13] };
    /// # let first = Instance::from_pattern(&Patterns::shipped(), &plan)?;
    ///
    /// // Two rounds of page A: (9, 3, 4), and (2, 3, 0), which is simulated. 3 + 3 is 6.
    /// let pair = Pair::new(&first, &first)?;
    /// let round = OrRound {
    ///     commitment0: places([9]),
    ///     commitment1: places([2]),
    ///     response0: places([4]),
    ///     response1: places([0]),
    ///     challenge: 6,
    ///     challenge0: 3,
    /// };
    /// assert_eq!(pair.judge(&round), Ok(OrVerdict::Accepted));
    /// let other = OrRound { challenge: 7, ..round };
    /// let rejected = OrVerdict::Rejected { first: Rows::default(), second: Rows::from_mask(1) };
    /// assert_eq!(pair.judge(&other), Ok(rejected));
    /// assert_eq!(pair.judge(&OrRound { challenge: 11, ..round }), Err(Refusal::Challenge));
    /// # Ok::<(), Refusal>(())
    /// ```
    pub fn judge(&self, round: &OrRound) -> Result<OrVerdict, Refusal> {
        let (first, second) = self.bytes();
        let judged = sys::or_judge(first, second, round);
        Refusal::check(judged.refusal)?;
        if judged.accepted == 1 {
            return Ok(OrVerdict::Accepted);
        }
        let (first, second) = (Rows::from_mask(judged.rows0), Rows::from_mask(judged.rows1));
        Ok(OrVerdict::Rejected { first, second })
    }

    /// The extractor: the witness that two accepted rounds with the same two commitments and different challenges c give away,
    /// or a refusal 14 to 16 or 18 to 20. It is the first sheet's where the two c0 differ, else the second's.
    ///
    /// ```
    /// use dimkhoros::{OrProver, OrProverParts, OrWitness, Pair, Refusal, Side, places};
    /// # use dimkhoros::{Instance, Patterns, Plan};
    /// # let plan = Plan { pattern: 1, modulus: 23, order: 11, challenges: 11, values: &[2], statement: &[13] };
    /// # let first = Instance::from_pattern(&Patterns::shipped(), &plan)?;
    ///
    /// // What no box may do: a session is copied, and both copies answer.
    /// let pair = Pair::new(&first, &first)?;
    /// let (peggy, _) = OrProver::new().commit(&pair, Side::First, &places([5]), 4, &places([0]))?;
    /// let parts = peggy.into_parts();
    /// let copy = OrProver::from_parts(OrProverParts { ..parts });
    /// let (_, one) = copy.respond(&pair, 3, &places([7]))?;
    /// let (_, other) = OrProver::from_parts(parts).respond(&pair, 8, &places([7]))?;
    /// let witness = OrWitness { side: Side::First, values: places([7]) };
    /// assert_eq!(pair.extract(&one, &other), Ok(witness));
    /// assert_eq!(pair.extract(&one, &one), Err(Refusal::ChallengesEqual));
    /// # Ok::<(), Refusal>(())
    /// ```
    pub fn extract(&self, one: &OrRound, other: &OrRound) -> Result<OrWitness, Refusal> {
        let (first, second) = self.bytes();
        let extracted = sys::or_extract(first, second, one, other);
        Refusal::check(extracted.refusal)?;
        Ok(OrWitness { side: Side::from_number(extracted.side), values: extracted.values })
    }
}

/// What is said of a round of the OR proof.
///
/// ```
/// use dimkhoros::{OrVerdict, Rows};
///
/// assert_eq!(OrVerdict::Accepted.to_string(), "accepted");
/// let rejected = |first, second| {
///     let (first, second) = (Rows::from_mask(first), Rows::from_mask(second));
///     OrVerdict::Rejected { first, second }.to_string()
/// };
/// assert_eq!(rejected(0, 1), "rejected on side 1 in row 0");
/// assert_eq!(rejected(5, 1), "rejected on side 0 in rows 0 2 and on side 1 in row 0");
/// ```
#[derive(Clone, Copy, Debug, PartialEq, Eq, Hash)]
#[must_use]
pub enum OrVerdict {
    /// Both sides are accepted.
    Accepted,
    /// A side is rejected.
    Rejected {
        /// The rows, from 0, in which the first side's two values differ: none where that side is accepted.
        first: Rows,
        /// The same of the second side. At least one of the two has a row.
        second: Rows,
    },
}

impl OrVerdict {
    /// Whether the round is accepted.
    ///
    /// ```
    /// use dimkhoros::{OrVerdict, Rows};
    ///
    /// assert!(OrVerdict::Accepted.is_accepted());
    /// let rejected = OrVerdict::Rejected { first: Rows::from_mask(2), second: Rows::default() };
    /// assert!(!rejected.is_accepted());
    /// ```
    pub fn is_accepted(self) -> bool {
        self == OrVerdict::Accepted
    }

    /// The rows in which a side's two values differ. It has none where it is accepted.
    ///
    /// ```
    /// use dimkhoros::{OrVerdict, Rows, Side};
    ///
    /// let rejected = OrVerdict::Rejected { first: Rows::default(), second: Rows::from_mask(2) };
    /// assert!(rejected.rows(Side::First).is_empty());
    /// assert!(rejected.rows(Side::Second).into_iter().eq([1]));
    /// assert!(OrVerdict::Accepted.rows(Side::Second).is_empty());
    /// ```
    pub fn rows(self, side: Side) -> Rows {
        match (self, side) {
            (OrVerdict::Accepted, _) => Rows::default(),
            (OrVerdict::Rejected { first, .. }, Side::First) => first,
            (OrVerdict::Rejected { second, .. }, Side::Second) => second,
        }
    }
}

impl fmt::Display for OrVerdict {
    fn fmt(&self, f: &mut fmt::Formatter<'_>) -> fmt::Result {
        if self.is_accepted() {
            return f.write_str("accepted");
        }
        f.write_str("rejected")?;
        let mut between = "";
        for side in [Side::First, Side::Second] {
            let rows = self.rows(side);
            if !rows.is_empty() {
                write!(f, "{between} on {side} in {rows}")?;
                between = " and";
            }
        }
        Ok(())
    }
}

/// A witness of one of two sheets.
#[derive(Clone, Copy, Debug, PartialEq, Eq, Hash)]
pub struct OrWitness {
    /// The side that it is a witness of.
    pub side: Side,
    /// The witness.
    pub values: Places,
}
