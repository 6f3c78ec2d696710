//! What a ledger is made of.

use crate::{MOST_LINES, Refusal};
use core::fmt;
use dimkhoros_sys::{self as sys, Entry, lines};

/// The entries of a ledger that is to be made, one for each line and in order. Each call adds a line and answers its number, from
/// 0, by which later sums and products name it. [`Ledger::write`] tests the numbers.
///
/// Entries are secret: they have the values, the blinding numbers and the nonces, so whoever reads them opens every commitment.
/// `Debug` shows none of these. Values, blinding numbers and nonces are below q. Blinding numbers and nonces are the caller's, and
/// have to be drawn at random; two products must not share a nonce.
///
/// ```
/// use dimkhoros::Entries;
///
/// let mut entries = Entries::new();
/// let two = entries.commitment(2, 1)?;
/// let three = entries.commitment(3, 0)?;
/// let five = entries.sum(two, three)?;
/// let ten = entries.product(two, five, 4, [1, 2, 3], 3)?;
/// assert_eq!((five, ten), (2, 3));
/// # Ok::<(), dimkhoros::Refusal>(())
/// ```
///
/// [`Ledger::write`]: crate::Ledger::write
#[derive(Clone, Default, PartialEq, Eq)]
pub struct Entries {
    parts: sys::Entries,
}

impl Entries {
    /// The entries of a ledger of no lines.
    ///
    /// ```
    /// assert!(dimkhoros::Entries::new().is_empty());
    /// ```
    pub fn new() -> Entries {
        Entries::default()
    }

    /// Adds a commitment to a value with a blinding number, or is refused with 37 if there are 64 lines.
    ///
    /// ```
    /// use dimkhoros::{Entries, Refusal};
    ///
    /// let mut entries = Entries::new();
    /// for number in 0..64 {
    ///     assert_eq!(entries.commitment(2, 1), Ok(number));
    /// }
    /// assert_eq!(entries.commitment(2, 1), Err(Refusal::LedgerSize));
    /// ```
    pub fn commitment(&mut self, value: u32, blinding: u32) -> Result<usize, Refusal> {
        self.add(Entry { kind: lines::COMMITMENT, value, blinding, ..Entry::default() })
    }

    /// Adds the sum of two lines above, which may be the same, or is refused: with 37 if there are 64 lines, and with 36 if one of
    /// the two is not above.
    ///
    /// ```
    /// use dimkhoros::{Entries, Refusal};
    ///
    /// let mut entries = Entries::new();
    /// let two = entries.commitment(2, 1)?;
    /// assert_eq!(entries.sum(two, two), Ok(1));
    /// assert_eq!(entries.sum(two, 2), Err(Refusal::LineNotAbove));
    /// # Ok::<(), Refusal>(())
    /// ```
    pub fn sum(&mut self, first: usize, second: usize) -> Result<usize, Refusal> {
        let (first, second) = self.above(first, second)?;
        self.add(Entry { kind: lines::SUM, first, second, ..Entry::default() })
    }

    /// Adds the product of two lines above, which may be the same: a commitment to it with a blinding number of its own, and a
    /// round with this nonce and challenge. It is refused as [`sum`](Entries::sum) is.
    ///
    /// The round is evidence only if another has drawn the challenge, after t was fixed. A nonce that is used twice, in two products
    /// or for two challenges, tells of the values: two challenges on one product give its first value away.
    ///
    /// ```
    /// use dimkhoros::{Entries, Refusal};
    ///
    /// let mut entries = Entries::new();
    /// let two = entries.commitment(2, 1)?;
    /// assert_eq!(entries.product(two, two, 4, [1, 2, 3], 3), Ok(1));
    /// # Ok::<(), Refusal>(())
    /// ```
    pub fn product(
        &mut self,
        first: usize,
        second: usize,
        blinding: u32,
        nonce: [u32; 3],
        challenge: u32,
    ) -> Result<usize, Refusal> {
        let (first, second) = self.above(first, second)?;
        let kind = lines::PRODUCT;
        self.add(Entry { kind, first, second, blinding, nonce, challenge, ..Entry::default() })
    }

    /// How many lines there are.
    ///
    /// ```
    /// # let mut entries = dimkhoros::Entries::new();
    /// entries.commitment(2, 1)?;
    /// assert_eq!(entries.len(), 1);
    /// # Ok::<(), dimkhoros::Refusal>(())
    /// ```
    pub fn len(&self) -> usize {
        self.parts.count as usize
    }

    /// Whether there are no lines.
    ///
    /// ```
    /// # let mut entries = dimkhoros::Entries::new();
    /// entries.commitment(2, 1)?;
    /// assert!(!entries.is_empty());
    /// # Ok::<(), dimkhoros::Refusal>(())
    /// ```
    pub fn is_empty(&self) -> bool {
        self.parts.count == 0
    }

    /// The entries as the library takes them.
    pub(crate) fn parts(&self) -> &sys::Entries {
        &self.parts
    }

    /// The numbers of two lines, if there is room for a line that names them and both are above it.
    fn above(&self, first: usize, second: usize) -> Result<(u32, u32), Refusal> {
        if self.len() == MOST_LINES {
            return Err(Refusal::LedgerSize);
        }
        if first.max(second) >= self.len() {
            return Err(Refusal::LineNotAbove);
        }
        Ok((first as u32, second as u32))
    }

    /// Adds an entry, and answers its number.
    fn add(&mut self, entry: Entry) -> Result<usize, Refusal> {
        let number = self.len();
        let place = self.parts.entries.get_mut(number).ok_or(Refusal::LedgerSize)?;
        *place = entry;
        self.parts.count += 1;
        Ok(number)
    }
}

/// Shows how many lines there are, and no value, blinding number or nonce.
impl fmt::Debug for Entries {
    fn fmt(&self, f: &mut fmt::Formatter<'_>) -> fmt::Result {
        f.debug_struct("Entries").field("lines", &self.len()).finish_non_exhaustive()
    }
}
