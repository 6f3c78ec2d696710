//! Pattern files.

use crate::{LONGEST_PATTERNS, Pattern, Refusal};
use core::fmt;
use core::iter;
use dimkhoros_sys as sys;

/// How many bytes stand before the first pattern: mark, version and count.
const HEADER: usize = 6;

/// A pattern file that has been tested: 1 to 32 tables of digits, by which sheets are made. Every call is given its bytes and
/// tests them again.
///
/// The patterns count from 1, and 0 asks for a root sheet, whatever the file.
///
/// ```
/// use dimkhoros::{Instance, Patterns, Plan};
///
/// // ElGamal's commitments to a under alpha, which are g^alpha and g^a * h^alpha: rows (1 g) and (g h).
/// let patterns = Patterns::load(b"PAT\x00\x01\x01\x02\x02\x02\x00\x01\x01\x02")?;
/// let plan = Plan { pattern: 1, modulus: 23, order: 11, challenges: 11, values: &[2, 3], statement: &[9, 8] };
/// let instance = Instance::from_pattern(&patterns, &plan)?;
/// assert_eq!(instance.values().entries[0][..2], [1, 2]);
/// assert_eq!(instance.values().entries[1][..2], [2, 3]);
/// # Ok::<(), dimkhoros::Refusal>(())
/// ```
#[derive(Clone, PartialEq, Eq, Hash)]
pub struct Patterns {
    file: [u8; LONGEST_PATTERNS],
    length: usize,
}

impl Patterns {
    /// Tests a pattern file, or refuses it with 23 or 24.
    ///
    /// ```
    /// use dimkhoros::{Patterns, Refusal};
    ///
    /// assert_eq!(Patterns::load(b"PAT"), Err(Refusal::PatternFile));
    /// // The second digit is above the number of values.
    /// assert_eq!(Patterns::load(b"PAT\x00\x01\x01\x01\x02\x01\x01\x02"), Err(Refusal::PatternDigits));
    /// ```
    pub fn load(bytes: &[u8]) -> Result<Patterns, Refusal> {
        // No call of the library only tests a pattern file: the sheet maker does so first, whatever it is asked for. A root
        // sheet takes a statement value, so one without is refused with 1 where the file is right, and else with 23 or 24.
        let made = sys::from_pattern(bytes, Pattern::Root.number(), 0, 0, 0, &[], &[], &mut []);
        match Refusal::of_answer(made.refusal) {
            Some(Refusal::Pattern) | None => {}
            Some(refusal) => return Err(refusal),
        }
        let mut file = [0; LONGEST_PATTERNS];
        file[..bytes.len()].copy_from_slice(bytes);
        Ok(Patterns { file, length: bytes.len() })
    }

    /// The shipped file, whose five patterns [`Pattern`] names.
    ///
    /// ```
    /// use dimkhoros::{Patterns, SHIPPED_PATTERNS};
    ///
    /// let shipped = Patterns::shipped();
    /// assert_eq!((shipped.count(), shipped.bytes().len()), (5, SHIPPED_PATTERNS));
    /// assert_eq!(Patterns::load(shipped.bytes()), Ok(shipped));
    /// ```
    pub fn shipped() -> Patterns {
        let mut file = [0; LONGEST_PATTERNS];
        let length = sys::patterns(&mut file).length;
        Patterns { file, length }
    }

    /// The file's bytes.
    ///
    /// ```
    /// assert!(dimkhoros::Patterns::shipped().bytes().starts_with(b"PAT\x00\x01\x05"));
    /// ```
    pub fn bytes(&self) -> &[u8] {
        &self.file[..self.length]
    }

    /// How many patterns the file has, 1 to 32.
    ///
    /// ```
    /// assert_eq!(dimkhoros::Patterns::shipped().count(), 5);
    /// ```
    pub fn count(&self) -> usize {
        usize::from(self.file[HEADER - 1])
    }

    /// The pattern of a number, from 1. Number 0 has none, since a root sheet has no table.
    ///
    /// ```
    /// use dimkhoros::{Pattern, Patterns};
    ///
    /// let shipped = Patterns::shipped();
    /// let product = shipped.layout(Pattern::Product.number()).unwrap();
    /// assert_eq!((product.rows, product.columns, product.values), (2, 3, 3));
    /// assert_eq!(product.digits, [1, 2, 0, 3, 0, 2]);
    /// assert_eq!(shipped.layout(Pattern::Root.number()), None);
    /// assert_eq!(shipped.layout(6), None);
    /// ```
    pub fn layout(&self, number: u32) -> Option<Layout<'_>> {
        let place = usize::try_from(number).ok()?.checked_sub(1)?;
        self.layouts().nth(place)
    }

    /// All patterns, in the file's order.
    ///
    /// ```
    /// let shipped = dimkhoros::Patterns::shipped();
    /// assert!(shipped.layouts().map(|layout| layout.values).eq([1, 2, 2, 2, 3]));
    /// ```
    pub fn layouts(&self) -> impl Iterator<Item = Layout<'_>> {
        let mut rest = &self.bytes()[HEADER..];
        iter::from_fn(move || {
            let (sizes, behind) = rest.split_first_chunk::<3>()?;
            let [rows, columns, values] = sizes.map(usize::from);
            let (digits, behind) = behind.split_at_checked(rows * columns)?;
            rest = behind;
            Some(Layout { rows, columns, values, digits })
        })
    }
}

impl fmt::Debug for Patterns {
    fn fmt(&self, f: &mut fmt::Formatter<'_>) -> fmt::Result {
        f.debug_list().entries(self.layouts()).finish()
    }
}

/// A pattern of a file: the table of a sheet before its public values are known.
#[derive(Clone, Copy, Debug, PartialEq, Eq, Hash)]
pub struct Layout<'a> {
    /// The rows s, and so the number of statement values.
    pub rows: usize,
    /// The columns n.
    pub columns: usize,
    /// The number of public values.
    pub values: usize,
    /// The digits, row by row. Digit i stands for the i-th public value, from 1, and 0 for the entry 1.
    pub digits: &'a [u8],
}
