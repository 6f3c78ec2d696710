//! The rows in which two sides differ.

use core::fmt;

/// The rows, from 0, in which the two sides of a round differ. Its iterator gives them rising.
///
/// ```
/// use dimkhoros::Rows;
///
/// let rows = Rows::from_mask(0b1000_0101);
/// assert_eq!(rows.first(), Some(0));
/// assert!(rows.contains(2) && !rows.contains(1));
/// for (row, expected) in rows.into_iter().zip([0, 2, 7]) {
///     assert_eq!(row, expected);
/// }
/// assert_eq!(rows.to_string(), "rows 0 2 7");
/// ```
#[derive(Clone, Copy, Default, PartialEq, Eq, Hash)]
pub struct Rows {
    mask: u32,
}

impl Rows {
    /// The rows of a mask, in which row i has the bit of value 2^i.
    ///
    /// ```
    /// use dimkhoros::Rows;
    ///
    /// assert_eq!(Rows::from_mask(128).first(), Some(7));
    /// assert_eq!(Rows::from_mask(0), Rows::default());
    /// ```
    pub const fn from_mask(mask: u32) -> Rows {
        Rows { mask }
    }

    /// The mask of these rows.
    ///
    /// ```
    /// assert_eq!(dimkhoros::Rows::from_mask(5).mask(), 5);
    /// ```
    pub const fn mask(self) -> u32 {
        self.mask
    }

    /// Whether there is no row.
    ///
    /// ```
    /// use dimkhoros::Rows;
    ///
    /// assert!(Rows::default().is_empty());
    /// assert!(!Rows::from_mask(128).is_empty());
    /// ```
    pub const fn is_empty(self) -> bool {
        self.mask == 0
    }

    /// Whether this row is among them.
    ///
    /// ```
    /// use dimkhoros::Rows;
    ///
    /// let rows = Rows::from_mask(0b101);
    /// assert_eq!([0, 1, 2, 3, 32].map(|row| rows.contains(row)), [true, false, true, false, false]);
    /// ```
    pub fn contains(self, row: usize) -> bool {
        self.into_iter().any(|other| other == row)
    }

    /// The first of them.
    ///
    /// ```
    /// use dimkhoros::Rows;
    ///
    /// assert_eq!(Rows::from_mask(0b110).first(), Some(1));
    /// assert_eq!(Rows::default().first(), None);
    /// ```
    pub fn first(self) -> Option<usize> {
        self.into_iter().next()
    }
}

impl IntoIterator for Rows {
    type Item = usize;
    type IntoIter = RowNumbers;

    fn into_iter(self) -> RowNumbers {
        RowNumbers { left: self.mask }
    }
}

/// The numbers of [`Rows`], rising.
#[derive(Clone, Debug)]
pub struct RowNumbers {
    left: u32,
}

impl Iterator for RowNumbers {
    type Item = usize;

    fn next(&mut self) -> Option<usize> {
        let row = self.left.trailing_zeros();
        self.left &= self.left.checked_sub(1)?;
        Some(row as usize)
    }

    fn size_hint(&self) -> (usize, Option<usize>) {
        let count = self.left.count_ones() as usize;
        (count, Some(count))
    }
}

impl ExactSizeIterator for RowNumbers {}

impl fmt::Debug for Rows {
    fn fmt(&self, f: &mut fmt::Formatter<'_>) -> fmt::Result {
        f.debug_set().entries(*self).finish()
    }
}

impl fmt::Display for Rows {
    fn fmt(&self, f: &mut fmt::Formatter<'_>) -> fmt::Result {
        f.write_str(match self.into_iter().len() {
            0 => "no row",
            1 => "row",
            _ => "rows",
        })?;
        self.into_iter().try_for_each(|row| write!(f, " {row}"))
    }
}
