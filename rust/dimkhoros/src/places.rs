//! Arrays of eight.

use crate::{PLACES, Places};

/// The places that begin with these values, at most eight, and go on with zeros.
///
/// ```
/// use dimkhoros::places;
///
/// assert_eq!(places([2, 1]), [2, 1, 0, 0, 0, 0, 0, 0]);
/// ```
///
/// More than eight values do not compile.
///
/// ```compile_fail
/// dimkhoros::places([1, 2, 3, 4, 5, 6, 7, 8, 9]);
/// ```
pub fn places<const COUNT: usize>(values: [u32; COUNT]) -> Places {
    const { assert!(COUNT <= PLACES, "there are eight places") };
    let mut all = [0; PLACES];
    all[..COUNT].copy_from_slice(&values);
    all
}
