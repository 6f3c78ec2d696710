//! The marker's text.

use crate::LONGEST_TEXT;
use dimkhoros_sys as sys;

/// The marker's text on a sheet, a round file and a level, which is written to the start of `text`; no byte behind it is changed.
/// The level is the bytes of a level file as they were read, of which there have to be one, w, from 1 to 64. A file that is
/// missing counts as one of no bytes.
///
/// A refused sheet gives the one line `sheet N`, else a refused file `file 12`, else a refused level `level 25`: the number is
/// [`Refusal::Level`]'s, which no call gives in another way. Else the text has the count of rounds, a line for each round, and
/// `pass` if every round is accepted and the product of one K for each round is at least 2^w, or `fail`. The line of a rejected
/// round names the rows that differ, rising, as in `2 rejected 0 2 7`.
///
/// ```
/// use dimkhoros::{LONGEST_TEXT, mark};
///
/// // K is 11: two rounds make 121, which is at least 2^6 and below 2^7.
/// let sheet = b"HOM\0\x01\x01\0\0\0\x17\0\0\0\x0b\0\0\0\x0b\x01\x01\0\0\0\x02\0\0\0\x0d";
/// let file = b"RND\0\x01\0\x02\0\0\0\x09\0\0\0\x03\0\0\0\x04\0\0\0\x09\0\0\0\x01\0\0\0\x01";
/// let mut text = [0; LONGEST_TEXT];
/// assert_eq!(mark(sheet, file, &[6], &mut text), "rounds 2\n0 accepted\n1 accepted\npass\n");
/// assert_eq!(mark(sheet, file, &[7], &mut text), "rounds 2\n0 accepted\n1 accepted\nfail\n");
/// assert_eq!(mark(sheet, file, &[65], &mut text), "level 25\n");
/// assert_eq!(mark(sheet, b"", b"", &mut text), "file 12\n");
/// assert_eq!(mark(b"", b"", b"", &mut text), "sheet 2\n");
/// ```
///
/// [`Refusal::Level`]: crate::Refusal::Level
pub fn mark<'a>(
    sheet: &[u8],
    file: &[u8],
    level: &[u8],
    text: &'a mut [u8; LONGEST_TEXT],
) -> &'a str {
    let length = sys::mark(sheet, file, level, text);
    core::str::from_utf8(&text[..length]).expect("the marker's text is ASCII")
}
