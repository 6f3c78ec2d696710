//! The reason's line.

use crate::LONGEST_REASON;
use dimkhoros_sys as sys;

/// What is wrong with a sheet, a round file or its round 0, in one line, which is written to the start of `text`; no byte behind
/// it is changed. The line is one of
///
/// | line | when |
/// |---|---|
/// | `refused N OFFSET` | rule N, 2 to 16, is the lowest that is broken, by the value at the offset and by none before it |
/// | `refused N length LENGTH` | the same of 2, 9 or 12 where the length of the sheet or the file breaks it |
/// | `rejected ROW LEFT RIGHT ..` | the two sides of round 0 differ in each ROW, rising: the value of \[r\], and that of t · z^c |
/// | `accepted` | Vic accepts round 0 |
///
/// An offset is that of the value's first byte, from the start of the file that holds it: the sheet for 2 to 11, the round file
/// for 12 to 16. `docs/FORMATS.md` of the repository lists the offsets.
///
/// ```
/// use dimkhoros::{LONGEST_REASON, reason};
///
/// let sheet = b"HOM\0\x01\x01\0\0\0\x17\0\0\0\x0b\0\0\0\x0b\x01\x01\0\0\0\x02\0\0\0\x0d";
/// let file = b"RND\0\x01\0\x01\0\0\0\x09\0\0\0\x01\0\0\0\x02";
/// let mut text = [0; LONGEST_REASON];
/// // 2^2 is 4, and 9 · 13 leaves 2 modulo 23.
/// assert_eq!(reason(sheet, file, &mut text), "rejected 0 4 2\n");
/// let mut bad = *file;
/// bad[10] = 5; // the commitment's low byte: 5 is no group element
/// assert_eq!(reason(sheet, &bad, &mut text), "refused 14 7\n");
/// assert_eq!(reason(sheet, &file[..9], &mut text), "refused 12 length 9\n");
/// ```
pub fn reason<'a>(sheet: &[u8], file: &[u8], text: &'a mut [u8; LONGEST_REASON]) -> &'a str {
    let length = sys::reason(sheet, file, text);
    core::str::from_utf8(&text[..length]).expect("the reason's line is ASCII")
}
