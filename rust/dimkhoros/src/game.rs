//! The game's text.

use crate::LONGEST_GAME;
use dimkhoros_sys as sys;

/// Which challenges Peggy can answer on the commitment t of a file's round 0, with or without a witness. The text is written to the
/// start of `text`, and no byte behind it is changed. The sheet has to be so small that all responses can be tried.
///
/// The text has a line for each challenge below K that has an accepting response, rising: the challenge and the smallest such
/// response, n numbers, as in `1 0 9`. Responses are compared by the first number that differs. If there is no such challenge, the
/// text is the one line `none`. What is refused gives the one line `refused N`: 2 to 11 of the sheet, 12 of the file, 13 if the file
/// has no rounds, 14 if t is no commitment, then 31, [`Refusal::GameSize`], if q^n is above 4,096, or in a root sheet if m is above
/// 4,096 or s above 1.
///
/// The challenge and the response of round 0 are not tested. If the statement has a witness, a t answers every challenge or none;
/// if it has none, a t answers one challenge at most.
///
/// The buffer is too large for a small stack, so it is allocated here, and 128 KiB of the stack are used.
///
/// ```
/// use dimkhoros::{LONGEST_GAME, game};
///
/// // 2^r = t · 13^c modulo 23, with the commitment t = 9.
/// let sheet = b"HOM\0\x01\x01\0\0\0\x17\0\0\0\x0b\0\0\0\x0b\x01\x01\0\0\0\x02\0\0\0\x0d";
/// let file = b"RND\0\x01\0\x01\0\0\0\x09\0\0\0\x00\0\0\0\x00";
/// let mut text: Box<[u8; LONGEST_GAME]> = vec![0; LONGEST_GAME].try_into().unwrap();
/// let lines = game(sheet, file, &mut text);
/// assert_eq!(lines, "0 5\n1 1\n2 8\n3 4\n4 0\n5 7\n6 3\n7 10\n8 6\n9 2\n10 9\n");
/// assert_eq!(game(sheet, &file[..9], &mut text), "refused 12\n");
/// ```
///
/// [`Refusal::GameSize`]: crate::Refusal::GameSize
pub fn game<'a>(sheet: &[u8], file: &[u8], text: &'a mut [u8; LONGEST_GAME]) -> &'a str {
    let length = sys::game(sheet, file, text);
    core::str::from_utf8(&text[..length]).expect("the game's text is ASCII")
}
