//! The sizes that the calls share.

/// How many places a commitment, statement, witness, nonce or response has.
///
/// ```
/// # use dimkhoros_sys::PLACES;
/// assert_eq!(PLACES, 8);
/// ```
pub const PLACES: usize = 8;

/// A commitment, statement, witness, nonce or response.
///
/// A sheet of s rows and n columns uses the first s places for commitments and statements and the first n for the others.
/// The places behind them are not read where a call takes them, and are 0 where a call answers them. A session keeps what
/// it holds in all eight, and the commitments that a prover's hold are tested in all eight (by refusals 21 and 32).
///
/// ```
/// # use dimkhoros_sys::{PLACES, Places};
/// let witness: Places = [2, 1, 0, 0, 0, 0, 0, 0];
/// assert_eq!(witness.len(), PLACES);
/// ```
pub type Places = [u32; PLACES];

/// How many numbers a table has: row i, column j, both from 0, stands at 8 i + j.
///
/// ```
/// # use dimkhoros_sys::{ENTRIES, PLACES};
/// assert_eq!(ENTRIES, PLACES * PLACES);
/// ```
pub const ENTRIES: usize = 64;

/// How many players the largest team has.
///
/// ```
/// # use dimkhoros_sys::MOST_PLAYERS;
/// assert_eq!(MOST_PLAYERS, 8);
/// ```
pub const MOST_PLAYERS: usize = 8;

/// How many numbers a team brings: value i of player p, both from 0, stands at 8 p + i.
///
/// ```
/// # use dimkhoros_sys::{MOST_PLAYERS, PARTS, PLACES};
/// assert_eq!(PARTS, MOST_PLAYERS * PLACES);
/// ```
pub const PARTS: usize = 64;

/// What the players of a team bring: their images, commitments or responses, one player behind the other.
///
/// The values of players beyond the count are not read, nor are the places behind a player's s or n values.
///
/// ```
/// # use dimkhoros_sys::{PARTS, Parts};
/// let mut images: Parts = [0; PARTS];
/// images[8] = 13; // the second player's value of row 0
/// ```
pub type Parts = [u32; PARTS];

/// How many saved states a session of Peggy's has: their names are 0 to 7.
///
/// ```
/// # use dimkhoros_sys::SAVED_STATES;
/// assert_eq!(SAVED_STATES, 8);
/// ```
pub const SAVED_STATES: usize = 8;

/// How many commitments the fullest list of answered ones has.
///
/// ```
/// # use dimkhoros_sys::MOST_ANSWERED;
/// assert_eq!(MOST_ANSWERED, 64);
/// ```
pub const MOST_ANSWERED: usize = 64;

/// How many accepted rounds the fullest watch remembers.
///
/// ```
/// # use dimkhoros_sys::MOST_REMEMBERED;
/// assert_eq!(MOST_REMEMBERED, 63);
/// ```
pub const MOST_REMEMBERED: usize = 63;

/// How many lines the longest ledger has: their numbers are 0 to 63.
///
/// ```
/// # use dimkhoros_sys::MOST_LINES;
/// assert_eq!(MOST_LINES, 64);
/// ```
pub const MOST_LINES: usize = 64;

/// How many bytes the longest sheet has.
///
/// ```
/// # use dimkhoros_sys::LONGEST_SHEET;
/// assert_eq!(LONGEST_SHEET, 20 + 4 * 8 * 8 + 4 * 8);
/// ```
pub const LONGEST_SHEET: usize = 308;

/// How many bytes the shipped pattern file has.
///
/// ```
/// # use dimkhoros_sys::SHIPPED_PATTERNS;
/// let patterns = [3 + 1, 3 + 2, 3 + 2, 3 + 2, 3 + 2 * 3];
/// assert_eq!(SHIPPED_PATTERNS, 6 + patterns.iter().sum::<usize>());
/// ```
pub const SHIPPED_PATTERNS: usize = 34;

/// How many patterns the fullest pattern file has.
///
/// ```
/// # use dimkhoros_sys::MOST_PATTERNS;
/// assert_eq!(MOST_PATTERNS, 32);
/// ```
pub const MOST_PATTERNS: usize = 32;

/// How many bytes the longest pattern file has.
///
/// ```
/// # use dimkhoros_sys::{LONGEST_PATTERNS, MOST_PATTERNS, PLACES};
/// assert_eq!(LONGEST_PATTERNS, 6 + MOST_PATTERNS * (3 + PLACES * PLACES));
/// ```
pub const LONGEST_PATTERNS: usize = 2150;

/// How many bytes a round file without rounds has.
///
/// ```
/// # use dimkhoros_sys::EMPTY_FILE;
/// assert_eq!(EMPTY_FILE, 7);
/// ```
pub const EMPTY_FILE: usize = 7;

/// How many rounds the fullest round file has.
///
/// ```
/// # use dimkhoros_sys::MOST_ROUNDS;
/// assert_eq!(MOST_ROUNDS, 512);
/// ```
pub const MOST_ROUNDS: usize = 512;

/// How many bytes the longest round file has. Its version is 1, so that these bytes hold a file of either version.
///
/// ```
/// # use dimkhoros_sys::{EMPTY_FILE, LONGEST_FILE, MOST_ROUNDS, PLACES};
/// assert_eq!(LONGEST_FILE, EMPTY_FILE + MOST_ROUNDS * 4 * (PLACES + 1 + PLACES));
/// ```
pub const LONGEST_FILE: usize = 34_823;

/// How many bytes the longest round file of version 2 has.
///
/// ```
/// # use dimkhoros_sys::{EMPTY_FILE, LONGEST_FILE_2, MOST_ROUNDS, PLACES};
/// assert_eq!(LONGEST_FILE_2, EMPTY_FILE + MOST_ROUNDS * (4 * (PLACES + PLACES) + 2));
/// ```
pub const LONGEST_FILE_2: usize = 33_799;

/// How many bytes are lent to the marker's text. They hold 512 lines of the longest, and so every text; the longest text has
/// 14,754.
///
/// ```
/// # use dimkhoros_sys::{LONGEST_TEXT, MOST_ROUNDS};
/// let lines = ["rounds 512\n", "511 rejected 0 1 2 3 4 5 6 7\n", "fail\n"].map(str::len);
/// assert_eq!(LONGEST_TEXT, lines[0] + MOST_ROUNDS * lines[1] + lines[2]);
/// ```
pub const LONGEST_TEXT: usize = 14_864;

/// How many bytes are lent to the reason's line. They hold every line: the longest tells eight rows.
///
/// ```
/// # use dimkhoros_sys::LONGEST_REASON;
/// let row = format!(" 7 {0} {0}", u32::MAX);
/// assert_eq!(LONGEST_REASON, "rejected".len() + 8 * row.len() + "\n".len());
/// assert!(format!("refused 12 length {}\n", u64::MAX).len() <= LONGEST_REASON);
/// ```
pub const LONGEST_REASON: usize = 201;

/// How many bytes are lent to the game's text. They hold a line for each of 65,536 challenges, and so every text. They are too
/// many for a small stack.
///
/// ```
/// # use dimkhoros_sys::LONGEST_GAME;
/// assert_eq!(LONGEST_GAME, 65_536 * "65535 4095\n".len());
/// ```
pub const LONGEST_GAME: usize = 720_896;
