//! The stored form of sessions: mark, version, length, values and check value, as docs/FORMATS.md has it.

use core::error::Error;
use core::fmt;

/// How many bytes a stored session of Peggy's has.
///
/// ```
/// assert_eq!(dimkhoros::STORED_PROVER, 3 + 2 + 2 + 4 * (8 + 8 + 1 + 8 * (8 + 8 + 2) + 64 * 8 + 1) + 4);
/// ```
pub const STORED_PROVER: usize = 2707;

/// How many bytes a stored session of Vic's has.
///
/// ```
/// assert_eq!(dimkhoros::STORED_VERIFIER, 3 + 2 + 2 + 4 * (8 + 1 + 1) + 4);
/// ```
pub const STORED_VERIFIER: usize = 51;

/// How many bytes a stored session of Peggy's of the OR proof has.
///
/// ```
/// assert_eq!(dimkhoros::STORED_OR_PROVER, 3 + 2 + 2 + 4 * (4 * 8 + 1 + 1 + 1) + 4);
/// ```
pub const STORED_OR_PROVER: usize = 151;

/// The bytes are no stored session: they are of another length, mark or version, or the check value is another, or no call makes
/// a session of these numbers.
///
/// ```
/// use dimkhoros::{Damaged, Verifier};
///
/// assert_eq!(Verifier::from_stored(&[]).unwrap_err(), Damaged);
/// assert_eq!(Damaged.to_string(), "the bytes are not a stored session, or they are damaged");
/// ```
#[derive(Clone, Copy, Debug, PartialEq, Eq, Hash)]
pub struct Damaged;

impl fmt::Display for Damaged {
    fn fmt(&self, f: &mut fmt::Formatter<'_>) -> fmt::Result {
        f.write_str("the bytes are not a stored session, or they are damaged")
    }
}

impl Error for Damaged {}

/// How many bytes stand before the values, and behind them.
const START: usize = 7;
const CHECK: usize = 4;

/// The last of a session's four phases.
pub(crate) const LAST_PHASE: u32 = 3;

/// The stored form of these values under a mark and a version. They fill its `LENGTH` bytes.
pub(crate) fn write<const LENGTH: usize>(start: &[u8; 5], values: &[u32]) -> [u8; LENGTH] {
    let mut stored = [0; LENGTH];
    stored[..5].copy_from_slice(start);
    stored[5..START].copy_from_slice(&(LENGTH as u16).to_be_bytes());
    for (place, value) in stored[START..].chunks_exact_mut(4).zip(values) {
        place.copy_from_slice(&value.to_be_bytes());
    }
    let (before, check) = stored.split_at_mut(LENGTH - CHECK);
    check.copy_from_slice(&crc(before).to_be_bytes());
    stored
}

/// The values of which these bytes are the stored form under a mark and a version.
pub(crate) fn read<const LENGTH: usize, const COUNT: usize>(
    start: &[u8; 5],
    bytes: &[u8],
) -> Result<[u32; COUNT], Damaged> {
    let stored: &[u8; LENGTH] = bytes.try_into().map_err(|_| Damaged)?;
    let mut values = [0; COUNT];
    for (value, place) in values.iter_mut().zip(stored[START..].chunks_exact(4)) {
        *value = place.iter().fold(0, |number, byte| number << 8 | u32::from(*byte));
    }
    if write(start, &values) == *stored { Ok(values) } else { Err(Damaged) }
}

/// The CRC-32 of IEEE 802.3, reflected: polynomial EDB88320, with all bits changed over at the start and at the end.
fn crc(bytes: &[u8]) -> u32 {
    let shift = |crc: u32, _| (crc >> 1) ^ if crc & 1 == 0 { 0 } else { 0xedb8_8320 };
    !bytes.iter().fold(u32::MAX, |crc, byte| (0..8).fold(crc ^ u32::from(*byte), shift))
}
