//! Stored numbers, high byte first, and places beyond the ones in use.

/// The unsigned number in the `size` bytes from `at` on, with `size` at most 4.
///
/// Callers test the length first. A byte past the end adds nothing.
pub(crate) fn number(bytes: &[u8], at: usize, size: usize) -> u32 {
    let stored = bytes.iter().skip(at).take(size);
    stored.fold(0, |sum, byte| (sum << 8) | u32::from(*byte))
}

/// Writes `result` at the start of the lent buffer and answers its length.
///
/// Refuses with 22 when the buffer is shorter. No byte after it changes.
pub(crate) fn put(result: &[u8], buffer: &mut [u8]) -> Result<usize, u32> {
    let Some(start) = buffer.get_mut(..result.len()) else {
        return Err(22);
    };
    start.copy_from_slice(result);
    Ok(result.len())
}

/// The first `used` of eight places, with 0 in the others.
pub(crate) fn first(values: &[u32; 8], used: usize) -> [u32; 8] {
    let mut kept = [0; 8];
    for (place, value) in kept.iter_mut().zip(values).take(used) {
        *place = *value;
    }
    kept
}
