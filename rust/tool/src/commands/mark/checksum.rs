//! The checksum that the command `cksum` prints (POSIX): a cyclic redundancy check of the bytes and of their count.

/// The checksum of some bytes.
pub fn of(bytes: &[u8]) -> u32 {
    let count = bytes.len().to_le_bytes();
    let used = count.iter().rposition(|byte| *byte != 0).map_or(0, |last| last + 1);
    !bytes.iter().chain(&count[..used]).fold(0, |sum, byte| step(sum, *byte))
}

/// The sum with a byte more.
fn step(sum: u32, byte: u8) -> u32 {
    let shifted = |sum: u32, _| match sum >> 31 {
        1 => sum << 1 ^ 0x04c1_1db7,
        _ => sum << 1,
    };
    (0..8).fold(sum ^ u32::from(byte) << 24, shifted)
}

#[cfg(test)]
mod tests {
    use super::of;

    /// What `cksum` prints for no bytes, for nine, and for 300 of which each is its place's low byte.
    #[test]
    fn sums_are_those_of_cksum() {
        let long: Vec<u8> = (0..300).map(|place| place as u8).collect();
        assert_eq!(
            [of(b""), of(b"123456789"), of(&long)],
            [4_294_967_295, 930_766_865, 3_300_625_067]
        );
    }
}
