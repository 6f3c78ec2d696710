//! The two versions of the round file.

/// A version of the round file. It says how wide a challenge is stored.
#[derive(Clone, Copy, Debug, PartialEq, Eq)]
pub(crate) enum Version {
    /// Version 1 stores a challenge in 32 bits.
    One,
    /// Version 2 stores a challenge in 16 bits.
    Two,
}

impl Version {
    /// The version with this number, if there is one.
    ///
    /// The number is taken whole. It is never cut to the 16 bits that the
    /// file has for it, so 65,537 is no version.
    pub(crate) fn numbered(number: u64) -> Option<Version> {
        match number {
            1 => Some(Version::One),
            2 => Some(Version::Two),
            _ => None,
        }
    }

    /// The version's number, as the file holds it.
    pub(crate) fn number(self) -> u16 {
        match self {
            Version::One => 1,
            Version::Two => 2,
        }
    }

    /// The version that a converter turns this one into.
    pub(crate) fn other(self) -> Version {
        match self {
            Version::One => Version::Two,
            Version::Two => Version::One,
        }
    }

    /// How many bytes a stored challenge has.
    pub(crate) fn challenge_length(self) -> usize {
        match self {
            Version::One => 4,
            Version::Two => 2,
        }
    }

    /// The stored bytes of a challenge, or 15 when it is wider than they are.
    ///
    /// Only version 2 refuses, a challenge above 65,535.
    pub(crate) fn stored(self, challenge: u32) -> Result<Vec<u8>, u32> {
        match self {
            Version::One => Ok(challenge.to_be_bytes().to_vec()),
            Version::Two => match u16::try_from(challenge) {
                Ok(narrow) => Ok(narrow.to_be_bytes().to_vec()),
                Err(_) => Err(15),
            },
        }
    }
}
