//! Random numbers, from the system.

use std::fs::File;
use std::io::{self, Read};

/// A random number of 32 bits. From Linux 5.6 on this file waits until the system's generator is ready, and only until then;
/// `/dev/urandom` answers before.
fn random_word() -> io::Result<u32> {
    let mut bytes = [0; 4];
    File::open("/dev/random")?.read_exact(&mut bytes)?;
    Ok(u32::from_ne_bytes(bytes))
}

/// A random number below a bound, each as likely as any other. The highest words, which are too few for one more run of the
/// bound, are drawn again: the remainders of all words would have the low numbers more often.
pub fn random_below(bound: u32) -> io::Result<u32> {
    let words = 1u64 << 32;
    let whole = words - words % u64::from(bound);
    loop {
        let word = random_word()?;
        if u64::from(word) < whole {
            return Ok(word % bound);
        }
    }
}
