//! Bytes in the vectors: pairs of hexadecimal digits. `-` is no bytes,
//! `PIECE*COUNT` a piece so many times, and a dot stands between pieces.

use crate::printing::hex;

/// The least run of one byte that is written as a piece and a count.
const RUN: usize = 16;

/// The most bytes that a text may stand for.
const MOST: usize = 1 << 20;

/// The bytes that a text stands for.
pub fn read(text: &str) -> Result<Vec<u8>, String> {
    let mut bytes = Vec::new();
    if text == "-" {
        return Ok(bytes);
    }
    for piece in text.split('.') {
        let (digits, count) = piece.split_once('*').unwrap_or((piece, "1"));
        let repeated = pairs(digits).zip(count.parse().ok());
        let (repeated, count) = repeated.ok_or_else(|| format!("{piece} is no bytes"))?;
        if repeated.len().saturating_mul(count) > MOST {
            return Err(format!("{piece} is too long"));
        }
        bytes.extend(repeated.repeat(count));
    }
    Ok(bytes)
}

/// The bytes of pairs of digits.
fn pairs(digits: &str) -> Option<Vec<u8>> {
    let digits = digits.as_bytes();
    if digits.is_empty() || digits.len() % 2 != 0 {
        return None;
    }
    let digit = |digit: u8| char::from(digit).to_digit(16);
    let byte = |pair: &[u8]| Some((16 * digit(pair[0])? + digit(pair[1])?) as u8);
    digits.chunks(2).map(byte).collect()
}

/// The text of bytes. A run of 16 or more is a piece of its own.
pub fn text(bytes: &[u8]) -> String {
    let mut pieces: Vec<String> = Vec::new();
    let mut joined = false;
    for run in bytes.chunk_by(|a, b| a == b) {
        if run.len() >= RUN {
            pieces.push(format!("{:02x}*{}", run[0], run.len()));
            joined = false;
            continue;
        }
        match pieces.last_mut() {
            Some(piece) if joined => *piece += &hex(run),
            _ => pieces.push(hex(run)),
        }
        joined = true;
    }
    if pieces.is_empty() {
        return "-".to_string();
    }
    pieces.join(".")
}

#[cfg(test)]
mod tests {
    use super::*;

    #[test]
    fn a_text_reads_back() {
        let long = [vec![1, 2], vec![0; 16], vec![3], vec![0; 15], vec![4; 40]].concat();
        for bytes in [Vec::new(), vec![0xab], vec![7; 300], long] {
            assert_eq!(read(&text(&bytes)), Ok(bytes));
        }
        assert_eq!(text(&[[1; 1].as_slice(), &[0; 16]].concat()), "01.00*16");
        assert_eq!(read("00ff*2.1F"), Ok(vec![0, 255, 0, 255, 31]));
    }

    #[test]
    fn other_texts_are_refused() {
        for text in ["", "0", "0g", "00..00", "00*", "*3", "00*-1", "00*9999999"] {
            assert!(read(text).is_err(), "{text}");
        }
    }
}
