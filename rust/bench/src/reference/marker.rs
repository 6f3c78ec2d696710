//! The marker's text on a sheet, a round file and a level.

use dimkhoros_sys::{LONGEST_TEXT, Round};

use super::arithmetic::Arithmetic;
use super::rounds::Verdict;
use super::sheet::{Sheet, load, word, words};
use super::text::Lines;

/// Puts the marker's text at the start of text and answers its length.
#[inline(never)]
pub fn mark<A: Arithmetic>(
    sheet: &[u8],
    file: &[u8],
    level: &[u8],
    text: &mut [u8; LONGEST_TEXT],
) -> usize {
    let mut lines = Lines::new(text);
    match load::<A>(sheet) {
        Err(number) => lines.numbered(b"sheet ", number),
        Ok(sheet) => match (records(&sheet, file), level) {
            (Err(number), _) => lines.numbered(b"file ", number),
            (Ok(records), &[level @ 1..=64]) => lines.rounds(&sheet, records, level),
            (Ok(_), _) => lines.numbered(b"level ", 25),
        },
    }
    lines.length
}

/// Whether the product of one K for each round is at least 2^level. It takes no
/// further factor once it is, and so stays below 2^80.
fn is_enough(challenges: u32, count: usize, level: u8) -> bool {
    let (mut product, wanted) = (1u128, 1u128 << level);
    for _ in 0..count {
        if product >= wanted {
            break;
        }
        product *= u128::from(challenges);
    }
    product >= wanted
}

/// The records of a round file, or the number 12.
pub fn records<'a, A>(sheet: &Sheet<A>, file: &'a [u8]) -> Result<&'a [u8], u32> {
    let (head, records) = file.split_first_chunk::<7>().ok_or(12u32)?;
    if head[..5] != *b"RND\x00\x01" {
        return Err(12);
    }
    let count = usize::from(u16::from_be_bytes([head[5], head[6]]));
    if count > 512 || records.len() != count * record_length(sheet) {
        return Err(12);
    }
    Ok(records)
}

/// How many bytes a record has.
pub fn record_length<A>(sheet: &Sheet<A>) -> usize {
    4 * (sheet.rows + 1 + sheet.columns)
}

/// The round of a record.
pub fn round<A>(sheet: &Sheet<A>, record: &[u8]) -> Round {
    let (commitment, rest) = record.split_at(4 * sheet.rows);
    Round { commitment: words(commitment), challenge: word(rest, 0), response: words(&rest[4..]) }
}

impl Lines<'_, LONGEST_TEXT> {
    /// The lines of a file that is read.
    fn rounds<A: Arithmetic>(&mut self, sheet: &Sheet<A>, records: &[u8], level: u8) {
        let records = records.chunks_exact(record_length(sheet));
        self.numbered(b"rounds ", records.len() as u32);
        let mut passed = is_enough(sheet.challenges, records.len(), level);
        for (number, record) in records.enumerate() {
            self.decimal(number as u32);
            match sheet.judge(&round(sheet, record)) {
                Ok(Verdict::Accepted) => self.word(b" accepted\n"),
                Ok(Verdict::Rejected(rows)) => {
                    passed = false;
                    self.rejected(rows);
                }
                Err(number) => {
                    passed = false;
                    self.numbered(b" refused ", number);
                }
            }
        }
        self.word(if passed { b"pass\n" } else { b"fail\n" });
    }

    /// The word and the rows of a mask, rising, and the end of the line.
    fn rejected(&mut self, rows: u32) {
        self.word(b" rejected");
        for row in (0..8).filter(|row| rows >> row & 1 == 1) {
            self.word(&[b' ', b'0' + row]);
        }
        self.word(b"\n");
    }
}
