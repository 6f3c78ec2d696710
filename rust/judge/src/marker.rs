//! The marker's text.

use crate::protocol::{Rows, Verdict, row_numbers, tested_verdict};
use crate::round_file::{file_header, file_round};
use crate::sheet::load;

/// The level w of a level file, or 25 when it is not one byte from 1 to 64.
fn file_level(level: &[u8]) -> Result<u32, u32> {
    match level {
        [w @ 1..=64] => Ok(u32::from(*w)),
        _ => Err(25),
    }
}

/// Whether the product of one K per round, 1 for no rounds, is at least 2^w.
///
/// A product that has reached 2^w takes no more factors, since none is below
/// 2. One that has not is below 2^64, and by 8 no K is above 2^16. So the
/// product stays below 2^80.
fn is_enough(count: u32, challenges: u32, w: u32) -> bool {
    let wanted = 1_u128 << w;
    let mut product = 1_u128;
    for _ in 0..count {
        if product < wanted {
            product *= u128::from(challenges);
        }
    }
    product >= wanted
}

/// The words on a rejected round: `rejected` and the numbers of the rows that
/// differ, rising, with one space between.
fn rejected(rows: &Rows) -> String {
    let mut words = String::from("rejected");
    for row in row_numbers(rows) {
        words += &format!(" {row}");
    }
    words
}

/// Answers the marker's text for the bytes of a sheet, of a round file and of
/// a level file. A file that is missing or can't be read is one of no bytes.
///
/// A refused sheet gives the one line `sheet N`, a refused round file the one
/// line `file N` and a refused level the one line `level 25`, the first of
/// them that applies. Otherwise the text has the count of rounds, a line for
/// each round and then `pass` or `fail`. It is `pass` when every round is
/// accepted and the product of one K per round is at least 2^w. It refuses
/// nothing itself.
pub fn marker(sheet: &[u8], file: &[u8], level: &[u8]) -> String {
    // Decision: every line, the last one too, ends in one line feed.
    let sheet = match load(sheet) {
        Ok(sheet) => sheet,
        Err(number) => return format!("sheet {number}\n"),
    };
    let count = match file_header(&sheet, file) {
        Ok(header) => header.count,
        Err(number) => return format!("file {number}\n"),
    };
    // Decision: a refused level is "the one line", so no round is shown, also
    // where a round is rejected or refused and the file fails at every level.
    let w = match file_level(level) {
        Ok(w) => w,
        Err(number) => return format!("level {number}\n"),
    };
    let mut text = format!("rounds {count}\n");
    let mut passes = is_enough(count, sheet.challenges, w);
    for number in 0..count {
        let round = file_round(&sheet, file, u64::from(number));
        let verdict = round.and_then(|round| tested_verdict(&sheet, &round));
        let words = match verdict {
            Ok(Verdict::Accepted) => String::from("accepted"),
            Ok(Verdict::Rejected(rows)) => rejected(&rows),
            Ok(Verdict::Refused(refusal)) | Err(refusal) => format!("refused {refusal}"),
        };
        passes = passes && verdict == Ok(Verdict::Accepted);
        text += &format!("{number} {words}\n");
    }
    text += if passes { "pass\n" } else { "fail\n" };
    text
}
