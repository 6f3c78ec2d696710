//! The reason: one line for a student who was turned down.

use crate::bytes::number;
use crate::protocol::{Round, Rows, Verdict, row_numbers, sides, tested_verdict};
use crate::round_file::{self, Version, file_header, file_round, named_version};
use crate::sheet::{self, Sheet, header, load};

/// The place of the first value that breaks a rule.
enum Place {
    /// The offset of the value's first byte in the file that holds it.
    Offset(usize),
    /// The length found, where the length is the fault.
    Length(usize),
}

/// Answers one line on the bytes of a sheet and of a round file: on the sheet,
/// on the file or on its round 0. It reads no level and refuses nothing itself.
///
/// The line is `refused`, the number and the offset of the first value that
/// breaks that rule, or the word `length` and the length found instead of an
/// offset. Otherwise it is `rejected` and each differing row, rising, with its
/// two sides after it, `[r]` first. Otherwise it is `accepted`.
pub fn reason(sheet: &[u8], file: &[u8]) -> String {
    let loaded = match load(sheet) {
        Ok(loaded) => loaded,
        Err(number) => return refused(number, sheet_place(number, sheet)),
    };
    let version = match file_header(&loaded, file) {
        Ok(header) => header.version,
        Err(number) => return refused(number, file_place(file)),
    };
    let round = match file_round(&loaded, file, 0) {
        Ok(round) => round,
        // Only 13 is left here. The card gives it the count's offset.
        Err(number) => return refused(number, Place::Offset(5)),
    };
    match tested_verdict(&loaded, &round) {
        Ok(Verdict::Accepted) => String::from("accepted\n"),
        Ok(Verdict::Rejected(rows)) => rejected(&loaded, &round, &rows),
        Ok(Verdict::Refused(number)) | Err(number) => {
            let offset = round_offset(number, &loaded, version, &round);
            refused(number, Place::Offset(offset))
        }
    }
}

/// The line of a refusal.
fn refused(number: u32, place: Place) -> String {
    match place {
        Place::Offset(offset) => format!("refused {number} {offset}\n"),
        Place::Length(length) => format!("refused {number} length {length}\n"),
    }
}

/// The line of a round that was rejected in these rows.
fn rejected(sheet: &Sheet, round: &Round, rows: &Rows) -> String {
    // Decision: card 1 wants one line, so all the rows stand on it.
    let sides = sides(sheet, &round.commitment, round.challenge, &round.response);
    let mut line = String::from("rejected");
    for row in row_numbers(rows) {
        let (left, right) = sides[row];
        line += &format!(" {row} {left} {right}");
    }
    line + "\n"
}

/// The place in a sheet that was refused by this number, 2 to 11.
fn sheet_place(number: u32, sheet: &[u8]) -> Place {
    let offset = match number {
        2 if sheet.len() < sheet::HEADER => return Place::Length(sheet.len()),
        2 => 0,
        3 => 3,
        4 => 5,
        5 => 6,
        6 => 10,
        // Decision: a row count outside 1 to 8 is the first value to break 7,
        // also in kind 2 where the columns differ from it. Rows in range leave
        // the columns, and unequal ones show 19 by the card.
        7 if !(1..=8).contains(&sheet[18]) => 18,
        7 => 19,
        8 => 14,
        9 => return Place::Length(sheet.len()),
        _ => stranger_offset(sheet),
    };
    Place::Offset(offset)
}

/// The offset of the first entry or statement value that is no group element,
/// in a sheet that was refused by 10 or 11.
///
/// The entries stand before the statement. So with 10 it is the first such
/// entry, and with 11, where every entry is a group element, the first such
/// statement value.
fn stranger_offset(sheet: &[u8]) -> usize {
    let fields = header(sheet);
    let mut at = sheet::HEADER;
    while fields.is_group_element(number(sheet, at, 4)) {
        at += 4;
    }
    at
}

/// The place in a round file that was refused by 12.
fn file_place(file: &[u8]) -> Place {
    if file.len() < round_file::HEADER {
        Place::Length(file.len())
    } else if !file.starts_with(round_file::MARK) {
        Place::Offset(0)
    } else if named_version(file).is_none() {
        Place::Offset(3)
    } else if number(file, 5, 2) > round_file::MOST_ROUNDS {
        Place::Offset(5)
    } else {
        Place::Length(file.len())
    }
}

/// The offset in a file of this version of the first value of round 0 that
/// breaks the rule with this number, 14 to 16.
fn round_offset(number: u32, sheet: &Sheet, version: Version, round: &Round) -> usize {
    let (element, slot) =
        (|v: &&u32| sheet.is_group_element(**v), |v: &&u32| sheet.is_domain_slot(**v));
    // The values of a record are t, c and r. Those of t and r have 4 bytes
    // each, and the version says how many c has.
    let challenge = round_file::HEADER + 4 * sheet.s();
    match number {
        14 => round_file::HEADER + 4 * round.commitment.iter().take_while(element).count(),
        15 => challenge,
        _ => {
            let before = round.response.iter().take_while(slot).count();
            challenge + version.challenge_length() + 4 * before
        }
    }
}
