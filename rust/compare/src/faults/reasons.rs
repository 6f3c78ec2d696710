//! Faults of the reason.

use crate::faults::Fault;
use crate::faults::rows::{reason_rows, told_rows};
use crate::files::{record_in, version, width};
use crate::groups::Group;
use crate::library::LONGEST_REASON;
use crate::library::Library::Judge;

/// A line, by its parts: a refusal's number with an offset or a length, a
/// rejected round's rows, each with its two sides.
enum Line {
    At(u32, usize),
    Length(u32, usize),
    Rejected(Vec<[u32; 3]>),
    Accepted,
}

impl Line {
    /// The judge's line on these bytes.
    fn of(sheet: &[u8], file: &[u8]) -> Line {
        let mut text = [0; LONGEST_REASON];
        let length = Judge.reason(sheet, file, &mut text);
        let text = String::from_utf8_lossy(&text[..length]);
        let numbers: Vec<usize> =
            text.split_whitespace().filter_map(|word| word.parse().ok()).collect();
        match numbers[..] {
            [number, found] if text.contains("length") => Line::Length(number as u32, found),
            [number, offset] => Line::At(number as u32, offset),
            [] => Line::Accepted,
            _ => {
                let rows = numbers.chunks_exact(3);
                let rows = rows.map(|row| [row[0], row[1], row[2]].map(|word| word as u32));
                Line::Rejected(rows.collect())
            }
        }
    }

    fn text(self, fault: Fault) -> String {
        match self {
            Line::At(number, offset) => format!("refused {number} {offset}\n"),
            Line::Length(number, found) => format!("refused {number} length {found}\n"),
            Line::Rejected(rows) => format!("rejected {}\n", told_rows(fault, &rows)),
            Line::Accepted => String::from("accepted\n"),
        }
    }
}

pub fn reason(fault: Fault, sheet: &[u8], file: &[u8], text: &mut [u8; LONGEST_REASON]) -> usize {
    let right = Line::of(sheet, file);
    let mut line = match right {
        Line::At(2..=11, _) | Line::Length(2..=11, _) => of_sheet(fault, right, sheet, file),
        Line::At(12 | 13, _) | Line::Length(..) => of_file(fault, right, sheet, file),
        _ => of_round(fault, right, sheet, file),
    }
    .text(fault);
    if fault == Fault::ReasonNoEnd {
        line.pop();
    }
    text[..line.len()].copy_from_slice(line.as_bytes());
    if let (Fault::ReasonByteAfter, Some(byte)) = (fault, text.get_mut(line.len())) {
        *byte = 0;
    }
    line.len()
}

/// The faulty line on a sheet that is refused.
fn of_sheet(fault: Fault, right: Line, sheet: &[u8], file: &[u8]) -> Line {
    let byte = |place: usize| sheet.get(place).map_or(0, |byte| usize::from(*byte));
    let (kind, rows, columns) = (byte(5), byte(18), byte(19));
    match (fault, right) {
        (Fault::ReasonFileFirst, _) if file.len() < 7 => Line::Length(12, file.len()),
        (Fault::ReasonMarkFirst, Line::Length(2, _)) if !begins(sheet, b"HOM") => Line::At(2, 0),
        (Fault::ReasonUnequalRows, Line::At(7, 19)) if (1..=8).contains(&columns) => {
            Line::At(7, 18)
        }
        (Fault::ReasonColumnsFirst, Line::At(7, 18)) if !(1..=8).contains(&columns) => {
            Line::At(7, 19)
        }
        (Fault::ReasonOrder, Line::At(8, _)) => Line::At(8, 10),
        (Fault::ReasonLengthKept, Line::Length(9, found)) => Line::Length(9, found.min(309)),
        (Fault::ReasonLastEntry, Line::At(10, _)) => {
            Line::At(10, last_stranger(sheet, sheet, 20, rows * columns))
        }
        (Fault::ReasonEntryByRows, Line::At(10, offset)) => {
            let place = (offset - 20) / 4;
            let (i, j) = (place / columns, place % columns);
            Line::At(10, 20 + 4 * (rows * i + j))
        }
        (Fault::ReasonRootEntries, Line::At(11, offset)) if kind == 2 => {
            Line::At(11, offset + 4 * rows * columns)
        }
        (_, right) => right,
    }
}

/// The faulty line on a file that is refused.
fn of_file(fault: Fault, right: Line, sheet: &[u8], file: &[u8]) -> Line {
    let fits = |record: usize| (file.len() - 7) % record == 0;
    match (fault, right) {
        (Fault::ReasonMarkFirst, Line::Length(_, 0..7)) if !begins(file, b"RND") => Line::At(12, 0),
        (Fault::ReasonLengthFirst, Line::At(12, _))
            if !fits(record_in(&Judge.load(sheet).header, file)) =>
        {
            Line::Length(12, file.len())
        }
        (Fault::ReasonCountFirst, Line::Length(_, 7..)) => Line::At(12, 5),
        (Fault::ReasonLengthKept, Line::Length(_, found)) => Line::Length(12, found.min(34_824)),
        (Fault::ReasonNoRounds, Line::At(13, _)) => Line::Accepted,
        (_, right) => right,
    }
}

/// The faulty line on round 0.
fn of_round(fault: Fault, right: Line, sheet: &[u8], file: &[u8]) -> Line {
    let header = Judge.load(sheet).header;
    let (rows, columns) = (header.rows as usize, header.columns as usize);
    match (fault, right) {
        (Fault::ReasonFromRecord, Line::At(number, offset)) => Line::At(number, offset - 7),
        (Fault::ReasonLowByte, Line::At(number, offset)) => Line::At(number, offset + 3),
        (Fault::ReasonLastCommitment, Line::At(14, _)) => {
            Line::At(14, last_stranger(sheet, file, 7, rows))
        }
        (Fault::ReasonChallengeLast, Line::At(15, _)) => Line::At(15, 7 + 4 * (rows + columns)),
        (Fault::ReasonResponseFirst, Line::At(16, offset)) => {
            Line::At(16, offset - width(version(file)))
        }
        (Fault::ReasonWide, Line::At(16, offset)) => {
            Line::At(16, offset + 4 - width(version(file)))
        }
        (Fault::ReasonVersionOne, _) if version(file) == 2 => Line::At(12, 3),
        (Fault::ReasonLastRound, _) => {
            let last = &file[file.len() - record_in(&header, file)..];
            Line::of(sheet, &[&file[..5], &[0, 1], last].concat())
        }
        (_, Line::Rejected(told)) => {
            let response = Judge.read(sheet, file, 0).round.response;
            let image = Judge.simulate(sheet, 0, &response).values;
            reason_rows(fault, told, &image[..rows]).map_or(Line::Accepted, Line::Rejected)
        }
        (_, right) => right,
    }
}

/// Whether the bytes, as far as they go, are those of the mark.
fn begins(bytes: &[u8], mark: &[u8; 3]) -> bool {
    bytes.iter().zip(mark).all(|(byte, other)| byte == other)
}

/// The offset of the last of so many values from `start` on that is no group
/// element of the sheet.
fn last_stranger(sheet: &[u8], bytes: &[u8], start: usize, count: usize) -> usize {
    let word = |bytes: &[u8], at: usize| {
        let four = bytes[at..].first_chunk().copied().unwrap_or_default();
        u32::from_be_bytes(four)
    };
    let group = Group::new(u32::from(sheet[5]), word(sheet, 6), word(sheet, 10));
    let offsets = (0..count).rev().map(|place| start + 4 * place);
    let mut strangers = offsets.filter(|at| !group.is_element(word(bytes, *at)));
    strangers.next().unwrap_or(start)
}
