//! The fields of sheets and round files by their offsets, each with its value.

use crate::sheets::notation::{coordinate, counted, numbered};
use crate::sheets::{order_letter, row_count, with_ones};
use dimkhoros::{EMPTY_FILE, Header, Instance, ROOT};

/// How many bytes stand before the entries of a sheet.
pub const SHEET_HEADER: usize = 20;

/// The number of so many bytes at an offset, high byte first. Bytes that are not there are none.
pub fn number(bytes: &[u8], offset: usize, width: usize) -> usize {
    let found = bytes.iter().skip(offset).take(width);
    found.fold(0, |number, byte| number << 8 | usize::from(*byte))
}

/// The mark at the start of a file.
pub fn mark(bytes: &[u8]) -> String {
    format!("the mark \"{}\"", bytes[..bytes.len().min(3)].escape_ascii())
}

/// What a file is by its mark where it has another one than this, as it stands behind a line that says that it is refused.
pub fn instead(bytes: &[u8], mark: &[u8; 3]) -> &'static str {
    match bytes.get(..3) {
        found if found == Some(mark) => "",
        Some(b"HOM") => "; it is a sheet",
        Some(b"RND") => "; it is a round file",
        Some(b"PAT") => "; it is a pattern file",
        _ => "",
    }
}

/// What stands at an offset of a sheet, such as `K = 12`.
pub fn in_sheet(sheet: &[u8], offset: usize) -> String {
    let at = |width| number(sheet, offset, width);
    match offset {
        0 => mark(sheet),
        3 => format!("version {}", at(2)),
        5 => format!("kind {}", at(1)),
        6 => format!("m = {}", at(4)),
        10 => format!("{} = {}", order_letter(&sheet_header(sheet)), at(4)),
        14 => format!("K = {}", at(4)),
        18 => counted(at(1), "row"),
        19 => counted(at(1), "column"),
        _ => entry_or_statement(sheet, offset),
    }
}

/// The entry or the statement value at an offset of a sheet.
fn entry_or_statement(sheet: &[u8], offset: usize) -> String {
    let header = sheet_header(sheet);
    let (rows, columns) = (header.rows as usize, header.columns as usize);
    let entries = if header.kind == ROOT { 0 } else { rows * columns };
    let place = offset.saturating_sub(SHEET_HEADER) / 4;
    let value = number(sheet, offset, 4);
    match place.checked_sub(entries) {
        Some(row) => in_row("z", value, row, rows),
        None => {
            let column = numbered("x", columns, place % columns);
            format!("entry {value} of row {} and column {column}", place / columns)
        }
    }
}

/// A value of a row, such as `z = 5`, or `z = 5 in row 1` where there are several rows.
fn in_row(letter: &str, value: usize, row: usize, rows: usize) -> String {
    match rows {
        1 => format!("{letter} = {value}"),
        _ => format!("{letter} = {value} in row {row}"),
    }
}

/// The header of a sheet, as far as its bytes go.
pub fn sheet_header(sheet: &[u8]) -> Header {
    let field = |offset, width| number(sheet, offset, width) as u32;
    Header {
        kind: field(5, 1),
        modulus: field(6, 4),
        order: field(10, 4),
        challenges: field(14, 4),
        rows: field(18, 1),
        columns: field(19, 1),
    }
}

/// How many bytes a sheet has to have by its header: those of the sheet that the library makes with ones in all places.
pub fn sheet_length(sheet: &[u8]) -> Option<usize> {
    with_ones(sheet_header(sheet)).ok().map(|sheet| sheet.bytes().len())
}

/// The version and the count in the header of a round file, where it has one.
pub fn round_header(file: &[u8]) -> Option<[usize; 2]> {
    (file.len() >= EMPTY_FILE).then(|| [number(file, 3, 2), number(file, 5, 2)])
}

/// What stands at an offset of the header of a round file or of its first round, such as `c = 11`.
pub fn in_rounds(sheet: &Instance, file: &[u8], offset: usize) -> String {
    let rows = row_count(sheet);
    let challenge = EMPTY_FILE + 4 * rows;
    // In version 2 a challenge has two bytes.
    let width = if number(file, 3, 2) == 2 { 2 } else { 4 };
    match offset {
        0 => mark(file),
        3 => format!("version {}", number(file, 3, 2)),
        5 => counted(number(file, 5, 2), "round"),
        _ if offset < challenge => {
            let row = offset.saturating_sub(EMPTY_FILE) / 4;
            in_row("t", number(file, offset, 4), row, rows)
        }
        _ if offset == challenge => format!("c = {}", number(file, offset, width)),
        _ => {
            let column = offset.saturating_sub(challenge + width) / 4;
            format!("{} = {}", coordinate(sheet, "r", column), number(file, offset, 4))
        }
    }
}
