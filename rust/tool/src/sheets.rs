//! Sheets as commands take them, and what is said of them and of their rounds.

pub mod allowed;
pub mod as_json;
pub mod brought;
pub mod causes;
pub mod commitments;
pub mod course;
pub mod draw;
pub mod equation;
pub mod faults;
pub mod folder;
pub mod judged;
pub mod levels;
pub mod notation;
pub mod proposed;
pub mod round_table;
pub mod round_words;
pub mod small;
pub mod witness;

use crate::command_line::failure::{Failure, Outcome};
use crate::command_line::files;
use crate::command_line::words::{Value, Words};
use brought::Brought;
use dimkhoros::{
    Header, Instance, PLACES, Places, Prover, ROOT, Refusal, Round, RoundFile, Values,
};
use notation::counted;
use std::path::Path;

/// The largest challenge count of all.
pub const MOST_CHALLENGES: u32 = 65_536;

/// The sheet in a file. A bad one fails with what is wrong and where.
pub fn load(path: &Path) -> Outcome<Instance> {
    of_bytes(path, &files::read(path)?)
}

/// The sheet in these bytes, which were read from a path. A bad one fails with what is wrong and where.
pub fn of_bytes(path: &Path, bytes: &[u8]) -> Outcome<Instance> {
    let fault = |refusal| {
        let allowed = allowed::by(refusal, &faults::sheet_header(bytes));
        let instead = faults::instead(bytes, b"HOM");
        Failure::failed(faults::of_sheet(&files::name(path), bytes, &(allowed + instead)))
    };
    Instance::load(bytes).map_err(fault)
}

/// The round file of a sheet in these bytes, which were read from a path.
pub fn rounds<'a>(sheet: &'a Instance, path: &Path, bytes: &'a [u8]) -> Outcome<RoundFile<'a>> {
    let fault = |_| Failure::failed(faults::of_rounds(&files::name(path), sheet, bytes));
    RoundFile::open(sheet, bytes).map_err(fault)
}

/// The round of a number in a round file of a name.
pub fn round(file: &RoundFile<'_>, number: usize, name: &str) -> Outcome<Round> {
    let what = || format!("{name} has {}, and no round {number}", counted(file.count(), "round"));
    file.read(number).map_err(|refusal| Failure::cause(refusal, what()))
}

/// Reads the sheet and the round file that are the first two plain words, and goes on with them and the file's path.
pub fn with_rounds<T>(
    words: &Words,
    then: impl FnOnce(&Instance, &Path, &RoundFile<'_>) -> Outcome<T>,
) -> Outcome<T> {
    let (sheet, path) = (load(&words.path(0))?, words.path(1));
    let bytes = files::read(&path)?;
    then(&sheet, &path, &rounds(&sheet, &path, &bytes)?)
}

/// The round of a Peggy with this witness and nonce.
pub fn honest(
    sheet: &Instance,
    witness: &Places,
    nonce: &Places,
    challenge: u32,
) -> Result<Round, Refusal> {
    let (peggy, commitment) = Prover::new().commit(sheet, nonce)?;
    let (_, response) = peggy.respond(sheet, challenge, witness)?;
    Ok(Round { commitment, challenge, response })
}

/// How many rows a sheet has.
pub fn row_count(sheet: &Instance) -> usize {
    sheet.values().header.rows as usize
}

/// How many columns a sheet has.
pub fn column_count(sheet: &Instance) -> usize {
    sheet.values().header.columns as usize
}

/// The letter of the order or exponent in a header.
pub fn order_letter(header: &Header) -> &'static str {
    match header.kind {
        ROOT => "e",
        _ => "q",
    }
}

/// The sheet with a header and with ones for all entries and for the statement, which are elements of every group.
pub fn with_ones(header: Header) -> Result<Instance, Refusal> {
    Instance::encode(&Values { header, entries: [[1; PLACES]; PLACES], statement: [1; PLACES] })
}

/// The largest challenge count with which a sheet is not refused for it. What is refused for one is refused for all above.
pub fn largest(sheet: impl Fn(u32) -> Result<Instance, Refusal>) -> u32 {
    let (mut taken, mut refused) = (2, MOST_CHALLENGES + 1);
    while refused - taken > 1 {
        let middle = taken.midpoint(refused);
        match sheet(middle) {
            Err(Refusal::Challenges) => refused = middle,
            _ => taken = middle,
        }
    }
    taken
}

/// The largest challenge count that the order or exponent in a header allows.
pub fn largest_of(header: &Header) -> u32 {
    largest(|challenges| with_ones(Header { challenges, ..*header }))
}

/// A value for each row of a sheet.
pub fn by_row(sheet: &Instance, value: &Value) -> Outcome<Places> {
    in_places(value, row_count(sheet), "row")
}

/// A value for each column of a sheet.
pub fn by_column(sheet: &Instance, value: &Value) -> Outcome<Places> {
    in_places(value, column_count(sheet), "column")
}

/// The image of coordinates that are called by a letter, or refusal 16.
pub fn image(sheet: &Instance, letter: &str, coordinates: &Places) -> Outcome<Places> {
    let brought = || [Brought::coordinates(sheet, letter, coordinates)];
    sheet.image(coordinates).map_err(|refusal| brought::refused(refusal, &brought()))
}

/// Exactly so many numbers, in places.
pub fn in_places(value: &Value, count: usize, of: &str) -> Outcome<Places> {
    let (letter, numbers) = (value.letter, value.numbers()?);
    if numbers.len() != count {
        let (wanted, found) = (counted(count, of), counted(numbers.len(), "value"));
        return Err(Failure::words(format!(
            "{letter}= takes a value for each {of}: the sheet has {wanted}, and {letter}= has {found}"
        )));
    }
    let mut places = [0; PLACES];
    places[..count].copy_from_slice(numbers);
    Ok(places)
}
