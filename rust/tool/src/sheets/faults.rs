//! What is wrong with a file, and where.

mod fields;
mod patterns;
mod rules;
#[cfg(test)]
mod tests;

pub use fields::{instead, round_header, sheet_header};

use crate::command_line::failure::numbered;
use crate::sheets::causes;
use crate::sheets::notation::counted;
use dimkhoros::{
    EMPTY_FILE, Header, Instance, LONGEST_REASON, PLACES, Pattern, Patterns, Plan, Refusal, Round,
    RoundFile, RoundWriter, reason,
};
use std::fmt;

/// A refusal with what breaks its rule.
#[derive(Clone, Debug, PartialEq)]
pub struct Fault {
    /// The refusal.
    pub refusal: Refusal,
    /// What breaks its rule.
    pub found: Found,
    /// The cause that applies, if the refusal has several and more than the value is needed to tell.
    pub cause: Option<String>,
}

/// What breaks a rule.
#[derive(Clone, Debug, PartialEq)]
pub enum Found {
    /// The length of the file.
    Length {
        /// How many bytes it has.
        found: usize,
        /// How many it has to have, and why, such as `3 rounds of this sheet make 43`.
        needed: String,
    },
    /// The value at an offset.
    Value {
        /// The offset of its first byte.
        offset: usize,
        /// The value with its field, as it is printed, such as `K = 12`.
        value: String,
    },
}

impl Fault {
    /// The same fault, with this length if it is by the length.
    pub fn of_length(mut self, length: usize) -> Fault {
        if let Found::Length { found, .. } = &mut self.found {
            *found = length;
        }
        self
    }
}

impl Fault {
    /// What is wrong with the file of a name, what the rule allows, and the number of the refusal, in a line.
    pub fn told(&self, name: &str, allowed: &str) -> String {
        let Fault { refusal, found, cause } = self;
        let rule = match (found, cause) {
            (Found::Length { .. }, _) => {
                return numbered(*refusal, format!("{name} has {found}{allowed}"));
            }
            (_, Some(cause)) => cause.clone(),
            (Found::Value { offset, value }, None) => rules::of(*refusal, *offset, value),
        };
        numbered(*refusal, format!("{name}: {found}: {rule}{allowed}"))
    }
}

impl fmt::Display for Found {
    fn fmt(&self, f: &mut fmt::Formatter<'_>) -> fmt::Result {
        match self {
            Found::Length { found, needed } => {
                write!(f, "{}, and {needed}", counted(*found, "byte"))
            }
            Found::Value { offset, value } => write!(f, "{value} at byte {offset}"),
        }
    }
}

/// What is wrong with a sheet of a name that does not load, in a line that also says what is allowed.
pub fn of_sheet(name: &str, sheet: &[u8], allowed: &str) -> String {
    in_sheet(sheet).map_or_else(String::new, |fault| fault.told(name, allowed))
}

/// What is wrong with a round file of a name and a sheet, or with its first round, in a line.
pub fn of_rounds(name: &str, sheet: &Instance, file: &[u8]) -> String {
    let allowed = instead(file, b"RND");
    in_rounds(sheet, file).map_or_else(String::new, |fault| fault.told(name, allowed))
}

/// The fault of a sheet that does not load.
pub fn in_sheet(sheet: &[u8]) -> Option<Fault> {
    let told = told(sheet, &[]).filter(|told| told.refusal.number() < Refusal::File.number())?;
    let length = fields::sheet_length(sheet).filter(|_| told.refusal == Refusal::SheetLength);
    let needed = match length {
        Some(length) => format!("its header asks for {length}"),
        None => format!("the header of a sheet has {}", fields::SHEET_HEADER),
    };
    let fault = told.fault(needed, |offset| fields::in_sheet(sheet, offset));
    Some(Fault { cause: of_header(fault.refusal, &sheet_header(sheet)), ..fault })
}

/// The cause of a refusal by the counts in a sheet's header.
fn of_header(refusal: Refusal, header: &Header) -> Option<String> {
    match refusal {
        Refusal::Shape => {
            let [_, why] =
                causes::shape([header.rows, header.columns].map(|count| count as usize), "column");
            Some(why)
        }
        Refusal::Challenges => Some(causes::challenges(header)),
        _ => None,
    }
}

/// The fault of a round file of a sheet, or of its first round.
pub fn in_rounds(sheet: &Instance, file: &[u8]) -> Option<Fault> {
    let told = told(sheet.bytes(), file)?;
    let needed = match file_length(sheet, file) {
        Some((count, length)) => {
            let (rounds, make) =
                (counted(count, "round"), if count == 1 { "makes" } else { "make" });
            format!("{rounds} of this sheet {make} {length}")
        }
        None => format!("the header of a round file has {EMPTY_FILE}"),
    };
    Some(told.fault(needed, |offset| fields::in_rounds(sheet, file, offset)))
}

/// The fault of the header of a round file whose sheet is not known. The library tells it in the same way with every sheet.
pub fn in_round_header(file: &[u8]) -> Option<Fault> {
    let plan = Plan {
        pattern: Pattern::Schnorr.number(),
        modulus: 3,
        order: 2,
        challenges: 2,
        values: &[1],
        statement: &[1],
    };
    let sheet = Instance::from_pattern(&Patterns::shipped(), &plan).ok()?;
    let told = in_rounds(&sheet, file).filter(|fault| fault.refusal == Refusal::File)?;
    // A length that does not fit this sheet may fit another.
    let of_header = match told.found {
        Found::Length { found, .. } => found < EMPTY_FILE,
        Found::Value { .. } => true,
    };
    of_header.then_some(told)
}

/// The fault of a round in a round file. The library tells that of a file's first round, so the round is put alone in a file.
pub fn in_round(sheet: &Instance, file: &RoundFile<'_>, number: usize) -> Option<Fault> {
    let mut buffer = [0; LONGEST_ROUND];
    let alone = alone(sheet, file.version(), &file.read(number).ok()?, &mut buffer).ok()?;
    let mut fault = in_rounds(sheet, alone)?;
    if let Found::Value { offset, .. } = &mut fault.found {
        *offset += number * (alone.len() - EMPTY_FILE);
    }
    Some(fault)
}

/// The library's line on a round of a file as if it were the first one, but with the offset that a value has in this file.
pub fn line(sheet: &Instance, file: &RoundFile<'_>, number: usize) -> Option<String> {
    let mut buffer = [0; LONGEST_ROUND];
    let alone = alone(sheet, file.version(), &file.read(number).ok()?, &mut buffer).ok()?;
    match in_round(sheet, file, number) {
        Some(Fault { refusal, found: Found::Value { offset, .. }, .. }) => {
            Some(format!("refused {} {offset}\n", refusal.number()))
        }
        _ => Some(reason(sheet.bytes(), alone, &mut [0; LONGEST_REASON]).to_string()),
    }
}

/// The fault of a pattern file. The number is the library's, and the place is found here.
pub fn in_patterns(file: &[u8]) -> Option<Fault> {
    let refusal = Patterns::load(file).err()?;
    let found = match refusal {
        Refusal::PatternFile => patterns::wrong_shape(file),
        _ => patterns::wrong_digit(file),
    };
    Some(Fault { refusal, found: found?, cause: None })
}

/// A refusal as the library's line tells it.
struct Told {
    refusal: Refusal,
    length: bool,
    number: usize,
}

/// What the library's line on a sheet and a round file refuses, if it refuses something.
fn told(sheet: &[u8], file: &[u8]) -> Option<Told> {
    let mut text = [0; LONGEST_REASON];
    let mut words = reason(sheet, file, &mut text).split_whitespace();
    if words.next() != Some("refused") {
        return None;
    }
    let refusal = Refusal::from_number(words.next()?.parse().ok()?)?;
    let place = words.next()?;
    let length = place == "length";
    let number = if length { words.next()? } else { place };
    Some(Told { refusal, length, number: number.parse().ok()? })
}

impl Told {
    /// The fault in a file that has to have as many bytes as this says, and in which this value stands at an offset.
    fn fault(&self, needed: String, value: impl Fn(usize) -> String) -> Fault {
        let found = if self.length {
            Found::Length { found: self.number, needed }
        } else {
            Found::Value { offset: self.number, value: value(self.number) }
        };
        Fault { refusal: self.refusal, found, cause: None }
    }
}

/// The most bytes of a file of one round.
const LONGEST_ROUND: usize = EMPTY_FILE + 4 * (2 * PLACES + 1);

/// The file of a version with one round alone.
fn alone<'a>(
    sheet: &'a Instance,
    version: u32,
    round: &Round,
    buffer: &'a mut [u8],
) -> Result<&'a [u8], Refusal> {
    let mut writer = RoundWriter::start(sheet, version, buffer)?;
    writer.append(round)?;
    let length = writer.file().bytes().len();
    Ok(&buffer[..length])
}

/// How many rounds a round file has by its header, and how many bytes these make by its version.
fn file_length(sheet: &Instance, file: &[u8]) -> Option<(usize, usize)> {
    let [version, count] = round_header(file)?;
    let mut buffer = [0; LONGEST_ROUND];
    let alone = alone(sheet, version as u32, &Round::default(), &mut buffer).ok()?;
    Some((count, EMPTY_FILE + count * (alone.len() - EMPTY_FILE)))
}
