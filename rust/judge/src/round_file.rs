//! The round file: its bytes and its records, in versions 1 and 2.

mod version;

pub(crate) use version::Version;

use std::ops::Range;

use crate::bytes::{number, put};
use crate::pattern_file::Written;
use crate::protocol::Round;
use crate::sheet::{Sheet, load};

pub(crate) const MARK: &[u8; 3] = b"RND";
/// The bytes before the first record.
pub(crate) const HEADER: usize = 7;
pub(crate) const MOST_ROUNDS: u32 = 512;

/// What the header of a round file says.
#[derive(Clone, Copy)]
pub(crate) struct Header {
    pub(crate) version: Version,
    /// The round count.
    pub(crate) count: u32,
}

impl Header {
    /// The stored bytes of the header.
    fn bytes(self) -> Vec<u8> {
        let mut bytes = MARK.to_vec();
        bytes.extend(self.version.number().to_be_bytes());
        // By 12 the count is at most 512.
        bytes.extend((self.count as u16).to_be_bytes());
        bytes
    }
}

/// The length in bytes of one record of this version for this sheet.
fn record_length(sheet: &Sheet, version: Version) -> usize {
    4 * (sheet.s() + sheet.n()) + version.challenge_length()
}

/// The version that the bytes of a file name, if there is such a version.
pub(crate) fn named_version(file: &[u8]) -> Option<Version> {
    Version::numbered(u64::from(number(file, 3, 2)))
}

/// The header of a file, or 12 when it is no round file for the sheet.
pub(crate) fn file_header(sheet: &Sheet, file: &[u8]) -> Result<Header, u32> {
    if file.len() < HEADER || !file.starts_with(MARK) {
        return Err(12);
    }
    let Some(version) = named_version(file) else {
        return Err(12);
    };
    let count = number(file, 5, 2);
    if count > MOST_ROUNDS {
        return Err(12);
    }
    if file.len() != HEADER + count as usize * record_length(sheet, version) {
        return Err(12);
    }
    Ok(Header { version, count })
}

/// The version of a file and the place of a round's record in it, after the
/// tests 12 and 13.
fn place(sheet: &Sheet, file: &[u8], number: u64) -> Result<(Version, Range<usize>), u32> {
    let Header { version, count } = file_header(sheet, file)?;
    if number >= u64::from(count) {
        return Err(13);
    }
    let length = record_length(sheet, version);
    let start = HEADER + number as usize * length;
    Ok((version, start..start + length))
}

/// The values of one round, after the tests 12 and 13.
pub(crate) fn file_round(sheet: &Sheet, file: &[u8], which: u64) -> Result<Round, u32> {
    let (version, range) = place(sheet, file, which)?;
    let mut at = range.start;
    let mut round = Round { commitment: [0; 8], challenge: 0, response: [0; 8] };
    for value in round.commitment.iter_mut().take(sheet.s()) {
        *value = number(file, at, 4);
        at += 4;
    }
    round.challenge = number(file, at, version.challenge_length());
    at += version.challenge_length();
    for slot in round.response.iter_mut().take(sheet.n()) {
        *slot = number(file, at, 4);
        at += 4;
    }
    Ok(round)
}

/// The bytes of a round's record in this version, or 15 when the version is
/// too narrow for the challenge. No other value is tested.
fn record(sheet: &Sheet, version: Version, round: &Round) -> Result<Vec<u8>, u32> {
    let mut record = Vec::new();
    for value in round.commitment.iter().take(sheet.s()) {
        record.extend(value.to_be_bytes());
    }
    record.extend(version.stored(round.challenge)?);
    for slot in round.response.iter().take(sheet.n()) {
        record.extend(slot.to_be_bytes());
    }
    Ok(record)
}

/// Answers how many rounds the file, of version 1 or 2, holds.
///
/// Refuses with 2 to 11 for the sheet and 12 when the bytes are no round file
/// for it.
pub fn count(sheet: &[u8], file: &[u8]) -> Result<u32, u32> {
    Ok(file_header(&load(sheet)?, file)?.count)
}

/// Answers 0 when the round with this number, from 0, can be read, and
/// otherwise the number of the refusal.
///
/// The refusals are 2 to 11 for the sheet, 12 for the file and 13 for a round
/// number at or beyond the file's count.
pub fn check(sheet: &[u8], file: &[u8], number: u64) -> u32 {
    match load(sheet).and_then(|sheet| place(&sheet, file, number)) {
        Ok(_) => 0,
        Err(refusal) => refusal,
    }
}

/// Answers the bytes of one round as that part of the file: 4(s + n + 1) of
/// them in version 1 and 4(s + n) + 2 in version 2.
///
/// Refuses with an empty part, where `check` gives the number for the same
/// inputs. A part that is not refused is never empty.
pub fn part<'a>(sheet: &[u8], file: &'a [u8], number: u64) -> &'a [u8] {
    match load(sheet).and_then(|sheet| place(&sheet, file, number)) {
        Ok((_, range)) => &file[range],
        Err(_) => &[],
    }
}

/// Answers the values of one round, untested, with 0 beyond the rows and
/// columns in use.
///
/// Refuses with 2 to 11 for the sheet, 12 for the file and 13 for a round
/// number at or beyond the file's count.
pub fn read(sheet: &[u8], file: &[u8], number: u64) -> Result<Round, u32> {
    file_round(&load(sheet)?, file, number)
}

/// Answers whether all 4s commitment bytes of two rounds, each by its number
/// from 0, agree. The two numbers may be the same.
///
/// Refuses with 2 to 11 for the sheet, 12 for the file and 13 when either
/// number is at or beyond the file's count.
pub fn same_commitment(sheet: &[u8], file: &[u8], first: u64, second: u64) -> Result<bool, u32> {
    let sheet = load(sheet)?;
    let bytes = 4 * sheet.s();
    // Decision: "a round's values are read without being tested", so values
    // that are no group elements are compared too.
    let one = &file[place(&sheet, file, first)?.1];
    let other = &file[place(&sheet, file, second)?.1];
    Ok(one[..bytes] == other[..bytes])
}

/// Writes a round file of no rounds, in version 1 or 2, at the start of the
/// buffer and answers its length, 7. No byte after it changes.
///
/// Refuses with 12 for any other version and with 22 when the buffer has under
/// 7 bytes.
pub fn empty(version: u64, buffer: &mut [u8]) -> Result<usize, u32> {
    // Decision: 01 says of this call only that it makes the 7 bytes. It takes
    // the form of the two sheet writers: start of the buffer, length, 22.
    let Some(version) = Version::numbered(version) else {
        return Err(12);
    };
    put(&Header { version, count: 0 }.bytes(), buffer)
}

/// Adds a round behind the bytes in use and answers the new count of bytes in
/// use. The record has the version of the bytes in use. The file's count rises
/// by one and no other byte changes. The round's values are not tested, save
/// that the challenge must fit version 2. Those beyond the rows and columns are
/// not read.
///
/// Refuses with 2 to 11 for the sheet. Refuses with 12 when more bytes are in
/// use than the buffer has, when those in use are no round file for the sheet
/// or when it holds 512 rounds already. Refuses with 15 when the bytes in use
/// have version 2 and the challenge is above 65,535. Refuses with 22 when the
/// buffer has no room for the record.
pub fn append(sheet: &[u8], buffer: &mut [u8], used: u64, round: &Round) -> Result<u64, u32> {
    let sheet = load(sheet)?;
    if used > buffer.len() as u64 {
        return Err(12);
    }
    let start = used as usize;
    let Header { version, count } = file_header(&sheet, &buffer[..start])?;
    if count == MOST_ROUNDS {
        return Err(12);
    }
    // Decision: 15 asks here only whether the challenge fits 16 bits. 01 has
    // the writer test no value, so one from K to 65,535 is written.
    let record = record(&sheet, version, round)?;
    // Decision: the result of 22 is the file with the new record, so the
    // buffer needs room for the bytes in use and the record together.
    let length = put(&record, &mut buffer[start..])?;
    let raised = (count as u16 + 1).to_be_bytes();
    buffer[5..7].copy_from_slice(&raised);
    Ok(used + length as u64)
}

/// Writes the file in its other version, 2 for 1 and 1 for 2, at the start of
/// the buffer and answers its length. No byte after it changes. The rounds keep
/// their order and all their values.
///
/// Refuses with 2 to 11 for the sheet, 12 when the bytes are no round file for
/// it, 15 when a record of version 1 has a challenge above 65,535 and 22 when
/// the buffer is shorter than the result.
pub fn convert(sheet: &[u8], file: &[u8], buffer: &mut [u8]) -> Written {
    let sheet = load(sheet)?;
    // Decision: a full file is converted. The 512 rounds already that 12 names
    // are for the record writer, which adds one.
    let Header { version, count } = file_header(&sheet, file)?;
    let version = version.other();
    let mut bytes = Header { version, count }.bytes();
    for number in 0..count {
        // Decision: "a round's values are read without being tested", so 15
        // asks only whether the challenge fits 16 bits. One from K to 65,535
        // is carried over, and so are values that 14 and 16 would refuse.
        let round = file_round(&sheet, file, u64::from(number))?;
        bytes.extend(record(&sheet, version, &round)?);
    }
    put(&bytes, buffer)
}
