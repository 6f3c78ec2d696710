//! Faults of the calls that write into a lent buffer.

use crate::faults::{Fault, versions};
use crate::files;
use crate::library::Library::Judge;
use crate::library::{Header, Round, Written};

/// A refusal with this number.
pub fn refused(refusal: u32) -> Written {
    Written { refusal, length: 0 }
}

/// The length of the sheet that a right header gives.
pub fn sheet_length(header: &Header) -> usize {
    let entries = if header.kind == 1 { header.rows * header.columns } else { 0 };
    20 + 4 * (entries + header.rows) as usize
}

/// The header as the writer takes it.
fn cut(fault: Fault, mut header: Header) -> Header {
    match fault {
        Fault::KindCut => header.kind &= 0xff,
        Fault::RowsCut => {
            header.rows &= 0xff;
            header.columns &= 0xff;
        }
        _ => {}
    }
    header
}

/// The number that a writer gives which tests a place that is not to be read.
fn unread(fault: Fault, header: &Header, entries: &[u32; 64], statement: &[u32; 8]) -> u32 {
    let bad = |value: u32| value == 0 || value >= header.modulus;
    let (rows, columns) = (header.rows as usize, header.columns as usize);
    match fault {
        Fault::UnreadEntry if header.kind == 1 && columns < 8 && bad(entries[columns]) => 10,
        Fault::UnreadStatement if rows < 8 && bad(statement[rows]) => 11,
        Fault::RootEntry if header.kind == 2 && bad(entries[0]) => 10,
        _ => 0,
    }
}

pub fn encode(
    fault: Fault,
    header: Header,
    entries: &[u32; 64],
    statement: &[u32; 8],
    buffer: &mut [u8],
) -> Written {
    let before = buffer.to_vec();
    let header = cut(fault, header);
    let right = Judge.encode(header, entries, statement, buffer);
    match (fault, right.refusal) {
        (_, 0) if unread(fault, &header, entries, statement) != 0 => {
            buffer.copy_from_slice(&before);
            refused(unread(fault, &header, entries, statement))
        }
        (Fault::ByteAfter, 0) => {
            buffer[right.length..].iter_mut().take(1).for_each(|byte| *byte = 0);
            right
        }
        (Fault::ShortFirst, 10 | 11) if buffer.len() < sheet_length(&header) => refused(22),
        (Fault::ShortWritten, 22) => {
            let mut whole = vec![0; sheet_length(&header)];
            Judge.encode(header, entries, statement, &mut whole);
            buffer.copy_from_slice(&whole[..buffer.len()]);
            right
        }
        (Fault::OneMoreNeeded, 0) if buffer.len() == right.length => {
            buffer.copy_from_slice(&before);
            refused(22)
        }
        _ => right,
    }
}

pub fn empty(fault: Fault, version: u32, buffer: &mut [u8]) -> Written {
    let known = [1, 2].contains(&version);
    match fault {
        Fault::EmptyNeedsEight if known && buffer.len() == 7 => return refused(22),
        Fault::EmptyClears if known && buffer.len() > 7 => buffer[7] = 0,
        Fault::EmptyVersionCut => return Judge.empty(version & 0xffff, buffer),
        Fault::EmptyVersionOne if known => return Judge.empty(1, buffer),
        Fault::EmptyVersionAny if buffer.len() >= 7 => {
            let made = Judge.empty(1, buffer);
            buffer[3..5].copy_from_slice(&(version as u16).to_be_bytes());
            return made;
        }
        Fault::EmptyShortFirst if buffer.len() < 7 => return refused(22),
        _ => {}
    }
    Judge.empty(version, buffer)
}

pub fn append(
    fault: Fault,
    sheet: &[u8],
    buffer: &mut [u8],
    used: usize,
    round: &Round,
) -> Written {
    let before = buffer.to_vec();
    if fault == Fault::UsedCut {
        return Judge.append(sheet, buffer, used & 0xffff_ffff, round);
    }
    let right = Judge.append(sheet, buffer, used, round);
    let header = Judge.load(sheet).header;
    match (fault, right.refusal) {
        (_, 12) => append_unfit(fault, sheet, buffer, used, round),
        (Fault::CountCarry, 0) => {
            buffer[5] = before[5];
            right
        }
        (Fault::ValuesTested, 0) if round.challenge >= header.challenges => {
            buffer.copy_from_slice(&before);
            refused(15)
        }
        (Fault::CountRaised, 22) => {
            buffer[6] = buffer[6].wrapping_add(1);
            right
        }
        (Fault::RecordExact, 0) if buffer.len() == right.length => {
            buffer.copy_from_slice(&before);
            refused(22)
        }
        _ => versions::append(fault, &header, (&before, buffer), used, round, right),
    }
}

/// Appending a round where the bytes in use are refused.
fn append_unfit(
    fault: Fault,
    sheet: &[u8],
    buffer: &mut [u8],
    used: usize,
    round: &Round,
) -> Written {
    let Some(file) = buffer.get(..used) else {
        return refused(if fault == Fault::UsedBeyond { 22 } else { 12 });
    };
    let record = files::record(&Judge.load(sheet).header, files::version(file), round);
    let counted = Judge.count(sheet, file);
    let length = used + record.len();
    let short = buffer.len() < length;
    match (fault, counted.refusal) {
        (Fault::FullFileShort, 0) | (Fault::FileUntested, 12) if short => refused(22),
        (Fault::FileUntested, 12) => {
            let count = u16::from_be_bytes([buffer[5], buffer[6]]).wrapping_add(1);
            buffer[5..7].copy_from_slice(&count.to_be_bytes());
            buffer[used..length].copy_from_slice(&record);
            Written { refusal: 0, length }
        }
        _ => refused(12),
    }
}
