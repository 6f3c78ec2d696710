//! Faults of the record writer and of the converter in the versions of a file.

use crate::faults::Fault;
use crate::faults::writers::refused;
use crate::files::{self, record_in, record_length, version, wide_challenges};
use crate::library::Library::Judge;
use crate::library::{Header, Round, Written};

/// The record writer's faults, where the bytes in use are a file that is not
/// full: what it answers in place of this, with the buffer before and after.
pub fn append(
    fault: Fault,
    header: &Header,
    (before, buffer): (&[u8], &mut [u8]),
    used: usize,
    round: &Round,
    right: Written,
) -> Written {
    let (named, challenge) = (version(before), round.challenge);
    let mut again = |refusal: u32| {
        buffer.copy_from_slice(before);
        refused(refusal)
    };
    match (fault, named, right.refusal) {
        (Fault::AppendWideAlways, 1, 0) if challenge > 65_535 => again(15),
        (Fault::AppendWideBound, 2, 0) if challenge == 65_535 => again(15),
        (Fault::AppendShortFirst, 2, 15) if before.len() < used + record_length(header, 2) => {
            refused(22)
        }
        (Fault::AppendVersionOne, 2, 0) => {
            let record = files::record(header, 1, round);
            let length = used + record.len();
            if before.len() < length {
                return again(22);
            }
            buffer[used..length].copy_from_slice(&record);
            Written { refusal: 0, length }
        }
        (Fault::AppendWideCut, 2, 15) => {
            let record = files::record(header, 2, round);
            let length = used + record.len();
            if buffer.len() < length {
                return refused(22);
            }
            buffer[used..length].copy_from_slice(&record);
            let count = u16::from_be_bytes([buffer[5], buffer[6]]) + 1;
            buffer[5..7].copy_from_slice(&count.to_be_bytes());
            Written { refusal: 0, length }
        }
        _ => right,
    }
}

pub fn convert(fault: Fault, sheet: &[u8], file: &[u8], buffer: &mut [u8]) -> Written {
    let before = buffer.to_vec();
    let right = Judge.convert(sheet, file, buffer);
    let header = Judge.load(sheet).header;
    match right.refusal {
        0 => converted(fault, sheet, &header, file, (&before, buffer), right),
        15 => wide(fault, sheet, &header, file, buffer),
        _ => unfit(fault, sheet, file, buffer, right),
    }
}

/// Converting a file that converts.
fn converted(
    fault: Fault,
    sheet: &[u8],
    header: &Header,
    file: &[u8],
    (before, buffer): (&[u8], &mut [u8]),
    right: Written,
) -> Written {
    let (length, named) = (buffer.len(), version(file));
    let count = Judge.count(sheet, file).count;
    let any = |wrong: fn(u32, u32) -> bool| {
        let rounds = (0..count).map(|number| Judge.read(sheet, file, number as usize).round);
        let mut challenges = rounds.map(|round| round.challenge);
        challenges.any(|challenge| wrong(challenge, header.challenges))
    };
    let refusal = match fault {
        Fault::ConvertTestsCount if any(|challenge, k| challenge >= k) => 15,
        Fault::ConvertBound if named == 1 && any(|challenge, _| challenge == 65_535) => 15,
        Fault::ConvertExact if length == right.length => 22,
        Fault::ConvertNeedsFile if length < file.len() => 22,
        Fault::ConvertFull if count == 512 => 12,
        Fault::ConvertOneWay if named == 2 => 12,
        Fault::ConvertOne if named == 1 && length < file.len() => 22,
        _ => 0,
    };
    if refusal != 0 {
        buffer.copy_from_slice(before);
        return refused(refusal);
    }
    match fault {
        Fault::ConvertOne if named == 1 => {
            buffer[..file.len()].copy_from_slice(file);
            Written { refusal: 0, length: file.len() }
        }
        Fault::ConvertLosesLast if count > 0 => {
            let fewer = (count as u16 - 1).to_be_bytes();
            let rounds = &file[7..file.len() - record_in(header, file)];
            buffer.copy_from_slice(before);
            Judge.convert(sheet, &[&file[..5], &fewer, rounds].concat(), buffer)
        }
        Fault::ConvertClears if length > right.length => {
            buffer[right.length] = 0;
            right
        }
        Fault::ConvertKeepsVersion => {
            buffer[4] = file[4];
            right
        }
        _ => right,
    }
}

/// Converting a file of version 1 with a challenge above 65,535.
fn wide(fault: Fault, sheet: &[u8], header: &Header, file: &[u8], buffer: &mut [u8]) -> Written {
    let places = wide_challenges(header, file);
    let length = 7 + places.len() * record_length(header, 2);
    let cut = |places: &[usize], buffer: &mut [u8]| {
        let mut file = file.to_vec();
        for at in places {
            file[*at..at + 2].fill(0);
        }
        Judge.convert(sheet, &file, buffer)
    };
    match fault {
        Fault::ConvertCut => cut(&places, buffer),
        Fault::ConvertFirst => cut(&places[1..], buffer),
        Fault::ConvertLast => cut(&places[places.len() - 1..], buffer),
        Fault::ConvertShortFirst if buffer.len() < length => refused(22),
        Fault::ConvertWideWritten if buffer.len() >= length => {
            buffer[..7].copy_from_slice(&file[..7]);
            buffer[4] = 2;
            refused(15)
        }
        _ => refused(15),
    }
}

/// Converting where the sheet, the file or the buffer is refused.
fn unfit(fault: Fault, sheet: &[u8], file: &[u8], buffer: &mut [u8], right: Written) -> Written {
    match (fault, right.refusal) {
        (Fault::ConvertFileFirst, 2..=11) if file.len() < 7 => refused(12),
        (Fault::ConvertVersionThree, 12) if file.starts_with(b"RND\x00\x03") => {
            let mut file = file.to_vec();
            file[4] = 1;
            Judge.convert(sheet, &file, buffer)
        }
        (Fault::ConvertShortWritten, 22) => {
            let mut whole = vec![0; 2 * file.len()];
            Judge.convert(sheet, file, &mut whole);
            buffer.copy_from_slice(&whole[..buffer.len()]);
            right
        }
        _ => right,
    }
}
