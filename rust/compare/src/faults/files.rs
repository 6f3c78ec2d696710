//! Faults of the calls that read a round file and compare its rounds.

use crate::faults::Fault;
use crate::files::{record_in, record_length, version, width};
use crate::library::Library::Judge;
use crate::library::{Compared, Counted, Fetched, Part};

pub fn count(fault: Fault, sheet: &[u8], file: &[u8]) -> Counted {
    let right = Judge.count(sheet, file);
    let header = Judge.load(sheet).header;
    match (fault, right.refusal) {
        (Fault::ManyRounds, 12) if file.starts_with(b"RND") && file.get(5..7) == Some(&[2, 1]) => {
            let fits = file.len() == 7 + 513 * record_in(&header, file);
            let many = Counted { refusal: 0, count: 513 };
            if fits { many } else { right }
        }
        (Fault::VersionLow, 12) if file.len() >= 7 => {
            let mut file = file.to_vec();
            file[3] = 0;
            Judge.count(sheet, &file)
        }
        (Fault::VersionThree, 12) if file.starts_with(b"RND\x00\x03") => {
            let mut file = file.to_vec();
            file[4] = 1;
            Judge.count(sheet, &file)
        }
        (Fault::VersionOneOnly, 0) if version(file) == 2 => Counted { refusal: 12, count: 0 },
        (Fault::WidthFour, 0 | 12) if file.starts_with(b"RND\x00\x02") => {
            let mut file = file.to_vec();
            file[4] = 1;
            Judge.count(sheet, &file)
        }
        (Fault::FileFirst, 2..=11) if file.len() < 7 => Counted { refusal: 12, count: 0 },
        _ => right,
    }
}

pub fn check(fault: Fault, sheet: &[u8], file: &[u8], number: usize) -> u32 {
    let right = Judge.check(sheet, file, number);
    match (fault, right) {
        (Fault::RoundAtCount, 13) if number == Judge.count(sheet, file).count as usize => 0,
        (Fault::RoundCut16, 13) => Judge.check(sheet, file, number & 0xffff),
        (Fault::RoundCut32, 13) => Judge.check(sheet, file, number & 0xffff_ffff),
        (Fault::RoundFirst, 12) if number >= 65_536 => 13,
        _ => right,
    }
}

pub fn part(fault: Fault, sheet: &[u8], file: &[u8], number: usize) -> Part {
    let mut right = Judge.part(sheet, file, number);
    let header = Judge.load(sheet).header;
    if fault == Fault::PartWraps && Judge.check(sheet, file, number) == 13 {
        let record = record_in(&header, file);
        let offset = number.wrapping_mul(record).wrapping_add(7);
        if offset < file.len() {
            return Part { offset, length: record };
        }
    }
    if fault == Fault::PartWide && right.length > 0 {
        right.length = record_length(&header, 1);
        right.offset = 7 + number * right.length;
    }
    if fault == Fault::PartCut {
        right.offset &= 0x7fff;
    }
    if fault == Fault::PartEmptyPlaced && right.length == 0 {
        right.offset = file.len();
    }
    right
}

pub fn read(fault: Fault, sheet: &[u8], file: &[u8], number: usize) -> Fetched {
    let mut right = Judge.read(sheet, file, number);
    let header = Judge.load(sheet).header;
    if fault == Fault::LastSlot {
        right.round.response[7] = 0;
    }
    if fault == Fault::ReadWide && version(file) == 2 {
        right.round.challenge <<= 16;
    }
    if fault == Fault::ReadByte && version(file) == 2 {
        right.round.challenge &= 0xff;
    }
    if fault == Fault::ReadOn && right.refusal == 0 && header.rows < 8 {
        right.round.commitment[header.rows as usize] = right.round.challenge;
    }
    right
}

pub fn same_commitment(fault: Fault, sheet: &[u8], file: &[u8], i: usize, j: usize) -> Compared {
    let right = Judge.same_commitment(sheet, file, i, j);
    match right.refusal {
        0 => compared(fault, sheet, file, [i, j], right),
        _ => not_compared(fault, sheet, file, [i, j], right),
    }
}

/// Comparing two rounds that can be read.
fn compared(
    fault: Fault,
    sheet: &[u8],
    file: &[u8],
    numbers: [usize; 2],
    mut right: Compared,
) -> Compared {
    let header = Judge.load(sheet).header;
    let (rows, columns) = (header.rows as usize, header.columns as usize);
    let parts = numbers.map(|number| Judge.part(sheet, file, number).offset);
    let bytes = match fault {
        Fault::SameColumns => 4 * columns,
        Fault::SameFirstWord => 4,
        Fault::SameLastByte => 4 * rows - 1,
        Fault::SameChallenge => 4 * rows + width(version(file)),
        Fault::SameWide => {
            let at = |number: usize| 7 + number * record_length(&header, 1);
            let [one, other] = numbers.map(|number| file.get(at(number)..at(number) + 4 * rows));
            right.same = u32::from(one == other);
            return right;
        }
        Fault::SameItself if numbers[0] == numbers[1] => {
            right.same = 0;
            return right;
        }
        Fault::SameTested => {
            let read = numbers.map(|number| Judge.read(sheet, file, number).round);
            let refused = |round| Judge.judge(sheet, round).refusal == 14;
            let refusal = if read.iter().any(refused) { 14 } else { 0 };
            return Compared { refusal, same: if refusal == 0 { right.same } else { 0 } };
        }
        _ => return right,
    };
    let [one, other] = parts.map(|offset| &file[offset..offset + bytes]);
    right.same = u32::from(one == other);
    right
}

/// Comparing where the sheet, the file or a number is refused.
fn not_compared(
    fault: Fault,
    sheet: &[u8],
    file: &[u8],
    [i, j]: [usize; 2],
    right: Compared,
) -> Compared {
    let count = Judge.count(sheet, file).count as usize;
    let refused = |refusal| Compared { refusal, same: 0 };
    match (fault, right.refusal) {
        (Fault::SameFirstNumber, 13) if i < count => Compared::default(),
        (Fault::SameSecondNumber, 13) if j < count => Compared::default(),
        (Fault::SameNumberCut, 13) => Judge.same_commitment(sheet, file, i & 0xffff, j & 0xffff),
        (Fault::SameNumberFirst, 12) if i.max(j) >= 65_536 => refused(13),
        (Fault::SameFileFirst, 2..=11) if file.len() < 7 => refused(12),
        (Fault::SameOneRefused, 13) => Compared { same: 1, ..right },
        _ => right,
    }
}
