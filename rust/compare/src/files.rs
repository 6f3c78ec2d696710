//! Round files of both versions, whole and damaged, and the numbers of their
//! rounds.

use crate::damage::spoil_length;
use crate::library::{Header, MOST_ROUNDS, Round};
use crate::random::Random;

/// How many bytes a challenge has in a file of this version.
pub fn width(version: u16) -> usize {
    match version {
        2 => 2,
        _ => 4,
    }
}

/// The length in bytes of one record of a file of this version.
pub fn record_length(header: &Header, version: u16) -> usize {
    4 * (header.rows + header.columns) as usize + width(version)
}

/// The version that a file names, 1 where it is too short to name one.
pub fn version(file: &[u8]) -> u16 {
    match file.get(3..5) {
        Some(&[high, low]) => u16::from_be_bytes([high, low]),
        _ => 1,
    }
}

/// The length in bytes of one record by the version that the file names.
pub fn record_in(header: &Header, file: &[u8]) -> usize {
    record_length(header, version(file))
}

/// Version 1 or 2.
pub fn any_version(random: &mut Random) -> u16 {
    random.pick(&[1, 2])
}

/// The header of a file.
fn start(version: u16, count: usize) -> Vec<u8> {
    let mut bytes = b"RND".to_vec();
    bytes.extend(version.to_be_bytes());
    bytes.extend((count as u16).to_be_bytes());
    bytes
}

/// A file of this version and of so many records of this length, with any bytes.
fn file(random: &mut Random, version: u16, record: usize, count: usize) -> Vec<u8> {
    let mut bytes = start(version, count);
    bytes.extend(random.bytes(record * count));
    bytes
}

/// A file of this version for a sheet with this header, with so many rounds of
/// any values.
pub fn of_count(random: &mut Random, header: &Header, version: u16, count: usize) -> Vec<u8> {
    if random.once_in(2) {
        return file(random, version, record_length(header, version), count);
    }
    let rounds: Vec<Round> = (0..count).map(|_| any_round(random)).collect();
    of_rounds(header, version, &rounds)
}

/// A round of any values.
pub fn any_round(random: &mut Random) -> Round {
    Round { commitment: random.words(), challenge: random.word(), response: random.words() }
}

/// The file of these rounds in this version, for a sheet with this header.
/// Challenges are cut to their width.
pub fn of_rounds(header: &Header, version: u16, rounds: &[Round]) -> Vec<u8> {
    let mut bytes = start(version, rounds.len());
    for round in rounds {
        bytes.extend(record(header, version, round));
    }
    bytes
}

/// The bytes of a round in this version, with its challenge cut to its width.
pub fn record(header: &Header, version: u16, round: &Round) -> Vec<u8> {
    let values = round.commitment.iter().take(header.rows as usize);
    let mut bytes: Vec<u8> = values.flat_map(|value| value.to_be_bytes()).collect();
    bytes.extend(&round.challenge.to_be_bytes()[4 - width(version)..]);
    let slots = round.response.iter().take(header.columns as usize);
    bytes.extend(slots.flat_map(|slot| slot.to_be_bytes()));
    bytes
}

/// The places of the challenges in a file of version 1 that reads, none in other
/// bytes.
pub fn wide_challenges(header: &Header, file: &[u8]) -> Vec<usize> {
    let record = record_length(header, 1);
    let reads = file.starts_with(b"RND\x00\x01") && file.len() % record == 7 % record;
    let count = if reads { (file.len() - 7) / record } else { 0 };
    let first = 7 + 4 * header.rows as usize;
    (0..count).map(|number| first + number * record).collect()
}

/// A round count from 0 to 512. Most are small.
pub fn round_count(random: &mut Random) -> usize {
    match random.below(40) {
        0..=7 => 0,
        8..=15 => 1,
        16..=32 => 2 + random.below(8),
        33 | 34 => 254 + random.below(4),
        35 | 36 => 511,
        37 | 38 => 512,
        _ => random.below(MOST_ROUNDS),
    }
}

/// A file of either version for a sheet with this header, with any round count.
pub fn any(random: &mut Random, header: &Header) -> Vec<u8> {
    let (version, count) = (any_version(random), round_count(random));
    of_count(random, header, version, count)
}

/// A file for a sheet with this header, with some damage. Nearly all are refused
/// with 12.
pub fn damaged(random: &mut Random, header: &Header) -> Vec<u8> {
    let mut bytes = any(random, header);
    if random.once_in(4) {
        fault(random, header, &mut bytes);
    }
    fault(random, header, &mut bytes);
    bytes
}

/// Puts a version other than 1 and 2 into bytes 3 and 4.
pub fn spoil_version(random: &mut Random, bytes: &mut [u8]) {
    let any = random.between(3, 0xffff) as u16;
    let version = random.pick(&[0, 3, 3, 3, 0x0100, 0x0101, 0x0102, 0xffff, any]);
    bytes[3..5].copy_from_slice(&version.to_be_bytes());
}

/// Puts one fault into a file.
fn fault(random: &mut Random, header: &Header, bytes: &mut Vec<u8>) {
    let version = any_version(random);
    let record = record_length(header, version);
    match random.below(13) {
        0 => bytes.truncate(random.below(8)),
        1 if bytes.len() >= 7 => bytes[random.below(3)] ^= random.between(1, 255) as u8,
        2 if bytes.len() >= 7 => spoil_version(random, bytes),
        3 if bytes.len() >= 7 => spoil_count(random, bytes),
        4 => {
            let more = random.below(100);
            *bytes = file(random, version, record, MOST_ROUNDS + 1 + more);
        }
        5 => *bytes = file(random, version, record, MOST_ROUNDS + 1),
        6 if !bytes.is_empty() => spoil_length(random, bytes, 0),
        7 => bytes.extend(random.bytes(record)),
        8 => bytes.truncate(bytes.len().saturating_sub(record)),
        9 => {
            let other = 8 + width(version) + 4 * random.below(15);
            let count = 1 + random.below(9);
            *bytes = file(random, version, other, count);
        }
        10 if !bytes.is_empty() => {
            let at = random.below(bytes.len().min(8));
            bytes[at] = random.bits() as u8;
        }
        // The records are those of the other version.
        11 if bytes.len() >= 7 => bytes[4] ^= 3,
        _ => {
            let junk = random.below(100);
            *bytes = random.bytes(junk);
        }
    }
}

/// Changes the count field by one, by a bit, or to any number.
fn spoil_count(random: &mut Random, bytes: &mut [u8]) {
    let count = u16::from_be_bytes([bytes[5], bytes[6]]);
    let other = match random.below(4) {
        0 => count.wrapping_add(1),
        1 => count.wrapping_sub(1),
        2 => count ^ 1 << random.below(16),
        _ => random.bits() as u16,
    };
    bytes[5..7].copy_from_slice(&other.to_be_bytes());
}

/// A round number for a file of these bytes: in range, near the count, or so
/// large that it, or its place, is in range only where it is cut.
pub fn round_number(random: &mut Random, record: usize, file: &[u8]) -> usize {
    let count = file.len().saturating_sub(7) / record;
    let inside = random.below(count);
    match random.below(14) {
        0..=3 => inside,
        4 => 0,
        5 | 6 => count.saturating_sub(1),
        7 => count,
        8 => count + 1,
        9 => (1 << random.pick(&[8, 16, 31, 32, 33, 48, 63])) + inside,
        10 => random.pick(&[512, 65_535, 65_536, 0xffff_ffff, 1 << 32, usize::MAX]),
        11 => usize::MAX - random.below(10),
        12 => usize::MAX / record + 1 + inside,
        _ => random.bits() as usize,
    }
}

#[cfg(test)]
mod tests {
    use super::*;
    use crate::library::Library::Judge;
    use crate::sheets::Sheet;

    #[test]
    fn made_files_count_and_damaged_files_are_refused() {
        let mut refused = 0;
        for seed in 0..3000 {
            let mut random = Random::new(seed);
            let sheet = Sheet::any(&mut random);
            let count = round_count(&mut random);
            for version in [1, 2] {
                let whole = of_count(&mut random, &sheet.header, version, count);
                let counted = Judge.count(&sheet.bytes(), &whole);
                assert_eq!((counted.refusal, counted.count as usize), (0, count));
            }
            let damaged = damaged(&mut random, &sheet.header);
            let refusal = Judge.count(&sheet.bytes(), &damaged).refusal;
            assert!(refusal == 0 || refusal == 12);
            refused += u32::from(refusal == 12);
        }
        assert!(refused > 2500);
    }

    #[test]
    fn round_numbers_are_met_in_and_out_of_range() {
        let mut random = Random::new(1);
        let file = file(&mut random, 1, 12, 512);
        let mut met = [0; 5];
        for _ in 0..3000 {
            match round_number(&mut random, 12, &file) {
                0..=511 => met[0] += 1,
                512 => met[1] += 1,
                513..=0xffff => met[2] += 1,
                0x1_0000..=0xffff_ffff => met[3] += 1,
                _ => met[4] += 1,
            }
        }
        assert!(met.iter().all(|times| *times > 20), "{met:?}");
    }
}
