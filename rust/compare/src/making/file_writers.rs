//! Cases of the calls that write a round file: an empty one, one with a round
//! more, and one in the other version.

use crate::cases::{Case, WriterCase, Writing};
use crate::files;
use crate::lent::Lent;
use crate::library::{Header, Round};
use crate::making::sheets;
use crate::random::Random;

/// A case of the empty file. A wrong version is often 1 or 2 when it is cut.
pub fn empty(random: &mut Random) -> Box<dyn Case> {
    Box::new(empty_case(random))
}

/// A version and a buffer.
fn empty_case(random: &mut Random) -> WriterCase {
    let version = match random.below(8) {
        0..=2 => 1,
        3 | 4 => 2,
        5 => random.pick(&[0, 3, 255, u32::MAX]),
        6 => random.pick(&[0x100, 0x1_0000, 0x100_0000]) + random.between(1, 2),
        _ => random.word(),
    };
    WriterCase { writing: Writing::Empty { version }, lent: Lent::for_result(random, 7) }
}

/// A challenge, often one of the largest that version 2 of a file holds or of
/// the smallest that it does not.
fn challenge(random: &mut Random) -> u32 {
    match random.below(6) {
        0 => random.pick(&[65_534, 65_535]),
        1 => random.pick(&[65_536, 65_537]),
        2 | 3 => random.between(0, 65_535),
        _ => random.word(),
    }
}

/// A case of the record writer. Where the buffer is shorter than the bytes in
/// use, the file goes on behind it.
pub fn append(random: &mut Random) -> Box<dyn Case> {
    Box::new(append_case(random))
}

/// A sheet, a buffer with a file of either version, and a round.
fn append_case(random: &mut Random) -> WriterCase {
    let (sheet, header) = sheets::bytes(random, 5);
    let file = if random.once_in(5) {
        files::damaged(random, &header)
    } else {
        files::any(random, &header)
    };
    let record = files::record_in(&header, &file);
    let room = match random.below(10) {
        0..=3 => record,
        4 => record - 1,
        5 => record + 1,
        6 => 0,
        7 => random.below(record),
        _ => record + random.below(100),
    };
    let (used, length) = lengths(random, record, file.len(), room);
    WriterCase {
        writing: Writing::Append {
            sheet,
            used,
            round: Round { challenge: challenge(random), ..files::any_round(random) },
        },
        lent: Lent::first(random, &file, length),
    }
}

/// A case of the converter.
pub fn convert(random: &mut Random) -> Box<dyn Case> {
    Box::new(convert_case(random))
}

/// A sheet, a file of either version, each of them right or wrong, and a buffer.
/// Challenges of a file of version 1 mostly fit 16 bits, or all but one do.
fn convert_case(random: &mut Random) -> WriterCase {
    let (sheet, header) = sheets::bytes(random, 5);
    let mut file = if random.once_in(6) {
        files::damaged(random, &header)
    } else {
        files::any(random, &header)
    };
    if !random.once_in(8) {
        narrow(random, &header, &mut file);
    }
    let record = files::record_in(&header, &file);
    let other = files::record_length(&header, 3_u16.saturating_sub(files::version(&file)));
    let count = file.len().saturating_sub(7) / record;
    let lent = if random.once_in(12) {
        Lent::first(random, &[], file.len())
    } else {
        Lent::for_result(random, 7 + count * other)
    };
    WriterCase { writing: Writing::Convert { sheet, file }, lent }
}

/// Makes every challenge of a file of version 1 fit 16 bits, now and then all but
/// one, which is often the last.
fn narrow(random: &mut Random, header: &Header, file: &mut [u8]) {
    let places = files::wide_challenges(header, file);
    for at in &places {
        file[*at..at + 2].fill(0);
    }
    if !places.is_empty() && random.once_in(3) {
        let at = places[random.place(places.len())];
        let wide = match random.below(3) {
            0 => 65_536,
            1 => random.pick(&[0x1_0000, 0x2_0000, 0x100_0000, 0x8000_0000]) + 3,
            _ => random.between(65_536, u32::MAX),
        };
        file[at..at + 4].copy_from_slice(&wide.to_be_bytes());
    }
}

/// The bytes in use and the buffer's length, mostly those of the file and of
/// the file with so much room.
fn lengths(random: &mut Random, record: usize, file: usize, room: usize) -> (usize, usize) {
    let (mut used, mut length) = (file, file + room);
    match random.below(24) {
        0 => used += 1,
        1 => used = used.saturating_sub(1),
        2 => length = file.saturating_sub(1),
        3 => length = random.below(file + 1),
        4 => used = length + 1,
        5 => used = random.pick(&[0, 7, used + record, used.saturating_sub(record)]),
        6 => used += random.pick(&[1 << 16, 1 << 32, 1 << 63]),
        7 => used = usize::MAX - random.below(200),
        _ => {}
    }
    (used, length)
}

#[cfg(test)]
mod tests {
    use std::collections::BTreeMap;

    use super::*;
    use crate::library::Library::Judge;

    /// How often each name is met in so many cases.
    fn met(cases: u64, names: impl Fn(&mut Random) -> Vec<String>) -> BTreeMap<String, u32> {
        let mut met = BTreeMap::new();
        for seed in 0..cases {
            for name in names(&mut Random::new(seed)) {
                *met.entry(name).or_insert(0) += 1;
            }
        }
        met
    }

    #[test]
    fn empty_files_are_asked_for_in_versions_that_are_right_when_cut() {
        let met = met(4000, |random| {
            let Writing::Empty { version } = empty_case(random).writing else {
                return Vec::new();
            };
            vec![version.to_string()]
        });
        for version in [0, 1, 2, 3, 65_537, 65_538, u32::MAX] {
            let times = met.get(&version.to_string());
            assert!(times > Some(&20), "{version}: {met:?}");
        }
    }

    /// The version, the challenge where it is near the bound, and the number.
    fn appended(case: &WriterCase) -> Vec<String> {
        let Writing::Append { sheet, used, round } = &case.writing else {
            return Vec::new();
        };
        let mut lent = case.lent.clone();
        let named = files::version(lent.buffer());
        let answer = Judge.append(sheet, lent.buffer(), *used, round);
        vec![format!("{named}, {}, {}", round.challenge, answer.refusal)]
    }

    #[test]
    fn challenges_around_65535_are_appended_in_both_versions() {
        let met = met(20_000, |random| appended(&append_case(random)));
        for wanted in [
            "1, 65535, 0",
            "1, 65535, 22",
            "1, 65536, 0",
            "1, 65536, 22",
            "2, 65535, 0",
            "2, 65535, 22",
            "2, 65536, 15",
            "2, 65536, 12",
        ] {
            assert!(met.get(wanted) > Some(&20), "{wanted}");
        }
    }

    /// What stands out in a case of the converter.
    fn converted(case: &WriterCase) -> Vec<String> {
        let Writing::Convert { sheet, file } = &case.writing else {
            return Vec::new();
        };
        let (mut lent, mut whole) = (case.lent.clone(), vec![0; 2 * file.len()]);
        let named = files::version(file);
        let refusal = Judge.convert(sheet, file, lent.buffer()).refusal;
        let needed = Judge.convert(sheet, file, &mut whole).length;
        let length = lent.buffer().len();
        let header = Judge.load(sheet).header;
        let count = Judge.count(sheet, file).count;
        let challenge = |number: u32| Judge.read(sheet, file, number as usize).round.challenge;
        let wide: Vec<u32> = (0..count).filter(|n| challenge(*n) > 65_535).collect();
        let first = wide == [0] && count > 1;
        let last = wide == [count.saturating_sub(1)] && count > 1;
        let beyond = |number: u32| challenge(number) >= header.challenges;
        let names = [
            ("just fits", refusal == 0 && length == needed),
            ("one byte short", refusal == 22 && length + 1 == needed),
            ("shorter than the file", refusal == 0 && length < file.len()),
            ("no rounds", refusal == 0 && count == 0),
            ("512 rounds", refusal == 0 && count == 512),
            ("K or more", refusal == 0 && (0..count).any(beyond)),
            ("wide first", refusal == 15 && first),
            ("wide last", refusal == 15 && last),
            ("wide last and short", refusal == 15 && last && length < 7 + 10 * count as usize),
            ("12", refusal == 12),
        ];
        let names = names.into_iter().filter(|(_, holds)| *holds);
        names.map(|(name, _)| format!("{named}: {name}")).collect()
    }

    #[test]
    fn files_are_converted_both_ways_into_buffers_that_just_fit() {
        let met = met(20_000, |random| converted(&convert_case(random)));
        for name in ["just fits", "one byte short", "no rounds", "512 rounds", "K or more", "12"] {
            for version in [1, 2] {
                let wanted = format!("{version}: {name}");
                assert!(met.get(&wanted) > Some(&20), "{wanted}: {met:?}");
            }
        }
        for wanted in [
            "1: shorter than the file",
            "1: wide first",
            "1: wide last",
            "1: wide last and short",
            "0: 12",
            "3: 12",
        ] {
            assert!(met.get(wanted) > Some(&20), "{wanted}: {met:?}");
        }
    }
}
