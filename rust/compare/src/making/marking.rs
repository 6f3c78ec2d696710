//! Cases of the marker.

use crate::calls::SHEET_NUMBERS;
use crate::cases::{Case, TextCall, TextCase};
use crate::damage;
use crate::files;
use crate::groups::Group;
use crate::instance::Instance;
use crate::lent::Lent;
use crate::library::{LONGEST_TEXT, Round};
use crate::making::brought::{round, spoil_round};
use crate::making::levels::{self, HIGHEST, needed};
use crate::random::Random;

/// A case of the marker.
pub fn mark(random: &mut Random) -> Box<dyn Case> {
    Box::new(mark_case(random))
}

/// A sheet, a file and a level to mark, each of them whole, damaged or empty.
pub fn mark_case(random: &mut Random) -> TextCase {
    let instance = instance(random);
    let challenges = instance.sheet.header.challenges;
    let header = &instance.sheet.header;
    let (version, count) = (files::any_version(random), round_count(random, &instance));
    let file = match random.below(12) {
        0 => Vec::new(),
        1 => files::damaged(random, header),
        2 => files::of_count(random, header, version, 2),
        _ => mark_file(random, &instance, version, count),
    };
    let sheet = match random.below(24) {
        0 => Vec::new(),
        1 => damage::damaged(random, instance.sheet.bytes()),
        2..=5 => {
            let number = random.pick(&SHEET_NUMBERS);
            damage::refused(random, number)
        }
        _ => instance.sheet.bytes(),
    };
    TextCase {
        call: TextCall::Mark,
        sheet,
        file,
        level: levels::level(random, challenges, count),
        lent: Lent::first(random, &[], LONGEST_TEXT),
    }
}

/// An instance, now and then with the least K, or with one that is as large as
/// can be or whose powers are powers of two.
fn instance(random: &mut Random) -> Instance {
    let kind = random.between(1, 2);
    let (group, challenges) = match random.below(10) {
        0 => (Group::of_kind(random, kind), Some(2)),
        1 | 2 => {
            let challenges = random.pick(&[2, 4, 16, 256, 65_535, 65_536, 65_536, 65_536]);
            (Group::wide(random, kind), Some(challenges))
        }
        _ => (Group::of_kind(random, kind), None),
    };
    let mut instance = Instance::of_group(random, group);
    if let Some(challenges) = challenges {
        instance.sheet.header.challenges = challenges;
    }
    instance
}

/// How many rounds a file has that is to be marked, often as many as the highest
/// level needs or one fewer. Large files are rare, because they take long.
fn round_count(random: &mut Random, instance: &Instance) -> usize {
    let small = instance.rows() * instance.columns() <= 4;
    match random.below(40) {
        0 => random.pick(&[9, 10, 11]),
        1 if small || random.once_in(10) => random.pick(&[99, 100, 101, 256, 257]),
        2 | 3 if small || random.once_in(10) => random.pick(&[511, 512]),
        4..=7 => 0,
        8..=15 => {
            let needed = needed(instance.sheet.header.challenges, HIGHEST);
            needed - random.below(2)
        }
        _ => 1 + random.below(6),
    }
}

/// A file of this version and of so many rounds that are all accepted, or of
/// which some are not.
pub fn mark_file(random: &mut Random, instance: &Instance, version: u16, count: usize) -> Vec<u8> {
    let bad = random.pick(&[0, 0, 1, 2, 8]);
    let mut rounds = Vec::new();
    for _ in 0..count {
        rounds.push(if bad > 0 && random.once_in(bad) {
            other(random, instance)
        } else {
            instance.accepted(random)
        });
    }
    files::of_rounds(&instance.sheet.header, version, &rounds)
}

/// A round that is mostly rejected or refused.
fn other(random: &mut Random, instance: &Instance) -> Round {
    let mut other = round(random, instance);
    for number in [16, 15, 14] {
        if random.once_in(6) {
            spoil_round(random, instance, &mut other, number);
        }
    }
    other
}

#[cfg(test)]
mod tests {
    use super::*;
    use crate::library::Library::Judge;
    use crate::making::levels::reached;

    #[test]
    fn every_line_of_a_marker_is_met() {
        let lines = [
            "sheet 2\n",
            "file 12\n",
            "level 25\n",
            "rounds 0\nfail\n",
            "accepted\npass\n",
            "accepted\nfail\n",
            "rejected 0\n",
            "rejected 7\n",
            "rejected 0 1\n",
            "rejected 0 1 2 3 4 5 6 7\n",
            "refused 14\n",
            "refused 15\n",
            "refused 16\nfail\n",
            "rounds 512\n",
        ];
        let mut met = [0; 14];
        for seed in 0..1500 {
            let outcome = mark(&mut Random::new(seed)).run(Judge);
            let text = String::from_utf8_lossy(&outcome.memory).into_owned();
            for (times, line) in met.iter_mut().zip(lines) {
                *times += u32::from(text.contains(line));
            }
        }
        assert!(met.iter().all(|times| *times > 3), "{met:?}");
    }

    /// K, the count of rounds, the level's bytes, and whether the file passes.
    type Shape<'a> = (u32, usize, &'a [u8], bool);

    /// A name, and which cases have it by their shape.
    type Named = (&'static str, fn(Shape) -> bool);

    /// The shape of a case, where all its rounds are accepted or its level is
    /// refused.
    fn shape(case: &TextCase) -> Option<Shape<'_>> {
        let text = judge::marker(&case.sheet, &case.file, &case.level);
        let alike = text == "level 25\n" || text.starts_with("rounds") && !text.contains(" re");
        let header = crate::sheets::header(&case.sheet).filter(|_| alike)?;
        let count = u16::from_be_bytes([case.file[5], case.file[6]]);
        let passes = text.ends_with("pass\n");
        Some((header.challenges, count.into(), &case.level, passes))
    }

    #[test]
    fn levels_are_met_at_their_bounds() {
        let shapes: [Named; 12] = [
            ("just reached", |(k, n, w, passes)| passes && w == [reached(k, n) as u8]),
            ("just missed", |(k, n, w, passes)| !passes && n > 0 && w == [reached(k, n) as u8 + 1]),
            ("equal", |(k, n, w, passes)| {
                passes && k.is_power_of_two() && k.ilog2() as usize * n == w[0].into()
            }),
            ("65,536 four times", |shape| shape == (65_536, 4, &[64], true)),
            ("65,536 three times", |shape| shape == (65_536, 3, &[64], false)),
            ("65,535 four times", |shape| shape == (65_535, 4, &[64], false)),
            ("2 64 times", |shape| shape == (2, 64, &[64], true)),
            ("2 63 times", |shape| shape == (2, 63, &[64], false)),
            ("no rounds", |(_, n, w, _)| n == 0 && w.len() == 1),
            ("no bytes", |(.., w, _)| w.is_empty()),
            ("0, 65", |(.., w, _)| w == [0] || w == [65]),
            ("two bytes", |(.., w, _)| w.len() == 2 && (1..=64).contains(&w[0])),
        ];
        let mut met = [0; 12];
        for seed in 0..30_000 {
            let case = mark_case(&mut Random::new(seed));
            if let Some(shape) = shape(&case) {
                for (times, (_, holds)) in met.iter_mut().zip(shapes) {
                    *times += u32::from(holds(shape));
                }
            }
        }
        for ((name, _), times) in shapes.iter().zip(met) {
            assert!(times > 10, "{name}: {times}");
        }
    }
}
