//! Cases of the sheet maker, and of the shipped pattern file.

use crate::calls::Call;
use crate::cases::{Case, WriterCase, Writing};
use crate::damage::faults;
use crate::groups::Group;
use crate::lent::Lent;
use crate::library::{Plan, SHIPPED_PATTERNS};
use crate::pattern_files::{self, Pattern};
use crate::random::Random;

/// A case of the shipped pattern file.
pub fn patterns(random: &mut Random) -> Box<dyn Case> {
    Box::new(WriterCase {
        writing: Writing::Patterns,
        lent: Lent::for_result(random, SHIPPED_PATTERNS),
    })
}

/// A case of the sheet maker.
pub fn from_pattern(random: &mut Random) -> Box<dyn Case> {
    Box::new(from_pattern_case(random))
}

fn from_pattern_case(random: &mut Random) -> WriterCase {
    let patterns = pattern_files::any(random);
    let number = match random.below(6) {
        0 => 0,
        _ => 1 + random.place(patterns.len()) as u32,
    };
    let kind = if number == 0 { 2 } else { 1 };
    let group = Group::of_kind(random, kind);
    let mut made = Made::of_pattern(random, &group, patterns, number);
    let needed = made.needed();
    let numbers: Vec<u32> = made_numbers().collect();
    if random.once_in(2) {
        let first = random.pick(&numbers);
        for fault in faults(random, &numbers, first) {
            made.spoil(random, &group, fault);
        }
    }
    WriterCase {
        writing: Writing::FromPattern {
            patterns: made.file.unwrap_or(pattern_files::file(&made.patterns)),
            plan: made.plan,
            values: made.values,
            statement: made.statement,
        },
        lent: Lent::for_result(random, needed),
    }
}

/// The numbers that inputs can be spoilt with. The buffer is lent apart.
fn made_numbers() -> impl Iterator<Item = u32> {
    let numbers = Call::FromPattern.others().iter().copied();
    numbers.filter(|number| *number != 22)
}

/// What the sheet maker takes, but for the buffer.
struct Made {
    patterns: Vec<Pattern>,
    /// The file's bytes where they are not those of the patterns.
    file: Option<Vec<u8>>,
    plan: Plan,
    values: Vec<u32>,
    statement: Vec<u32>,
}

impl Made {
    /// Right inputs for the pattern of this number, or for a root sheet.
    fn of_pattern(random: &mut Random, group: &Group, patterns: Vec<Pattern>, number: u32) -> Made {
        let (values, rows) = match number {
            0 => (0, 1),
            _ => {
                let wanted = &patterns[number as usize - 1];
                (wanted.values(), wanted.rows())
            }
        };
        Made {
            patterns,
            file: None,
            plan: Plan {
                number,
                modulus: group.modulus,
                order: group.order,
                challenges: group.challenges(random),
            },
            values: (0..values).map(|_| group.element(random)).collect(),
            statement: (0..rows).map(|_| group.element(random)).collect(),
        }
    }

    /// The length of the sheet.
    fn needed(&self) -> usize {
        let entries = match self.plan.number {
            0 => 0,
            number => self.patterns[number as usize - 1].digits.len(),
        };
        20 + 4 * (entries + self.statement.len())
    }

    /// Puts a fault with this number in.
    fn spoil(&mut self, random: &mut Random, group: &Group, number: u32) {
        match number {
            23 => {
                let patterns = self.patterns.clone();
                self.file = Some(pattern_files::misshapen(random, patterns));
            }
            24 => {
                let place = self.misnamed(random);
                self.patterns[place].misname(random);
            }
            1 => match random.below(4) {
                0 | 1 => self.plan.number = self.wrong_number(random),
                2 => miscount(random, &mut self.values),
                _ => miscount(random, &mut self.statement),
            },
            5 => self.plan.modulus = random.between(0, 2),
            6 => self.plan.order = random.between(0, 1),
            8 => self.plan.challenges = group.wrong_challenges(random),
            10 if !self.values.is_empty() => {
                let at = random.below(self.values.len());
                self.values[at] = group.other(random);
            }
            _ => {
                let at = random.below(self.statement.len());
                self.statement[at] = group.other(random);
            }
        }
    }

    /// The place of the pattern to misname: the wanted one, the first or any.
    fn misnamed(&self, random: &mut Random) -> usize {
        let count = self.patterns.len();
        match random.below(3) {
            0 => (self.plan.number as usize).clamp(1, count) - 1,
            1 => 0,
            _ => random.below(count),
        }
    }

    /// A number above the file's count, often the next one, the number that a
    /// root sheet had, or one that is right where it is cut.
    fn wrong_number(&self, random: &mut Random) -> u32 {
        let count = self.patterns.len() as u32;
        match random.below(5) {
            0 | 1 => count + 1,
            2 if count < 6 => 6,
            3 => random.pick(&[33, 255, 256, 257, u32::MAX]),
            _ => self.plan.number + random.pick(&[256, 0x1_0000, 0x100_0000, 0x8000_0000]),
        }
    }
}

/// Makes the values one or some more or fewer.
fn miscount(random: &mut Random, values: &mut Vec<u32>) {
    match random.below(4) {
        0 if !values.is_empty() => values.truncate(values.len() - 1),
        1 if !values.is_empty() => values.clear(),
        2 => values.extend((0..random.between(1, 300)).map(|_| 1)),
        _ => values.push(1),
    }
}

#[cfg(test)]
mod tests {
    use super::*;
    use crate::library::Library::Judge;

    /// What stands out in a case, with its number in the judge.
    fn shapes(case: &WriterCase) -> Vec<String> {
        let Writing::FromPattern { patterns, plan, .. } = &case.writing else { unreachable!() };
        let (read, rest) = pattern_files::read(patterns, 8);
        let count = patterns.get(5).copied().unwrap_or(0).into();
        let number = plan.number as usize;
        let misnamed = read.iter().position(|pattern| !pattern.is_named());
        let misnamed = misnamed.map(|place| place + 1);
        let known = (1..=count).contains(&number);
        let most = read.iter().any(|pattern| pattern.values() == 8);
        let cut = (2..count).contains(&read.len());
        let mut shapes = vec![
            (patterns.is_empty(), "an empty file"),
            (count == 0 && patterns.len() == 6, "a count of 0"),
            (count == 33 && read.len() == 33, "a count of 33"),
            (read.len() == count && rest.len() == 1, "a byte behind"),
            (misnamed == Some(1) && cut, "24 then 23"),
            (misnamed.is_some() && number == 0, "24 and a root sheet"),
            (known && misnamed.is_some_and(|of| of < number), "24 before"),
            (known && misnamed > Some(number), "24 behind"),
            (most, "eight values"),
            (number == count, "the last pattern"),
            (number == count + 1, "one more"),
            (number == 6 && count == 5, "6 of five"),
            (number == 257, "257"),
            (plan.number == u32::MAX, "the largest number"),
        ];
        for (size, name) in [(0, "a size of 0"), (9, "a size of 9")] {
            let stuck = read.len() < count && rest.iter().take(3).any(|found| *found == size);
            shapes.push((stuck, name));
        }
        let given = case.run(Judge).answers[0].1.refusal();
        let met = shapes.into_iter().filter(|(met, _)| *met);
        met.map(|(_, name)| format!("{name}: {given}")).collect()
    }

    #[test]
    fn files_and_numbers_at_every_bound_are_met() {
        let mut met = std::collections::BTreeMap::new();
        for seed in 0..8000 {
            for shape in shapes(&from_pattern_case(&mut Random::new(seed))) {
                *met.entry(shape).or_insert(0) += 1;
            }
        }
        for wanted in [
            "an empty file: 23",
            "a count of 0: 23",
            "a count of 33: 23",
            "a byte behind: 23",
            "24 then 23: 23",
            "24 and a root sheet: 24",
            "24 before: 24",
            "24 behind: 24",
            "eight values: 0",
            "the last pattern: 0",
            "one more: 1",
            "6 of five: 1",
            "257: 1",
            "the largest number: 1",
            "a size of 0: 23",
            "a size of 9: 23",
        ] {
            assert!(met.get(wanted) > Some(&3), "{wanted}: {met:?}");
        }
    }
}
