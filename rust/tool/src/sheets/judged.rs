//! What the marker says of the rounds of a file.

use crate::sheets::levels;
use crate::sheets::notation::{and, counted};
use std::fmt;

/// The rounds of a file by what is said of them, and whether they pass.
#[derive(Debug)]
pub struct Judged {
    /// Whether every round is accepted and there are enough.
    pub passed: bool,
    /// How many rounds are accepted.
    pub accepted: usize,
    /// The numbers of the rounds that are rejected, rising.
    pub rejected: Vec<usize>,
    /// The numbers of the rounds that are refused, rising.
    pub refused: Vec<usize>,
    /// The level.
    pub level: u8,
    /// The sheet's challenge count.
    pub challenges: u32,
}

impl Judged {
    /// What the marker's text says that was made with this level file and with a sheet of this challenge count, or which file it
    /// refuses, as it calls it, with the number.
    pub fn read(text: &str, level: &[u8], challenges: u32) -> Result<Judged, (String, u32)> {
        let first = text.lines().next().unwrap_or_default();
        let (word, number) = first.split_once(' ').unwrap_or((first, ""));
        let Some(level) = levels::of(level).filter(|_| word == "rounds") else {
            return Err((word.to_string(), number.parse().unwrap_or(0)));
        };
        let numbers = |said: &str| {
            let pairs = text.lines().skip(1).filter_map(|line| {
                let mut words = line.split(' ');
                Some((words.next()?.parse().ok()?, words.next()?))
            });
            pairs.filter(|(_, word)| *word == said).map(|(number, _)| number).collect()
        };
        let accepted: Vec<usize> = numbers("accepted");
        Ok(Judged {
            passed: text.lines().last() == Some("pass"),
            accepted: accepted.len(),
            rejected: numbers("rejected"),
            refused: numbers("refused"),
            level,
            challenges,
        })
    }

    /// How many rounds there are.
    pub fn rounds(&self) -> usize {
        self.accepted + self.rejected.len() + self.refused.len()
    }

    /// The numbers of the rounds that are not accepted, rising.
    pub fn not_accepted(&self) -> Vec<usize> {
        let mut numbers = [&self.rejected[..], &self.refused].concat();
        numbers.sort_unstable();
        numbers
    }

    /// How many rounds the level asks for, if there are fewer.
    pub fn too_few(&self) -> Option<usize> {
        let needed = levels::needed(self.challenges, self.level);
        (self.rounds() < needed).then_some(needed)
    }
}

/// How many rounds pass, or why they fail, such as `rounds 2 and 7 rejected; round 5 refused`.
impl fmt::Display for Judged {
    fn fmt(&self, f: &mut fmt::Formatter<'_>) -> fmt::Result {
        if self.passed {
            return f.write_str(&counted(self.rounds(), "round"));
        }
        let bad = [("rejected", &self.rejected), ("refused", &self.refused)];
        let bad = bad.iter().filter(|(_, numbers)| !numbers.is_empty());
        let mut why: Vec<String> =
            bad.map(|(said, numbers)| format!("{} {said}", named(numbers))).collect();
        why.extend(self.too_few().map(|needed| {
            let (level, found) = (self.level, self.rounds());
            format!("too few rounds for level {level}: {needed} needed, {found} found")
        }));
        f.write_str(&why.join("; "))
    }
}

/// Rounds by their numbers, such as `rounds 2 and 7`.
pub fn named(numbers: &[usize]) -> String {
    match numbers {
        [number] => format!("round {number}"),
        _ => format!("rounds {}", and(numbers)),
    }
}

/// Numbers with a space between them.
pub fn spaced(numbers: &[usize]) -> String {
    numbers.iter().map(usize::to_string).collect::<Vec<String>>().join(" ")
}
