//! The values that a command hands to the library, and by which of them a call is refused.

use crate::command_line::failure::{Failure, rule};
use crate::sheets::{allowed, column_count, row_count};
use dimkhoros::{Instance, PLACES, Places, Refusal, Round};

/// Values under a letter, and the refusal that they may be refused with.
pub struct Brought<'a> {
    sheet: &'a Instance,
    letter: String,
    values: Vec<u32>,
    refusal: Refusal,
}

impl<'a> Brought<'a> {
    /// A commitment, a value for each row.
    pub fn commitment(sheet: &'a Instance, letter: impl Into<String>, values: &Places) -> Self {
        let values = values[..row_count(sheet)].to_vec();
        Brought { sheet, letter: letter.into(), values, refusal: Refusal::Commitment }
    }

    /// A statement or a player's image, a value for each row.
    pub fn statement(sheet: &'a Instance, letter: impl Into<String>, values: &Places) -> Self {
        let refusal = Refusal::Statement;
        Brought { refusal, ..Brought::commitment(sheet, letter, values) }
    }

    /// Entries or public values of a sheet with this group.
    pub fn entries(sheet: &'a Instance, letter: impl Into<String>, values: &[u32]) -> Self {
        let values = values.to_vec();
        Brought { sheet, letter: letter.into(), values, refusal: Refusal::Entry }
    }

    /// A challenge.
    pub fn challenge(sheet: &'a Instance, letter: impl Into<String>, challenge: u32) -> Self {
        let values = vec![challenge];
        Brought { sheet, letter: letter.into(), values, refusal: Refusal::Challenge }
    }

    /// A witness, nonce or response, a value for each column.
    pub fn coordinates(sheet: &'a Instance, letter: impl Into<String>, values: &Places) -> Self {
        let values = values[..column_count(sheet)].to_vec();
        Brought { sheet, letter: letter.into(), values, refusal: Refusal::Coordinate }
    }

    /// The values of a round.
    pub fn round(sheet: &'a Instance, round: &Round) -> [Self; 3] {
        [
            Brought::commitment(sheet, "t", &round.commitment),
            Brought::challenge(sheet, "c", round.challenge),
            Brought::coordinates(sheet, "r", &round.response),
        ]
    }

    /// The first of the values that is refused, where one is. The library is asked of each.
    fn outside(&self) -> Option<u32> {
        let refused = |value: &u32| match self.refusal {
            // One is a coordinate on every sheet.
            Refusal::Challenge => {
                self.sheet.simulate(*value, &[1; PLACES]) == Err(Refusal::Challenge)
            }
            Refusal::Coordinate => self.sheet.image(&[*value; PLACES]).is_err(),
            _ => self.sheet.with_statement(&[*value; PLACES]).is_err(),
        };
        self.values.iter().copied().find(refused)
    }
}

/// The first of these values that a refusal is by, such as `11 in c=`, and its sheet.
pub fn by<'a>(refusal: Refusal, brought: &[Brought<'a>]) -> Option<(String, &'a Instance)> {
    let mut same = brought.iter().filter(|brought| brought.refusal == refusal);
    same.find_map(|brought| {
        let value = brought.outside()?;
        Some((format!("{value} in {}=", brought.letter), brought.sheet))
    })
}

/// A refusal of a call that was brought these values, with the first value that it is by.
pub fn refused(refusal: Refusal, brought: &[Brought<'_>]) -> Failure {
    match by(refusal, brought) {
        Some((by, sheet)) => {
            let allowed = allowed::by(refusal, &sheet.values().header);
            Failure::cause(refusal, format!("{by}: {}{allowed}", rule(refusal)))
        }
        None => refusal.into(),
    }
}

/// Whether a refusal is by a value of a round alone.
pub fn is_by_value(refusal: Refusal) -> bool {
    matches!(refusal, Refusal::Commitment | Refusal::Challenge | Refusal::Coordinate)
}

/// A refusal of two rounds that have these commitments, each with its letter, where the first one has this challenge and these
/// are rejected.
pub fn of_two(
    refusal: Refusal,
    commitments: &[(&str, [String; 2])],
    challenge: u32,
    rejected: [bool; 2],
) -> Failure {
    let differ = commitments.iter().find(|(_, [one, other])| one != other);
    match (refusal, differ) {
        (Refusal::CommitmentsDiffer, Some((letter, [one, other]))) => {
            Failure::refused(refusal, format!("{one} and {other} in {letter}="))
        }
        (Refusal::ChallengesEqual, _) => {
            Failure::refused(refusal, format!("{challenge} in both c="))
        }
        (Refusal::RoundRejected, _) => Failure::refused(refusal, self::rejected(rejected, [0, 1])),
        _ => refusal.into(),
    }
}

/// Which of two rounds with these numbers is rejected, or that both are.
pub fn rejected(is: [bool; 2], [first, second]: [usize; 2]) -> String {
    match is {
        [true, false] => format!("round {first} is rejected"),
        [false, _] => format!("round {second} is rejected"),
        [true, true] => format!("rounds {first} and {second} are rejected"),
    }
}
