//! The calls of a team's combiner.

use std::fmt;

use crate::calls::Call;
use crate::cases::Case;
use crate::library::{Header, Library, MOST_PLAYERS, PLACES, Parts, Places};
use crate::outcome::{Answer, Outcome};
use crate::printing::{hex, numbers};
use crate::sheets;

/// A call on a sheet and on what the players of a team bring: their images, and
/// their commitments or responses.
#[derive(Debug)]
pub struct TeamCase {
    pub sheet: Vec<u8>,
    /// `TeamCommitment` or `TeamResponse`.
    pub call: Call,
    pub count: u32,
    pub images: Parts,
    pub parts: Parts,
}

impl Case for TeamCase {
    fn run(&self, library: Library) -> Outcome {
        let (sheet, count) = (&self.sheet, self.count);
        let answer = match self.call {
            Call::TeamCommitment => {
                library.team_commitment(sheet, count, &self.images, &self.parts)
            }
            _ => library.team_response(sheet, count, &self.images, &self.parts),
        };
        Outcome::of(self.call, Answer::Computed(answer))
    }

    fn header(&self) -> Option<Header> {
        sheets::header(&self.sheet)
    }

    fn slots(&self) -> Vec<Places> {
        if self.call == Call::TeamCommitment {
            return Vec::new();
        }
        let players = MOST_PLAYERS.min(self.count as usize);
        let rows = self.parts.chunks_exact(PLACES).take(players);
        rows.map(|row| std::array::from_fn(|column| row[column])).collect()
    }
}

impl fmt::Display for TeamCase {
    fn fmt(&self, out: &mut fmt::Formatter) -> fmt::Result {
        writeln!(out, "{}", self.call.name())?;
        writeln!(out, "    sheet {}", hex(&self.sheet))?;
        write!(out, "    count {:x}", self.count)?;
        for (name, parts) in [("image", &self.images), ("part", &self.parts)] {
            for row in parts.chunks(PLACES) {
                write!(out, "\n    {name} {}", numbers(row))?;
            }
        }
        Ok(())
    }
}
