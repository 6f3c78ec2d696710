//! The call that writes the game's text on a sheet and a round file.

use std::fmt;

use crate::calls::Call;
use crate::cases::Case;
use crate::lent::{self, AROUND};
use crate::library::{Header, Library};
use crate::outcome::{Answer, Outcome};
use crate::printing::hex;
use crate::sheets;

/// A sheet and a round file.
#[derive(Debug)]
pub struct GameCase {
    pub sheet: Vec<u8>,
    pub file: Vec<u8>,
}

impl Case for GameCase {
    fn run(&self, library: Library) -> Outcome {
        let (length, memory) = lent::for_game(|text| library.game(&self.sheet, &self.file, text));
        let text = &memory[AROUND..];
        let shown = String::from_utf8_lossy(&text[..length.min(text.len())]).into_owned();
        let answer = Answer::Told { length, text: shown };
        Outcome::with_memory(Call::Game, answer, memory)
    }

    fn header(&self) -> Option<Header> {
        sheets::header(&self.sheet)
    }
}

impl fmt::Display for GameCase {
    fn fmt(&self, out: &mut fmt::Formatter) -> fmt::Result {
        writeln!(out, "{}", Call::Game.name())?;
        writeln!(out, "    sheet {}", hex(&self.sheet))?;
        write!(out, "    file {}", hex(&self.file))
    }
}
