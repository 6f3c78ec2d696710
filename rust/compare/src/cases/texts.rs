//! The calls that write a text on a sheet and a round file: the marker's text,
//! which takes a level too, and the reason's line.

use std::fmt;

use crate::calls::Call;
use crate::cases::Case;
use crate::lent::Lent;
use crate::library::{Header, Library};
use crate::outcome::{Answer, Outcome};
use crate::printing::hex;
use crate::sheets;

/// Which text it is.
#[derive(Clone, Copy, Debug, PartialEq, Eq)]
pub enum TextCall {
    Mark,
    Reason,
}

/// A sheet, a round file, a level file, which the reason does not take, and as
/// many lent bytes as the text takes.
#[derive(Debug)]
pub struct TextCase {
    pub call: TextCall,
    pub sheet: Vec<u8>,
    pub file: Vec<u8>,
    pub level: Vec<u8>,
    pub lent: Lent,
}

/// The lent bytes as the array that a call takes.
fn lent_text<const N: usize>(lent: &mut Lent) -> &mut [u8; N] {
    let Some(text) = lent.buffer().first_chunk_mut() else {
        panic!("a case of a text lends fewer than {N} bytes");
    };
    text
}

impl TextCase {
    fn call(&self) -> Call {
        match self.call {
            TextCall::Mark => Call::Mark,
            TextCall::Reason => Call::Reason,
        }
    }
}

impl Case for TextCase {
    fn run(&self, library: Library) -> Outcome {
        let (sheet, file, mut lent) = (&self.sheet, &self.file, self.lent.clone());
        let length = match self.call {
            TextCall::Mark => library.mark(sheet, file, &self.level, lent_text(&mut lent)),
            TextCall::Reason => library.reason(sheet, file, lent_text(&mut lent)),
        };
        let text = lent.buffer();
        let shown = String::from_utf8_lossy(&text[..length.min(text.len())]).into_owned();
        let answer = Answer::Told { length, text: shown };
        Outcome::with_memory(self.call(), answer, lent.memory)
    }

    fn header(&self) -> Option<Header> {
        sheets::header(&self.sheet)
    }
}

impl fmt::Display for TextCase {
    fn fmt(&self, out: &mut fmt::Formatter) -> fmt::Result {
        writeln!(out, "{}", self.call().name())?;
        writeln!(out, "    sheet {}", hex(&self.sheet))?;
        writeln!(out, "    file {}", hex(&self.file))?;
        writeln!(out, "    level {}", hex(&self.level))?;
        write!(out, "{}", self.lent)
    }
}
