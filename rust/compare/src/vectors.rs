//! The stored vectors, docs/vectors.txt: calls with their inputs and answers, a
//! line each.
//!
//! The text's own first lines say how it is read. Every answer is made anew
//! from the inputs on its line, by the judge and by the proved library, and
//! must be the stored one.

mod answers;
mod bytes;
mod inputs;
mod ledger_answers;
mod or_answers;
mod prover_answers;
mod team_answers;
mod watch_answers;

use std::fs;
use std::io;
use std::path::Path;

use crate::calls::Call;
use crate::library::Library;
use inputs::Inputs;

pub use ledger_answers::{entries, ledger};
pub use prover_answers::prover;
pub use watch_answers::watch;

/// What a line is to a reader.
pub enum Line<'a> {
    /// A comment, or nothing.
    Comment,
    Sheet(Vec<u8>),
    SecondSheet(Vec<u8>),
    File(Vec<u8>),
    PatternFile(Vec<u8>),
    /// A call, the text up to its arrow, and its inputs.
    Call(Call, &'a str, Inputs<'a>),
}

impl<'a> Line<'a> {
    /// Reads a line. An error says what cannot be read.
    pub fn read(line: &'a str) -> Result<Line<'a>, String> {
        if line.is_empty() || line.starts_with('#') {
            return Ok(Line::Comment);
        }
        let Some((words, _)) = line.split_once(" ->") else {
            return match line.split_once(' ') {
                Some(("sheet", text)) => Ok(Line::Sheet(bytes::read(text)?)),
                Some(("second_sheet", text)) => Ok(Line::SecondSheet(bytes::read(text)?)),
                Some(("file", text)) => Ok(Line::File(bytes::read(text)?)),
                Some(("pattern_file", text)) => Ok(Line::PatternFile(bytes::read(text)?)),
                _ => Err("there is no arrow".to_string()),
            };
        };
        let (name, inputs) = words.split_once(' ').unwrap_or((words, ""));
        let call = Call::all().find(|call| call.name() == name);
        let call = call.ok_or_else(|| format!("there is no call {name}"))?;
        Ok(Line::Call(call, words, Inputs::read(inputs)?))
    }
}

/// The sheet, the second sheet of the OR proof, the round file and the pattern
/// file that calls are given.
#[derive(Default)]
pub struct Given {
    sheet: Vec<u8>,
    second: Vec<u8>,
    file: Vec<u8>,
    patterns: Vec<u8>,
}

impl Given {
    /// The line with its answer made anew by this library.
    fn remade(&mut self, line: &str, library: Library) -> Result<String, String> {
        match Line::read(line)? {
            Line::Comment => {}
            Line::Sheet(sheet) => self.sheet = sheet,
            Line::SecondSheet(sheet) => self.second = sheet,
            Line::File(file) => self.file = file,
            Line::PatternFile(patterns) => self.patterns = patterns,
            Line::Call(call, words, mut inputs) => {
                let answer = self.answer(library, call, &mut inputs)?;
                inputs.end()?;
                return Ok(format!("{words} -> {answer}"));
            }
        }
        Ok(line.to_string())
    }
}

/// The text with every answer made anew by this library. An error names the
/// first line that cannot be read.
pub fn remade(text: &str, library: Library) -> Result<String, String> {
    let mut given = Given::default();
    let mut made = String::new();
    for (number, line) in (1..).zip(text.lines()) {
        let line = given.remade(line, library);
        made += &line.map_err(|error| format!("line {number}: {error}"))?;
        made.push('\n');
    }
    Ok(made)
}

/// Writes the file of vectors anew, with the judge's answers.
pub fn store(path: &Path) -> io::Result<()> {
    let text = fs::read_to_string(path)?;
    let made = remade(&text, Library::Judge).map_err(io::Error::other)?;
    fs::write(path, made)
}

#[cfg(test)]
mod tests;
