//! The lines between the boxes: a word and decimal numbers, one space before each. docs/BOXES.md says what they mean.

use super::base::Base;
use super::points::point;
use std::fmt::Write as _;
use std::io::{self, ErrorKind, Read, Write};

/// No line has more bytes.
const LONGEST_LINE: usize = 255;

/// A line: its word, empty where the text is no word with numbers, and its numbers.
#[derive(Default)]
pub struct Line {
    pub word: String,
    pub numbers: Vec<u32>,
}

/// The number that these digits are, one to ten of them, where it is below 2^32.
fn read_number(digits: &str) -> Option<u32> {
    let plain = digits.len() <= 10 && digits.bytes().all(|byte| byte.is_ascii_digit());
    digits.parse().ok().filter(|_| plain)
}

impl Line {
    /// Takes the text of a line apart.
    pub fn read(text: &str) -> Line {
        let mut parts = text.split(' ');
        let word = parts.next().unwrap_or_default().to_string();
        let numbers: Option<Vec<u32>> = parts.map(read_number).collect();
        numbers.map(|numbers| Line { word, numbers }).unwrap_or_default()
    }

    /// Whether the line has this word and this many numbers.
    pub fn is(&self, word: &str, count: usize) -> bool {
        self.word == word && self.numbers.len() == count
    }
}

impl Base {
    /// Waits for a byte; there is none where the other box has closed its end.
    fn hear_byte(&self) -> io::Result<Option<u8>> {
        let mut byte = [0];
        match (&self.input).read_exact(&mut byte) {
            Ok(()) => Ok(Some(byte[0])),
            Err(error) if error.kind() == ErrorKind::UnexpectedEof => Ok(None),
            Err(error) => Err(error),
        }
    }

    /// Waits for a line; there is none where the other box has closed its end. It takes one byte at a time, so that the lines
    /// behind this one stay in the pipe. What is too long for a line is cut, and has then too many numbers or digits.
    pub fn hear(&self) -> io::Result<Option<Line>> {
        let mut text = String::new();
        point("before a receive");
        while let Some(byte) = self.hear_byte()? {
            if byte == b'\n' {
                eprintln!("{} hears {text}", self.name);
                point("after a receive");
                return Ok(Some(Line::read(&text)));
            }
            if text.len() < LONGEST_LINE {
                text.push(char::from(byte));
            }
        }
        Ok(None)
    }

    /// Sends a word and two runs of numbers as one line, in one write, so that no part of a line ever goes over alone.
    pub fn send(&self, word: &str, first: &[u32], second: &[u32]) -> io::Result<()> {
        let mut text = word.to_string();
        for number in first.iter().chain(second) {
            write!(text, " {number}").expect("a string takes any text");
        }
        text.push('\n');
        point("before a send");
        eprint!("{} sends {text}", self.name);
        (&self.output).write_all(text.as_bytes())?;
        point("after a send");
        Ok(())
    }
}
