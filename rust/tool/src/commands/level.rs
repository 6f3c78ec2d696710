//! The command `level`: a level file.

use crate::command_line::failure::{Failure, Outcome};
use crate::command_line::files::Target;
use crate::command_line::words::{Grammar, Words};
use crate::sheets::course;
use std::ffi::OsString;
use std::io::Write;

/// The command's help.
pub const HELP: &str = "\
usage: dimkhoros level W FILE [--force]

Writes the level W to a file of one byte. A file of R rounds passes at level W if every round is accepted and K^R is at least 2^W.

    W        the level, a number from 1 to 64
    FILE     the file to write: level.bin in a student's folder
    --force  writes over a file that is there

Example:
    $ dimkhoros level 20 level.bin
    level.bin has level 20
    $ od -An -tu1 level.bin
      20
";

const GRAMMAR: Grammar =
    Grammar { plain: &["W", "FILE"], optional: 0, letters: &[], flags: &["--force"], options: &[] };

/// Runs the command.
pub fn run(words: Vec<OsString>, out: &mut dyn Write) -> Outcome {
    let words = Words::sort(words, &GRAMMAR)?;
    let word = words.plain()[0].to_string_lossy();
    let level = course::level(&word)
        .ok_or_else(|| Failure::words(format!("W is a number from 1 to 64, and not {word}")))?;
    let path = words.path(1);
    let line = format!("{} has level {level}", crate::command_line::files::name(&path));
    Target::named(path, words.flag("--force"))?.write_answering(&[level], &line, out)
}
