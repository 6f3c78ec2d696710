//! The command `check`: a witness against a sheet.

use crate::command_line::failure::Outcome;
use crate::command_line::words::{Grammar, Words};
use crate::sheets::{self, witness};
use std::ffi::OsString;
use std::io::Write;

/// The command's help.
pub const HELP: &str = "\
usage: dimkhoros check SHEET x=VALUE,...

Says whether x is a witness of the sheet, that is, whether [x] = z. If it is not, standard error says so with the number 17, and
the exit status is 1.

    SHEET        a sheet
    x=VALUE,...  the witness to check, a value for each column

Example:
    $ dimkhoros make schnorr m=23 q=11 h=2 x=7 -o sheet.bin
    13 = 2^x mod 23, q = 11, K = 11
    $ dimkhoros check sheet.bin x=7
    [7] = 13 is the statement: 7 is a witness
";

const GRAMMAR: Grammar =
    Grammar { plain: &["SHEET"], optional: 0, letters: &["x"], flags: &[], options: &[] };

/// Runs the command.
pub fn run(words: Vec<OsString>, out: &mut dyn Write) -> Outcome {
    let words = Words::sort(words, &GRAMMAR)?;
    let x = words.needed("x", "the witness to check")?;
    let sheet = sheets::load(&words.path(0))?;
    let x = sheets::by_column(&sheet, x)?;
    let image = sheets::image(&sheet, "x", &x)?;
    if image != sheet.values().statement {
        return Err(witness::no_witness(&sheet, "x", &x));
    }
    writeln!(out, "{}", witness::is_witness(&sheet, &x, "the statement"))?;
    Ok(())
}
