//! The command `show`: a sheet, round file or pattern file in words and tables.

mod folder;
mod forms;
pub mod patterns;
pub mod rounds;
mod sheet;

use crate::command_line::failure::{Failure, Outcome};
use crate::command_line::files;
use crate::command_line::json::Json;
use crate::command_line::words::{Grammar, Words};
use crate::sheets::{self, as_json};
use std::ffi::OsString;
use std::io::Write;
use std::path::Path;

/// The command's help.
pub const HELP: &str = "\
usage: dimkhoros show SHEET [--json]
       dimkhoros show SHEET ROUNDS [--json]
       dimkhoros show PATTERNS [--json]
       dimkhoros show FOLDER [--json]

Shows a sheet, a round file, a pattern file, or the files of a student's folder, in words and tables. Rounds that are rejected or
refused are shown with the others. If a file is refused, standard error has the value that is wrong, its byte, the rule, and the
number of the refusal. The exit status is then 1.

    SHEET     a sheet. It begins with HOM
    ROUNDS    a round file of the sheet. It begins with RND
    PATTERNS  a pattern file. It begins with PAT
    FOLDER    a folder with the sheet in sheet.bin, the round file in rounds.bin and the level in level.bin
    --json    prints JSON: an object with the file's numbers

Example:
    $ dimkhoros make schnorr m=23 q=11 h=2 x=7 -o sheet.bin
    13 = 2^x mod 23, q = 11, K = 11
    $ dimkhoros show sheet.bin
    sheet.bin is a sheet of 28 bytes.

    kind               1, exponent
    pattern            schnorr with h = 2
    modulus m          23
    order q            11
    challenge count K  11, the largest that q allows
    rows               1
    columns            1
    domain             11 values: 0 to 10
    group              11 elements: 1, 2, 3, 4, 6, 8, 9, 12, 13, 16, 18

    row  x   z
      0  2  13

    Peggy claims to know x with z = [x]:
        x ↦ [x] = 2^x mod 23
        z = 13
        13 = 2^x mod 23

    All values of the domain were tried: there is 1 witness.

    The same sheet is made by
        dimkhoros make schnorr m=23 q=11 K=11 h=2 z=13 -o SHEET
    $ dimkhoros rounds make sheet.bin t=9 c=1 r=2 -o rounds.bin
    rounds.bin has 1 round (19 bytes)
    $ dimkhoros show sheet.bin rounds.bin
    rounds.bin is a round file of 19 bytes with 1 round, in version 1.
    Vic accepts if [r] = t · z^c, with x ↦ [x] = 2^x mod 23 and z = 13.

    round  t  c  r  verdict
        0  9  1  2  rejected in row 0

    Accepted: 0 of 1.
";

const GRAMMAR: Grammar = Grammar {
    plain: &["SHEET", "ROUNDS"],
    optional: 1,
    letters: &[],
    flags: &["--json"],
    options: &[],
};

/// Runs the command.
pub fn run(words: Vec<OsString>, out: &mut dyn Write) -> Outcome {
    let words = Words::sort(words, &GRAMMAR)?;
    let path = words.path(0);
    if path.is_dir() && words.plain().len() == 1 {
        return if words.flag("--json") {
            folder::show_json(&path, out)
        } else {
            folder::show(&path, out)
        };
    }
    let bytes = files::read(&path)?;
    if words.flag("--json") {
        return Ok(writeln!(out, "{}", json(&path, &bytes, words.plain().get(1).map(Path::new))?)?);
    }
    let text = match words.plain().get(1).map(Path::new) {
        None => of_file(&path, &bytes)?,
        Some(rounds) => of_rounds(&path, &bytes, rounds)?,
    };
    Ok(out.write_all(text.as_bytes())?)
}

/// A file as JSON, or a round file of a sheet.
fn json(path: &Path, bytes: &[u8], rounds: Option<&Path>) -> Outcome<Json> {
    let name = files::name(path);
    match (bytes.get(..3), rounds) {
        (_, Some(rounds)) => {
            let (sheet, bytes) = (sheets::of_bytes(path, bytes)?, files::read(rounds)?);
            let file = sheets::rounds(&sheet, rounds, &bytes)?;
            Ok(as_json::rounds(&files::name(rounds), &sheet, &file))
        }
        (Some(b"PAT"), _) => Ok(as_json::patterns(&name, &super::patterns::of_bytes(path, bytes)?)),
        (Some(b"RND"), _) => rounds::header_json(path, bytes),
        _ => Ok(as_json::sheet(&name, &sheets::of_bytes(path, bytes)?)),
    }
}

/// The text on a file, whose mark says what it is.
fn of_file(path: &Path, bytes: &[u8]) -> Outcome<String> {
    let name = files::name(path);
    match bytes.get(..3) {
        Some(b"PAT") => {
            Ok(patterns::text(Some(&name), &crate::commands::patterns::of_bytes(path, bytes)?))
        }
        Some(b"RND") => rounds::header(path, bytes),
        Some(b"HOM") => Ok(sheet::text(&name, &sheets::of_bytes(path, bytes)?)),
        _ => Ok(sheet::text(&name, &sheets::of_bytes(path, bytes).map_err(other_marks)?)),
    }
}

/// Says with which marks the other files begin.
fn other_marks(failure: Failure) -> Failure {
    Failure::failed(format!("{failure}; a pattern file begins with PAT, and a round file with RND"))
}

/// The text on a round file of a sheet.
fn of_rounds(path: &Path, bytes: &[u8], rounds: &Path) -> Outcome<String> {
    let sheet = sheets::of_bytes(path, bytes)?;
    let bytes = files::read(rounds)?;
    let file = sheets::rounds(&sheet, rounds, &bytes)?;
    Ok(rounds::text(&files::name(rounds), &sheet, &file))
}
