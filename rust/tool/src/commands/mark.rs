//! The command `mark`: folders with a sheet, rounds and a level.

mod as_json;
mod checksum;
mod marks;
mod notes;
mod progress;
mod separated;
mod warnings;

use crate::command_line::colour;
use crate::command_line::failure::{Failure, Outcome};
use crate::command_line::files;
use crate::command_line::table::{self, Set};
use crate::command_line::words::{Grammar, Words};
use crate::sheets::course::Course;
use marks::{Mark, Tally};
use std::ffi::OsString;
use std::io::Write;

/// The command's help.
pub const HELP: &str = "\
usage: dimkhoros mark [--sheet SHEET] [--level W] [--csv | --json] FOLDER...
       dimkhoros mark --course COURSE [--csv | --json] FOLDER...

Marks the rounds in each folder by the course's sheet and level. A folder with R rounds passes if every round is accepted and K^R
is at least 2^W. With --course, each folder is marked by the sheet and the level that `dimkhoros course` made for its name.
Without these options the folder's own sheet.bin or level.bin counts, as in the program `marker`. A student can then pass with a
small sheet or a low level.

A pass says that the rounds are accepted. It shows that Peggy knows a witness only if Vic's box wrote the file. Anyone can make
accepted rounds for challenges of their own choice.

There is a line for each folder. First comes pass, fail, or no mark if a file is refused. Then come the rounds that are rejected
and refused, by their numbers from 0, or what else is wrong, with the refusal's number in brackets. Notes come last. They are also
written to standard error, and they change no mark. `dimkhoros reason FOLDER` says more about a folder. The exit status is 0 if
all folders were marked, whatever the marks are, and 1 if one cannot be read.

Notes say that a folder's own sheet.bin or level.bin is not the course's; that two folders have the same rounds.bin; that
rounds have the same commitment and not all the same challenge, so that the nonce was used twice; and that the same round is there
twice. If --sheet is left out and the folders have different sheets, a warning on standard error says so. The same holds for
--level.

    FOLDER         a folder with the round file in rounds.bin, the sheet in sheet.bin and the level in level.bin, which
                   `dimkhoros level` writes. If its name begins with - or looks like a value, put -- before it
    --sheet SHEET  the course's sheet, for all folders
    --level W      the course's level, a number from 1 to 64, for all folders
    --course COURSE  a folder that `dimkhoros course` made. A folder is marked by COURSE/NAME, if NAME is its last name
    --csv          prints comma-separated values, with a line of their names and no summary: folder; result, which is pass, fail,
                   sheet, file, level or unread; refusal, the number if a file is refused; rounds and, of these, accepted,
                   rejected and refused; level; why, as in the table; not_accepted, the numbers of the rounds that are not;
                   sheet, the checksum that the command cksum prints of it, and its m, l (q or e), K, s (rows), n (columns) and
                   z; notes. What is not known is empty. If a spreadsheet would take a folder's name for a formula, the name
                   begins with ./
    --json         prints JSON: a list with an object for each folder, with folder, result, refusal, rounds, accepted, rejected
                   and refused (the numbers of the rounds), level, why and notes. What is not known is null

Example:
    $ dimkhoros make schnorr m=23 q=11 h=2 x=7 -o sheet.bin
    13 = 2^x mod 23, q = 11, K = 11
    $ mkdir anna ben cy
    $ dimkhoros rounds make sheet.bin x=7 k=5 c=3 x=7 k=2 c=9 -o anna/rounds.bin
    anna/rounds.bin has 2 rounds (31 bytes)
    $ dimkhoros rounds make sheet.bin t=9 c=3 r=4 t=9 c=1 r=2 -o ben/rounds.bin
    ben/rounds.bin has 2 rounds (31 bytes)
    $ dimkhoros mark --sheet sheet.bin --level 6 anna ben cy 2>/dev/null
    anna  pass     2 rounds
    ben   fail     round 1 rejected; nonce used twice: rounds 0 1
    cy    no mark  there is no rounds.bin (12)

    3 folders: 1 passed, 1 failed, 1 refused
";

const GRAMMAR: Grammar = Grammar {
    plain: &["FOLDER..."],
    optional: 0,
    letters: &[],
    flags: &["--csv", "--json"],
    options: &["--sheet", "--level", "--course"],
};

/// Runs the command.
pub fn run(words: Vec<OsString>, out: &mut dyn Write) -> Outcome {
    let words = Words::sort(words, &GRAMMAR)?;
    let course = Course::of(&words)?;
    let marks = marked(&words, &course);
    let text = match [words.flag("--csv"), words.flag("--json")] {
        [true, true] => return Err(Failure::words("--csv and --json are both there")),
        [true, false] => separated::text(&marks),
        [false, true] => as_json::text(&marks),
        [false, false] => listed(&marks),
    };
    out.write_all(text.as_bytes())?;
    // What is said of the lines stands below them.
    out.flush()?;
    tell(&marks, &course);
    match Tally::of(&marks).unread {
        0 => Ok(()),
        1 => Err(Failure::failed("a folder cannot be read")),
        count => Err(Failure::failed(format!("{count} folders cannot be read"))),
    }
}

/// The marks of all folders, with their notes.
fn marked(words: &Words, course: &Course) -> Vec<Mark> {
    let mut progress = progress::of(words.plain().len());
    let mut marks = Vec::new();
    for name in words.plain() {
        progress.show(marks.len());
        marks.push(Mark::of(name, course));
    }
    notes::on_copies(&mut marks);
    progress.end();
    marks
}

/// Writes the notes and the warnings to standard error.
fn tell(marks: &[Mark], course: &Course) {
    for mark in marks {
        let whole = mark.notes.iter().filter_map(|note| note.whole.as_ref());
        whole.for_each(|whole| files::note(&format!("{}: {whole}", mark.name)));
    }
    warnings::of(marks, course).iter().for_each(|warning| files::note(warning));
}

/// The lines of the marks, and the summary.
fn listed(marks: &[Mark]) -> String {
    let line = |mark: &Mark| {
        let said = [mark.why(), mark.noted()];
        let said: Vec<String> = said.into_iter().filter(|said| !said.is_empty()).collect();
        vec![mark.name.clone(), colour::verdict(mark.result()), said.join("; ")]
    };
    let lines: Vec<Vec<String>> = marks.iter().map(line).collect();
    format!("{}\n{}\n", table::lines("", &[Set::Left; 3], &lines), Tally::of(marks))
}
