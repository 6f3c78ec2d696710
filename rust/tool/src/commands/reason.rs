//! The command `reason`: why rounds fail.

mod whole;

use crate::command_line::colour;
use crate::command_line::failure::{Failure, Outcome, numbered};
use crate::command_line::files;
use crate::command_line::json::Json;
use crate::command_line::words::{Grammar, Words};
use crate::sheets::course::{self, Course};
use crate::sheets::faults::{self, Fault};
use crate::sheets::folder::Folder;
use crate::sheets::{self, allowed, equation, notation};
use dimkhoros::{Header, Instance, LONGEST_REASON, Round, RoundFile, reason};
use std::ffi::OsString;
use std::io::Write;
use std::path::Path;

/// The command's help.
pub const HELP: &str = "\
usage: dimkhoros reason [--sheet SHEET] [--level W] [--json] FOLDER [ROUND]
       dimkhoros reason [--level W] [--json] SHEET ROUNDS [ROUND]

Says why a student's rounds fail. The first line is the one that the program `reason` prints. It is on the sheet, the round file
and the file's round 0. Then comes the same in words: which value at which byte breaks which rule, or both sides of each row of
round 0. Then comes whether the whole file passes. If it fails, all other rounds that are rejected or refused are named, with the
row or the number. If there are too few rounds, it says how many the level asks for. With ROUND, the first line and the words are
on the round of this number. The exit status is 0 whatever is said, and 1 if the sheet or the round file cannot be read.

    FOLDER         a folder with the sheet in sheet.bin, the round file in rounds.bin and the level in level.bin
    ROUND          the number of a round, from 0
    SHEET          a sheet
    ROUNDS         a round file of the sheet
    --sheet SHEET  the course's sheet, instead of the folder's own
    --level W      the course's level, a number from 1 to 64, instead of the folder's own
    --json         prints JSON: an object with sheet, rounds, round, verdict (the first word of the line), line and words

Example:
    $ mkdir b
    $ dimkhoros make schnorr m=23 q=11 h=2 x=7 -o b/sheet.bin
    13 = 2^x mod 23, q = 11, K = 11
    $ dimkhoros rounds make b/sheet.bin t=9 c=3 r=4 t=3 c=1 r=2 -o b/rounds.bin
    b/rounds.bin has 2 rounds (31 bytes)
    $ dimkhoros reason --level 7 b
    accepted

    Round 0 is t = 9, c = 3, r = 4.
    Vic accepts it, since [r] = t · z^c holds in every row:

    row  [r]                 t · z^c
      0  2^4 mod 23 = 16  =  9 · 13^3 mod 23 = 16

    The whole file fails: round 1 is rejected.
    Level 7 asks for 3 rounds with K = 11, and the file has 2.

    round  t  c  r  verdict
        1  3  1  2  rejected in row 0

    `dimkhoros reason FOLDER 1` tells more of round 1.
    $ dimkhoros reason --level 7 b 1
    rejected 0 4 16

    Round 1 is t = 3, c = 1, r = 2.
    Vic rejects it, since [r] = t · z^c does not hold in every row:

    row  [r]                t · z^c
      0  2^2 mod 23 = 4  ≠  3 · 13^1 mod 23 = 16

    The whole file fails: round 1 is rejected.
    Level 7 asks for 3 rounds with K = 11, and the file has 2.
";

const GRAMMAR: Grammar = Grammar {
    plain: &["FOLDER", "ROUNDS", "ROUND"],
    optional: 2,
    letters: &[],
    flags: &["--json"],
    options: course::OPTIONS,
};

/// Runs the command.
pub fn run(words: Vec<OsString>, out: &mut dyn Write) -> Outcome {
    let words = Words::sort(words, &GRAMMAR)?;
    let course = Course::of(&words)?;
    let asked = if words.path(0).is_dir() {
        Asked::of_folder(&words, &course)?
    } else {
        Asked::of_files(&words, &course)?
    };
    let text = asked.text()?;
    if words.flag("--json") {
        return Ok(writeln!(out, "{}", asked.json(&text))?);
    }
    Ok(out.write_all(text.as_bytes())?)
}

/// What is asked for.
struct Asked {
    /// The files.
    folder: Folder,
    /// The names of the sheet and of the round file.
    names: [String; 2],
    /// How many bytes the two have. Of one with very many not all are read.
    lengths: [usize; 2],
    /// The number of a round, if one is asked for.
    round: Option<usize>,
    /// How the files were named.
    by: By,
}

/// How files are named.
#[derive(PartialEq)]
enum By {
    /// By their folder, which must have a level too.
    Folder,
    /// Each by its own name.
    Names,
}

impl Asked {
    /// What is asked of a folder.
    fn of_folder(words: &Words, course: &Course) -> Outcome<Asked> {
        if let Some(word) = words.plain().get(2) {
            let word = word.to_string_lossy();
            return Err(Failure::words(format!(
                "the word {word} is one too many: after FOLDER comes ROUND alone"
            )));
        }
        let round = words.plain().get(1).map(|_| words.round_number(1)).transpose()?;
        let path = words.path(0);
        let sheet = match words.option("--sheet") {
            Some(sheet) => files::name(Path::new(sheet)),
            None => files::name(&path.join("sheet.bin")),
        };
        let names = [sheet, files::name(&path.join("rounds.bin"))];
        let folder = Folder::read(path.as_os_str(), course)?;
        let [sheet, rounds, _] = folder.bytes();
        let whole = |bytes: &[u8], name| match files::too_long(bytes) {
            Some(_) => files::length(&path.join(name)),
            None => Ok(bytes.len()),
        };
        let lengths = [whole(sheet, "sheet.bin")?, whole(rounds, "rounds.bin")?];
        Ok(Asked { folder, names, lengths, round, by: By::Folder })
    }

    /// What is asked of a sheet and a round file.
    fn of_files(words: &Words, course: &Course) -> Outcome<Asked> {
        let [sheet, rounds] = [words.path(0), words.path(1)];
        if words.plain().len() == 1 {
            return Err(no_folder(&sheet));
        }
        if course.sheet.is_some() {
            return Err(Failure::words("--sheet has no meaning beside SHEET; it goes with FOLDER"));
        }
        let round = words.plain().get(2).map(|_| words.round_number(2)).transpose()?;
        let names = [files::name(&sheet), files::name(&rounds)];
        let [sheet, rounds] = [files::read(&sheet)?, files::read(&rounds)?];
        let lengths = [sheet.len(), rounds.len()];
        let folder = Folder::of_files(sheet, rounds, course);
        Ok(Asked { folder, names, lengths, round, by: By::Names })
    }

    /// The line, the same in words, and what holds of the whole file.
    fn text(&self) -> Outcome<String> {
        let [bytes, rounds, _] = self.folder.bytes();
        let Ok(sheet) = Instance::load(bytes) else {
            return Ok(self.refused(0, faults::in_sheet(bytes)));
        };
        let Ok(file) = RoundFile::open(&sheet, rounds) else {
            return Ok(self.refused(1, faults::in_rounds(&sheet, rounds)));
        };
        let on_round = match (self.round, file.count()) {
            (None, 0) => self.refused(1, faults::in_rounds(&sheet, rounds)),
            _ => self.on_round(&sheet, &file)?,
        };
        Ok(format!("{on_round}\n{}", whole::text(self, &sheet, &file)))
    }

    /// A text as JSON: the line, of which the first word is the verdict, and the words.
    fn json(&self, text: &str) -> Json {
        let (line, words) = text.split_once('\n').unwrap_or((text, ""));
        let [sheet, rounds] = self.names.each_ref().map(|name| name.as_str().into());
        Json::Object(vec![
            ("sheet", sheet),
            ("rounds", rounds),
            ("round", self.round.unwrap_or(0).into()),
            ("verdict", line.split(' ').next().into()),
            ("line", line.into()),
            ("words", words.trim().into()),
        ])
    }

    /// The library's line on the two files, which begins with round 0.
    fn line(&self) -> String {
        let [sheet, rounds, _] = self.folder.bytes();
        reason(sheet, rounds, &mut [0; LONGEST_REASON]).to_string()
    }

    /// The line and the words on one of the two files, which is refused by this fault. A length that they tell is that of the
    /// whole file: no value after the bytes that are read is told, since a file that has so many is wrong before or by its length.
    fn refused(&self, place: usize, fault: Option<Fault>) -> String {
        let (file, name) = ([&self.folder.sheet, &self.folder.rounds][place], &self.names[place]);
        let (read, whole) = (self.folder.bytes()[place].len(), self.lengths[place]);
        let line = self.line().replace(&format!(" length {read}\n"), &format!(" length {whole}\n"));
        let words = match (fault.map(|fault| fault.of_length(whole)), file) {
            (None, _) => String::new(),
            (Some(Fault { refusal, .. }), None) => {
                numbered(refusal, format!("There is no {name}")) + ".\n"
            }
            (Some(fault), _) => broken(&fault, name, &faults::sheet_header(self.folder.bytes()[0])),
        };
        format!("{}\n{words}", colour::verdict(&line))
    }

    /// The line and the words on the round that is asked for, or on round 0.
    fn on_round(&self, sheet: &Instance, file: &RoundFile<'_>) -> Outcome<String> {
        let number = self.round.unwrap_or(0);
        let round = sheets::round(file, number, &self.names[1])?;
        let line = match self.round {
            None => self.line(),
            Some(number) => faults::line(sheet, file, number).unwrap_or_default(),
        };
        let words = match faults::in_round(sheet, file, number) {
            Some(fault) => {
                let name = format!("Round {number} of {}", self.names[1]);
                broken(&fault, &name, &sheet.values().header)
            }
            None => judged(sheet, number, &round)?,
        };
        Ok(format!("{}\n{words}", colour::verdict(&line)))
    }
}

/// Says that the one word is not a folder.
fn no_folder(path: &Path) -> Failure {
    let name = files::name(path);
    if path.exists() {
        Failure::words(format!("{name} is not a folder, and ROUNDS is missing after SHEET"))
    } else {
        Failure::failed(format!("{name} cannot be read: there is no such folder"))
    }
}

/// A fault of what has a name in words, with what the rule allows on a sheet with this header.
fn broken(fault: &Fault, name: &str, header: &Header) -> String {
    fault.told(name, &allowed::by(fault.refusal, header)) + ".\n"
}

/// The verdict on a round, with both sides of each row.
fn judged(sheet: &Instance, number: usize, round: &Round) -> Outcome<String> {
    let (verdict, holds) = if sheet.judge(round)?.is_accepted() {
        ("accepts", "holds")
    } else {
        ("rejects", "does not hold")
    };
    let verdict = colour::verdict(verdict);
    let t = notation::by_row(sheet, &round.commitment);
    let (c, r) = (round.challenge, notation::by_column(sheet, &round.response));
    let equations = equation::lines(&[(sheet, *round)])?;
    Ok(format!(
        "Round {number} is t = {t}, c = {c}, r = {r}.\nVic {verdict} it, since [r] = t · z^c {holds} in every row:\n\n{equations}"
    ))
}
