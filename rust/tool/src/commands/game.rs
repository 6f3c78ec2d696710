//! The command `game`: which challenges a commitment can answer.

use crate::command_line::failure::{Failure, Outcome, numbered};
use crate::command_line::files;
use crate::command_line::table::{self, Set};
use crate::command_line::words::{Grammar, Words};
use crate::sheets::brought::{self, Brought};
use crate::sheets::course::Course;
use crate::sheets::folder::Folder;
use crate::sheets::{self, causes, notation};
use dimkhoros::{
    Header, Instance, LONGEST_FILE, LONGEST_GAME, Places, Refusal, Round, RoundFile, RoundWriter,
    game,
};
use std::ffi::OsString;
use std::io::Write;
use std::path::Path;

/// The command's help.
pub const HELP: &str = "\
usage: dimkhoros game [--sheet SHEET] FOLDER...
       dimkhoros game SHEET t=VALUE,...

Plays Peggy against Vic on a small sheet. Peggy names a commitment t, Vic names a challenge c, and Peggy answers if she can. The
table has each challenge that t can answer, with the smallest response r that Vic accepts. If t can answer none, the line is
`none`. After the table comes how many challenges t can answer, and what follows. If the statement has a witness, t answers all
challenges or none. If it has no witness, t answers at most one.

The commitment is t, or that of round 0 in the folder's round file. The challenge and the response of round 0 play no part.

A sheet is small if q^n is at most 4096. A root sheet is small if m is at most 4096 and it has one row. If a file is refused,
the line is `refused` with the number, and the cause comes after it. If several folders are named, a line FOLDER: comes before
the text of each. The exit status is 0 if all folders were read, whatever is said.

    FOLDER         a folder with the sheet in sheet.bin and the round file in rounds.bin
    --sheet SHEET  the course's sheet, for all folders
    SHEET          a sheet
    t=VALUE,...    a commitment, a value for each row

Example:
    $ dimkhoros make schnorr m=11 q=5 h=4 x=3 -o sheet.bin
    9 = 4^x mod 11, q = 5, K = 5
    $ dimkhoros game sheet.bin t=5
    c  smallest r
    0           2
    1           0
    2           3
    3           1
    4           4

    The commitment 5 answers all 5 challenges.
    So the statement has a witness.
    $ dimkhoros make schnorr m=31 q=15 K=3 h=1 z=2 -o claim.bin
    2 = 1 mod 31, q = 15, K = 3
    $ dimkhoros game claim.bin t=16
    c  smallest r
    1           0

    The commitment 16 answers 1 of the 3 challenges.
    So the statement has no witness.
    $ dimkhoros game claim.bin t=2
    none

    The commitment 2 answers none of the 3 challenges.
    Whether the statement has a witness stays open.
";

const GRAMMAR: Grammar = Grammar {
    plain: &["FOLDER..."],
    optional: 0,
    letters: &["t"],
    flags: &[],
    options: &["--sheet"],
};

/// Runs the command.
pub fn run(words: Vec<OsString>, out: &mut dyn Write) -> Outcome {
    let words = Words::sort(words, &GRAMMAR)?;
    if words.once("t")?.is_some() {
        return Ok(out.write_all(on_commitment(&words)?.as_bytes())?);
    }
    let (names, played) = (words.plain(), Played::of(&words)?);
    if names.len() == 1 {
        check_folder(&words)?;
        return Ok(out.write_all(played.on_folder(&names[0])?.as_bytes())?);
    }
    on_folders(names, &played, out)
}

/// What the folders are played by.
struct Played {
    /// The course's sheet, if it is named.
    course: Course,
    /// What the sheet is called.
    sheet: String,
}

/// Plays in several folders. Those that cannot be read are named below the others.
fn on_folders(names: &[OsString], played: &Played, out: &mut dyn Write) -> Outcome {
    let mut unread = Vec::new();
    let mut before = "";
    for name in names {
        match played.on_folder(name) {
            Ok(text) => {
                write!(out, "{before}{}:\n{text}", files::one_line(name))?;
                before = "\n";
            }
            Err(failure) => unread.push(failure),
        }
    }
    out.flush()?;
    unread.iter().for_each(|failure| files::note(failure));
    match unread.len() {
        0 => Ok(()),
        1 => Err(Failure::failed("a folder cannot be read")),
        count => Err(Failure::failed(format!("{count} folders cannot be read"))),
    }
}

/// Fails if the one word is a file, beside which a commitment is needed.
fn check_folder(words: &Words) -> Outcome {
    let path = words.path(0);
    if path.is_file() {
        Err(Failure::words(format!(
            "{} is not a folder, and t= is missing after SHEET: a commitment",
            files::name(&path)
        )))
    } else {
        Ok(())
    }
}

/// The library's text on a sheet and a round file.
fn lines(sheet: &[u8], rounds: &[u8]) -> String {
    let mut text: Box<[u8; LONGEST_GAME]> =
        vec![0; LONGEST_GAME].try_into().expect("the length is the array's");
    game(sheet, rounds, &mut text).to_string()
}

/// What a text refuses, if it does.
fn refusal_of(text: &str) -> Option<Refusal> {
    let number = text.strip_prefix("refused ")?.trim_end();
    Refusal::from_number(number.parse().ok()?)
}

impl Played {
    /// What the words name.
    fn of(words: &Words) -> Outcome<Played> {
        let named = words.option("--sheet").map(|sheet| files::name(Path::new(sheet)));
        let sheet = named.unwrap_or_else(|| "sheet.bin".to_string());
        Ok(Played { course: Course::of(words)?, sheet })
    }

    /// The text on a folder, and the same in words.
    fn on_folder(&self, name: &OsString) -> Outcome<String> {
        let folder = Folder::read(name, &self.course)?;
        let [sheet, rounds, _] = folder.bytes();
        let text = lines(sheet, rounds);
        let said = match (refusal_of(&text), folder.instance()) {
            (Some(Refusal::GameSize), Some(sheet)) => {
                format!("Not played: {}: {}.", self.sheet, too_large(&sheet.values().header))
            }
            (Some(refusal), _) => format!("Not played: {}.", folder.fault(refusal)),
            (None, Some(sheet)) => {
                let round = RoundFile::open(&sheet, rounds).and_then(|file| file.read(0));
                said(&sheet, &round?.commitment, &text)
            }
            (None, None) => String::new(),
        };
        let others = folder.differences("The folder's", "played");
        let others: String = others.map(|sentence| format!("{sentence}.\n")).collect();
        Ok(format!("{}\n{said}\n{others}", headed(&text)))
    }
}

/// The library's text, in which the lines of challenges and responses are a table with a heading.
fn headed(text: &str) -> String {
    let row = |line: &str| {
        let (challenge, response) = line.split_once(' ').unwrap_or_default();
        let values: Vec<&str> = response.split(' ').collect();
        let response = match &values[..] {
            [value] => value.to_string(),
            _ => format!("({})", values.join(", ")),
        };
        vec![challenge.to_string(), response]
    };
    if !text.starts_with(|first: char| first.is_ascii_digit()) {
        return text.to_string();
    }
    let heading = vec!["c".to_string(), "smallest r".to_string()];
    let rows: Vec<Vec<String>> = std::iter::once(heading).chain(text.lines().map(row)).collect();
    table::lines("", &[Set::Right; 2], &rows)
}

/// The text on a commitment that the words name, and the same in words.
fn on_commitment(words: &Words) -> Outcome<String> {
    if let Some(word) = words.plain().get(1) {
        let word = word.to_string_lossy();
        return Err(Failure::words(format!(
            "the word {word} is one too many: beside t= stands SHEET alone"
        )));
    }
    if words.option("--sheet").is_some() {
        return Err(Failure::words("--sheet has no meaning beside t=; it goes with FOLDER"));
    }
    let sheet = sheets::load(&words.path(0))?;
    let value = words.needed("t", "a commitment")?;
    let commitment = sheets::by_row(&sheet, value)?;
    let mut buffer = vec![0; LONGEST_FILE];
    let mut writer = RoundWriter::start(&sheet, 1, &mut buffer)?;
    writer.append(&Round { commitment, ..Round::default() })?;
    let text = lines(sheet.bytes(), writer.file().bytes());
    match refusal_of(&text) {
        None => Ok(format!("{}\n{}\n", headed(&text), said(&sheet, &commitment, &text))),
        Some(Refusal::GameSize) => Err(Failure::failed(too_large(&sheet.values().header))),
        Some(refusal) => {
            let brought = [Brought::commitment(&sheet, "t", &commitment)];
            Err(brought::refused(refusal, &brought))
        }
    }
}

/// That a sheet with this header is too large, and by what.
fn too_large(header: &Header) -> String {
    numbered(Refusal::GameSize, causes::game_size(header))
}

/// How many challenges a commitment answers by the library's text, and what follows.
fn said(sheet: &Instance, commitment: &Places, text: &str) -> String {
    let (t, all) = (notation::by_row(sheet, commitment), sheet.values().header.challenges);
    let count = if text == "none\n" { 0 } else { text.lines().count() };
    // Proved of the game: without a witness a commitment answers at most one challenge, and with one all or none.
    let (answers, follows) = match count {
        0 => (format!("none of the {all}"), "Whether the statement has a witness stays open."),
        1 => (format!("1 of the {all}"), "So the statement has no witness."),
        _ => (format!("all {all}"), "So the statement has a witness."),
    };
    format!("The commitment {t} answers {answers} challenges.\n{follows}")
}
