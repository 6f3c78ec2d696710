//! The command `course`: a folder for each student, with a sheet of its own.

mod names;
mod page;

use super::numbers::bits;
use crate::command_line::failure::{Failure, Outcome};
use crate::command_line::files;
use crate::command_line::words::{Grammar, Words};
use crate::sheets::draw::Generator;
use crate::sheets::levels::HIGHEST;
use crate::sheets::notation::counted;
use crate::sheets::proposed::{self, Exponent};
use dimkhoros::{Instance, Pattern, Patterns, Plan, places};
use std::ffi::OsString;
use std::fs::{DirBuilder, OpenOptions};
use std::io::{self, Write};
use std::os::unix::fs::OpenOptionsExt;
use std::path::{Path, PathBuf};

/// The command's help.
pub const HELP: &str = "\
usage: dimkhoros course NAMES bits=BITS level=W -o COURSE

Makes a course. The folder COURSE gets a folder for each name, with a sheet of its own in sheet.bin, the level in level.bin and a
README.md for the student. All sheets are Schnorr's, in the one group that `dimkhoros numbers` proposes. All witnesses are
different, and the system's generator draws them. COURSE/secrets.csv lists them, and only its owner can read it. If a student is
to play Peggy, tell the student that one witness.

    NAMES      a text with a name in each line. A name has letters, digits, . _ and -, and begins with a letter or a digit.
               Empty lines are skipped
    bits=BITS  how many bits the modulus has, 4 to 32
    level=W    the level, a number from 1 to 64
    -o COURSE  the folder to make. It must not be there yet

Example:
    $ printf 'anna\\nben\\n' > names.txt
    $ dimkhoros course names.txt bits=31 level=20 -o course
    course has 2 folders: m = 2147483579, q = 1073741789, h = 3, K = 65536
    $ ls course course/anna
    course:
    anna
    ben
    secrets.csv

    course/anna:
    README.md
    level.bin
    sheet.bin
";

const GRAMMAR: Grammar = Grammar {
    plain: &["NAMES"],
    optional: 0,
    letters: &["bits", "level"],
    flags: &[],
    options: &["-o"],
};

/// The name of the file with the witnesses.
const SECRETS: &str = "secrets.csv";

/// Runs the command.
pub fn run(words: Vec<OsString>, out: &mut dyn Write) -> Outcome {
    let words = Words::sort(words, &GRAMMAR)?;
    let (bits, level) = (bits(&words)?, level(&words)?);
    let folder = words.option("-o");
    let folder = folder.ok_or(Failure::words("-o COURSE is missing: the folder to make"))?;
    if folder == "-" {
        return Err(Failure::words("-o takes the name of a folder, and - is not one; write ./-"));
    }
    let folder = PathBuf::from(folder);
    let names = names::read(&words.path(0))?;
    let none = || Failure::failed(format!("no numbers of {bits} bits are found"));
    let group = proposed::exponent(bits).ok_or_else(none)?;
    let sheets = sheets(&group, names.len())?;
    make_folder(&folder)?;
    let secrets: String = std::iter::once("name,x,z\n".to_string())
        .chain(names.iter().zip(&sheets).map(|(name, (x, sheet))| line(name, *x, sheet)))
        .collect();
    write(&folder.join(SECRETS), secrets.as_bytes(), 0o600)?;
    for (name, (_, sheet)) in names.iter().zip(&sheets) {
        fill(&folder.join(name), name, sheet, level)?;
    }
    let Exponent { modulus, order, generators, challenges } = &group;
    let (folders, h) = (counted(names.len(), "folder"), generators[0]);
    let name = files::name(&folder);
    writeln!(out, "{name} has {folders}: m = {modulus}, q = {order}, h = {h}, K = {challenges}")?;
    Ok(())
}

/// The level that the words ask for.
fn level(words: &Words) -> Outcome<u8> {
    let level = words.needed("level", "the level of the course")?.number()?;
    let fits = u8::try_from(level).ok().filter(|level| (1..=HIGHEST).contains(level));
    fits.ok_or_else(|| Failure::words(format!("level= takes 1 to {HIGHEST}, and not {level}")))
}

/// So many witnesses, no two of them equal, each with its sheet.
fn sheets(group: &Exponent, count: usize) -> Outcome<Vec<(u32, Instance)>> {
    let order = group.order;
    if count > order as usize {
        return Err(Failure::failed(format!(
            "there are {count} names, and q = {order} has {order} witnesses: take more bits"
        )));
    }
    let (mut generator, mut sheets) = (Generator::open()?, Vec::<(u32, Instance)>::new());
    while sheets.len() < count {
        let x = generator.below(order)?;
        if sheets.iter().all(|(other, _)| *other != x) {
            sheets.push((x, sheet(group, x)?));
        }
    }
    Ok(sheets)
}

/// The sheet of a witness.
fn sheet(group: &Exponent, x: u32) -> Outcome<Instance> {
    let plan = Plan {
        pattern: Pattern::Schnorr.number(),
        modulus: group.modulus,
        order: group.order,
        challenges: group.challenges,
        values: &group.generators[..1],
        statement: &[1],
    };
    let sheet = Instance::from_pattern(&Patterns::shipped(), &plan)?;
    let statement = sheet.image(&places([x]))?;
    Ok(sheet.with_statement(&statement)?)
}

/// A line of the witnesses.
fn line(name: &str, x: u32, sheet: &Instance) -> String {
    format!("{name},{x},{}\n", sheet.values().statement[0])
}

/// Makes the folder of a student.
fn fill(folder: &Path, name: &str, sheet: &Instance, level: u8) -> Outcome {
    make_folder(folder)?;
    write(&folder.join("sheet.bin"), sheet.bytes(), 0o644)?;
    write(&folder.join("level.bin"), &[level], 0o644)?;
    write(&folder.join("README.md"), page::text(name, sheet, level).as_bytes(), 0o644)
}

/// Makes a folder that is not there yet.
fn make_folder(folder: &Path) -> Outcome {
    DirBuilder::new().create(folder).map_err(|error| not_made(folder, &error))
}

/// Writes a file that is not there yet, with this mode.
fn write(path: &Path, bytes: &[u8], mode: u32) -> Outcome {
    let file = OpenOptions::new().write(true).create_new(true).mode(mode).open(path);
    file.and_then(|mut file| file.write_all(bytes)).map_err(|error| not_made(path, &error))
}

/// Says that a folder or file is not made, and why.
fn not_made(path: &Path, error: &io::Error) -> Failure {
    let why = match error.kind() {
        io::ErrorKind::AlreadyExists => "it is there already".to_string(),
        io::ErrorKind::NotFound => "there is no such folder".to_string(),
        io::ErrorKind::PermissionDenied => "that is not permitted".to_string(),
        _ => error.to_string(),
    };
    Failure::failed(format!("{} cannot be made: {why}", files::name(path)))
}
