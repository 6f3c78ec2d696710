//! The files of a student's folder in words and tables.

use super::{rounds, sheet};
use crate::command_line::failure::{Failure, Outcome};
use crate::command_line::files;
use crate::command_line::json::Json;
use crate::sheets::course::Course;
use crate::sheets::folder::Folder;
use crate::sheets::notation::counted;
use crate::sheets::{self, as_json, levels};
use dimkhoros::{Instance, Refusal};
use std::io::Write;
use std::path::Path;

/// Shows the sheet, the rounds and the level of a folder. A file that is not there is named. One that is refused is told on
/// standard error after what stands before it.
pub fn show(path: &Path, out: &mut dyn Write) -> Outcome {
    let folder = Folder::read(path.as_os_str(), &Course::default())?;
    let (own, name) = (path.join("sheet.bin"), files::name(path));
    let Some(bytes) = &folder.sheet else {
        return Err(Failure::failed(format!("{name} has no sheet.bin")));
    };
    let instance = sheets::of_bytes(&own, bytes)?;
    out.write_all(sheet::text(&files::name(&own), &instance).as_bytes())?;
    let own = path.join("rounds.bin");
    match &folder.rounds {
        None => writeln!(out, "\n{name} has no rounds.bin.")?,
        Some(bytes) => {
            let file = sheets::rounds(&instance, &own, bytes)?;
            let text = rounds::text(&files::name(&own), &instance, &file);
            write!(out, "\n{text}")?;
        }
    }
    Ok(writeln!(out, "\n{}", level(&name, &folder, &instance)?)?)
}

/// The sheet, the rounds and the level of a folder as JSON. What is not there is null.
pub fn show_json(path: &Path, out: &mut dyn Write) -> Outcome {
    let folder = Folder::read(path.as_os_str(), &Course::default())?;
    let (name, own) = (files::name(path), path.join("sheet.bin"));
    let missing = || Failure::failed(format!("{name} has no sheet.bin"));
    let sheet = sheets::of_bytes(&own, folder.sheet.as_ref().ok_or_else(missing)?)?;
    let rounds = path.join("rounds.bin");
    let file = folder.rounds.as_ref().map(|bytes| sheets::rounds(&sheet, &rounds, bytes));
    let file = file.transpose()?.map(|file| as_json::rounds(&files::name(&rounds), &sheet, &file));
    level(&name, &folder, &sheet)?;
    let value = Json::Object(vec![
        ("folder", name.as_str().into()),
        ("sheet", as_json::sheet(&files::name(&own), &sheet)),
        ("rounds", file.unwrap_or(Json::Null)),
        ("level", folder.level().into()),
    ]);
    Ok(writeln!(out, "{value}")?)
}

/// What the level asks for, in a sentence.
fn level(name: &str, folder: &Folder, sheet: &Instance) -> Outcome<String> {
    let challenges = sheet.values().header.challenges;
    match (&folder.unread_level, &folder.level, folder.level()) {
        (Some(why), ..) => Err(Failure::failed(why)),
        (_, None, _) => Ok(format!("{name} has no level.bin.")),
        (_, _, None) => Err(Failure::failed(folder.fault(Refusal::Level))),
        (_, _, Some(level)) => {
            let rounds = counted(levels::needed(challenges, level), "round");
            Ok(format!("The level is {level}, which asks for {rounds} with K = {challenges}."))
        }
    }
}
