//! A folder with a sheet, rounds and a level, and the library's text on it.

use crate::command_line::failure::{Failure, Outcome, numbered, rule};
use crate::command_line::files;
use crate::sheets::allowed;
use crate::sheets::course::Course;
use crate::sheets::faults::{self, Fault, Found};
use crate::sheets::judged::Judged;
use crate::sheets::levels;
use dimkhoros::{Instance, LONGEST_TEXT, Refusal, mark};
use std::ffi::OsStr;
use std::fs;
use std::io::ErrorKind;
use std::os::unix::fs::MetadataExt;
use std::path::Path;

/// What a folder is marked by. A file that is not there is none.
pub struct Folder {
    /// The numbers by which the system tells folders apart: of the device, and on it.
    pub place: [u64; 2],
    /// The sheet: the course's, or else the folder's own.
    pub sheet: Option<Vec<u8>>,
    /// The round file.
    pub rounds: Option<Vec<u8>>,
    /// The level file: the course's, or else the folder's own.
    pub level: Option<Vec<u8>>,
    /// Why the folder's own level cannot be read, if it is there and counts.
    pub unread_level: Option<String>,
    /// The names of the folder's own files that are not the course's.
    pub others: Vec<&'static str>,
}

impl Folder {
    /// Reads a folder's three files, of which the level may be one that cannot be read. What the course has stands in the place of
    /// the folder's own, whatever that is.
    pub fn read(name: &OsStr, course: &Course) -> Outcome<Folder> {
        let folder = Path::new(name);
        let place = entered(folder)?;
        let mut others = Vec::new();
        let mut file = |name: &'static str, course: Option<&[u8]>| {
            let own = files::read_if_there(&folder.join(name));
            let Some(course) = course else {
                return own;
            };
            let same = own.is_ok_and(|own| own.is_none_or(|own| own == course));
            others.extend((!same).then_some(name));
            Ok(Some(course.to_vec()))
        };
        let sheet = file("sheet.bin", course.sheet.as_deref())?;
        let rounds = file("rounds.bin", None)?;
        let level = file("level.bin", course.level.as_ref().map(std::slice::from_ref));
        let (level, unread_level) = match level {
            Ok(level) => (level, None),
            Err(failure) => (None, Some(failure.to_string())),
        };
        Ok(Folder { place, sheet, rounds, level, unread_level, others })
    }

    /// The folder, if its level can be read too.
    pub fn with_level(self) -> Outcome<Folder> {
        match &self.unread_level {
            Some(why) => Err(Failure::failed(why)),
            None => Ok(self),
        }
    }

    /// What is marked and has no folder: these bytes of a sheet and of a round file, and the course's level.
    pub fn of_files(sheet: Vec<u8>, rounds: Vec<u8>, course: &Course) -> Folder {
        let (sheet, rounds) = (Some(sheet), Some(rounds));
        let level = course.level.map(|level| vec![level]);
        Folder { place: [0; 2], sheet, rounds, level, unread_level: None, others: Vec::new() }
    }

    /// That files of its own are not the course's, a sentence each without its full stop, which begins with whose they are. The
    /// course's file is the one by which the folder is `done`.
    pub fn differences(&self, whose: &str, done: &str) -> impl Iterator<Item = String> {
        let sentence = move |name| {
            format!("{whose} own {name} differs from the course's, by which it is {done}")
        };
        self.others.iter().map(sentence)
    }

    /// The bytes of the sheet, of the round file and of the level. A file that is not there counts as one of no bytes.
    pub fn bytes(&self) -> [&[u8]; 3] {
        [&self.sheet, &self.rounds, &self.level].map(|file| file.as_deref().unwrap_or_default())
    }

    /// The sheet, if it loads.
    pub fn instance(&self) -> Option<Instance> {
        Instance::load(self.bytes()[0]).ok()
    }

    /// The level, if it is one.
    pub fn level(&self) -> Option<u8> {
        levels::of(self.bytes()[2])
    }

    /// What the marker says of the rounds, or which file it refuses, as it calls it, with the number.
    pub fn judged(&self) -> Result<Judged, (String, u32)> {
        self.judged_at(self.bytes()[2])
    }

    /// What the marker says of the rounds at the level of a level file with these bytes, or which file it refuses.
    pub fn judged_at(&self, level: &[u8]) -> Result<Judged, (String, u32)> {
        let [sheet, rounds, _] = self.bytes();
        let mut text = [0; LONGEST_TEXT];
        let text = mark(sheet, rounds, level, &mut text);
        let challenges = self.instance().map_or(0, |sheet| sheet.values().header.challenges);
        Judged::read(text, level, challenges)
    }

    /// What is wrong with the file that is refused.
    pub fn fault(&self, refusal: Refusal) -> String {
        let (name, file) = match refusal {
            Refusal::Level => ("level.bin", &self.level),
            Refusal::File | Refusal::RoundNumber | Refusal::Commitment => {
                ("rounds.bin", &self.rounds)
            }
            _ => ("sheet.bin", &self.sheet),
        };
        let Some(bytes) = file else {
            return numbered(refusal, format!("there is no {name}"));
        };
        match (files::too_long(bytes), self.found(refusal)) {
            (Some(why), _) => numbered(refusal, format!("{name} {why}")),
            (_, Some(fault)) => fault.told(name, &self.allowed(refusal)),
            _ => numbered(refusal, format!("{name}: {}", rule(refusal))),
        }
    }

    /// What the rule of a refusal allows on the sheet, if it loads.
    fn allowed(&self, refusal: Refusal) -> String {
        let header = self.instance().map(|sheet| sheet.values().header);
        header.map_or_else(String::new, |header| allowed::by(refusal, &header))
    }

    /// The fault behind a refusal.
    fn found(&self, refusal: Refusal) -> Option<Fault> {
        let [sheet, rounds, level] = self.bytes();
        match refusal {
            Refusal::Level => Some(Fault { refusal, found: of_level(level), cause: None }),
            Refusal::File | Refusal::RoundNumber | Refusal::Commitment => {
                faults::in_rounds(&Instance::load(sheet).ok()?, rounds)
            }
            _ => faults::in_sheet(sheet),
        }
    }
}

/// The numbers by which the system tells a folder apart, if it is one.
fn entered(folder: &Path) -> Outcome<[u64; 2]> {
    let why = match fs::metadata(folder) {
        Ok(found) if found.is_dir() => return Ok([found.dev(), found.ino()]),
        Ok(_) => "it is not a folder".to_string(),
        Err(error) if error.kind() == ErrorKind::NotFound => "there is no such folder".to_string(),
        Err(error) => error.to_string(),
    };
    Err(Failure::failed(format!("{} cannot be read: {why}", files::one_line(folder.as_os_str()))))
}

/// What is wrong with a level.
fn of_level(level: &[u8]) -> Found {
    match level {
        [level] => Found::Value { offset: 0, value: format!("w = {level}") },
        _ => Found::Length { found: level.len(), needed: "a level has 1".to_string() },
    }
}
