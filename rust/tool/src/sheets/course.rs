//! The sheet and the level by which a course marks folders, if the words name them.

use crate::command_line::failure::{Failure, Outcome};
use crate::command_line::files;
use crate::command_line::words::Words;
use crate::sheets;
use crate::sheets::levels::{self, HIGHEST};
use std::ffi::{OsStr, OsString};
use std::fs;
use std::path::{Path, PathBuf};

/// The options that name them.
pub const OPTIONS: &[&str] = &["--sheet", "--level"];

/// What a course marks by. A folder's own file counts if the course has none.
#[derive(Clone, Default)]
pub struct Course {
    /// The bytes of its sheet, which loads.
    pub sheet: Option<Vec<u8>>,
    /// The byte of its level, 1 to 64.
    pub level: Option<u8>,
    /// The folder that `dimkhoros course` made, if it has a sheet and a level for each student.
    pub folder: Option<PathBuf>,
}

impl Course {
    /// What the words name.
    pub fn of(words: &Words) -> Outcome<Course> {
        if let Some(folder) = words.option("--course") {
            return Course::in_folder(words, folder);
        }
        let level = words.option("--level").map(|word| {
            let word = word.to_string_lossy();
            let wrong = || format!("--level takes a number from 1 to {HIGHEST}, not {word}");
            level(&word).ok_or_else(|| Failure::words(wrong()))
        });
        let level = level.transpose()?;
        let sheet = words.option("--sheet").map(|path| sheets::load(Path::new(path)));
        let sheet = sheet.transpose()?.map(|sheet| sheet.bytes().to_vec());
        Ok(Course { sheet, level, folder: None })
    }

    /// The course of a folder that `dimkhoros course` made.
    fn in_folder(words: &Words, folder: &OsStr) -> Outcome<Course> {
        if let Some(option) = OPTIONS.iter().find(|option| words.option(option).is_some()) {
            return Err(Failure::words(format!(
                "--course and {option} are both there; leave one out"
            )));
        }
        let folder = PathBuf::from(folder);
        if !folder.is_dir() {
            let name = files::name(&folder);
            return Err(Failure::failed(format!(
                "--course takes the folder that `dimkhoros course` made, and {name} is not a folder"
            )));
        }
        Ok(Course { folder: Some(folder), ..Course::default() })
    }

    /// What a student's folder is marked by: the course's sheet and level for the folder's last name, if it has them for each student.
    pub fn of_student(&self, folder: &OsStr) -> Outcome<Course> {
        let Some(course) = &self.folder else {
            return Ok(self.clone());
        };
        let own = course.join(last_name(Path::new(folder)));
        if !own.is_dir() {
            return Err(Failure::failed(format!("there is no folder {}", files::name(&own))));
        }
        let sheet = Some(sheets::load(&own.join("sheet.bin"))?.bytes().to_vec());
        let path = own.join("level.bin");
        let wrong = || format!("{} is not one byte from 1 to {HIGHEST}", files::name(&path));
        let level = levels::of(&files::read(&path)?);
        let level = Some(level.ok_or_else(|| Failure::failed(wrong()))?);
        Ok(Course { sheet, level, folder: None })
    }
}

/// The last name of a folder's path, which is that of the folder itself for a path such as `.`.
fn last_name(folder: &Path) -> OsString {
    let itself = || fs::canonicalize(folder).ok()?.file_name().map(OsStr::to_os_string);
    folder.file_name().map(OsStr::to_os_string).or_else(itself).unwrap_or_default()
}

/// The level in a word, if it has one.
pub fn level(word: &str) -> Option<u8> {
    let level = word.parse().ok().filter(|level| (1..=HIGHEST).contains(level));
    level.filter(|_| word.bytes().all(|byte| byte.is_ascii_digit()))
}
