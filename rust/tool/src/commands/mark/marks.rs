//! The mark of a folder, and the tally of marks.

use crate::command_line::{colour, files};
use crate::commands::mark::notes::{self, Note};
use crate::sheets::course::Course;
use crate::sheets::folder::Folder;
use crate::sheets::judged::Judged;
use crate::sheets::notation::counted;
use dimkhoros::Refusal;
use std::ffi::OsStr;
use std::fmt;

/// A folder and what is said of it.
pub struct Mark {
    /// The folder's name, in one line.
    pub name: String,
    /// The folder, if it can be read.
    pub folder: Option<Folder>,
    /// What is said of it.
    pub said: Said,
    /// Notes, which change nothing of that.
    pub notes: Vec<Note>,
}

/// What is said of a folder.
pub enum Said {
    /// Its rounds are judged.
    Judged(Judged),
    /// A file is refused: which one it is as the marker calls it, the refusal's number, and what is wrong.
    Refused(String, u32, String),
    /// It cannot be read, and why.
    Unread(String),
}

impl Mark {
    /// Marks a folder by the course's sheet and level, and by the folder's own if the course has none.
    pub fn of(name: &OsStr, course: &Course) -> Mark {
        let course = course.of_student(name);
        let read = course.and_then(|course| Folder::read(name, &course));
        let read = read.and_then(Folder::with_level);
        let name = files::one_line(name);
        match read {
            Ok(folder) => {
                let (said, notes) = (Said::of(&folder), notes::of(&folder));
                Mark { name, folder: Some(folder), said, notes }
            }
            Err(failure) => {
                let said = Said::Unread(failure.to_string());
                Mark { name, folder: None, said, notes: Vec::new() }
            }
        }
    }

    /// The result in a word: `pass`, `fail`, the file that is refused, or `unread`.
    pub fn word(&self) -> &str {
        match &self.said {
            Said::Judged(judged) if judged.passed => "pass",
            Said::Judged(_) => "fail",
            Said::Refused(file, ..) => file,
            Said::Unread(_) => "unread",
        }
    }

    /// The result as the table has it.
    pub fn result(&self) -> &str {
        match &self.said {
            Said::Refused(..) => "no mark",
            _ => self.word(),
        }
    }

    /// What there is to say of the result.
    pub fn why(&self) -> String {
        match &self.said {
            Said::Judged(judged) => judged.to_string(),
            Said::Refused(.., why) | Said::Unread(why) => why.clone(),
        }
    }

    /// The notes in a few words.
    pub fn noted(&self) -> String {
        self.notes.iter().map(|note| note.brief.as_str()).collect::<Vec<&str>>().join("; ")
    }
}

impl Said {
    /// What the marker says of a folder.
    fn of(folder: &Folder) -> Said {
        match folder.judged() {
            Ok(judged) => Said::Judged(judged),
            Err((file, number)) => {
                let why = Refusal::from_number(number).map(|refusal| folder.fault(refusal));
                Said::Refused(file, number, why.unwrap_or_default())
            }
        }
    }
}

/// How many folders have which result.
#[derive(Default)]
pub struct Tally {
    folders: usize,
    passed: usize,
    failed: usize,
    refused: usize,
    /// How many cannot be read.
    pub unread: usize,
}

impl Tally {
    /// Counts marks.
    pub fn of(marks: &[Mark]) -> Tally {
        let mut tally = Tally { folders: marks.len(), ..Tally::default() };
        for mark in marks {
            *match &mark.said {
                Said::Judged(judged) if judged.passed => &mut tally.passed,
                Said::Judged(_) => &mut tally.failed,
                Said::Refused(..) => &mut tally.refused,
                Said::Unread(_) => &mut tally.unread,
            } += 1;
        }
        tally
    }
}

impl fmt::Display for Tally {
    fn fmt(&self, f: &mut fmt::Formatter<'_>) -> fmt::Result {
        let Tally { folders, passed, failed, refused, unread } = self;
        let folders = counted(*folders, "folder");
        let [passed, failed, refused] =
            [(passed, "passed"), (failed, "failed"), (refused, "refused")]
                .map(|(count, word)| colour::count(*count, word));
        write!(f, "{folders}: {passed}, {failed}, {refused}")?;
        match unread {
            0 => Ok(()),
            _ => write!(f, ", {}", colour::count(*unread, "not read")),
        }
    }
}
