//! Warnings that the folders are marked by different sheets or at different levels.

use super::marks::Mark;
use super::notes::alike;
use crate::sheets::course::Course;
use crate::sheets::folder::Folder;
use crate::sheets::notation::counted;

/// The most different files of which each is told where it is.
const MOST: usize = 4;

/// The warnings. There is none on what the course has.
pub fn of(marks: &[Mark], course: &Course) -> Vec<String> {
    let sheets = || differing(marks, |folder| folder.sheet.as_deref());
    let levels = || differing(marks, |folder| folder.level.as_deref());
    let mut warnings = Vec::new();
    if course.folder.is_some() {
        return warnings;
    }
    if course.sheet.is_none() {
        let advice = "--sheet FILE marks all by one, and --course COURSE each by its own there";
        warnings.extend(warning(marks, &sheets(), "sheet", |_| "one".to_string(), advice));
    }
    if course.level.is_none() {
        let advice = "--level W marks all at one";
        warnings.extend(warning(marks, &levels(), "level", number, advice));
    }
    warnings
}

/// The numbers of marks by a file of their folders, those with most folders first. A file that is not there does not count.
fn differing<'a>(
    marks: &'a [Mark],
    file: impl Fn(&'a Folder) -> Option<&'a [u8]>,
) -> Vec<(&'a [u8], Vec<usize>)> {
    let files = marks
        .iter()
        .enumerate()
        .filter_map(|(number, mark)| Some((number, mark.folder.as_ref().and_then(&file)?)));
    let mut files = alike(files);
    files.sort_by_key(|(_, numbers)| std::cmp::Reverse(numbers.len()));
    files
}

/// The warning that files of a kind differ, if they do, with what each is called, where it is, and what to do.
fn warning(
    marks: &[Mark],
    files: &[(&[u8], Vec<usize>)],
    kind: &str,
    called: impl Fn(&[u8]) -> String,
    advice: &str,
) -> Option<String> {
    let place = |(bytes, numbers): &(&[u8], Vec<usize>)| {
        let (first, others) = numbers.split_first()?;
        let more = match others.len() {
            0 => String::new(),
            count => format!(" and {count} more"),
        };
        Some(format!("{} in {}{more}", called(bytes), marks[*first].name))
    };
    let mut places: Vec<String> = files.iter().take(MOST).filter_map(place).collect();
    let rest = files.len().saturating_sub(MOST);
    places.extend((rest > 0).then(|| format!("and {}", counted(rest, "other"))));
    let (count, places) = (files.len(), places.join(", "));
    (count > 1).then(|| format!("warning: there are {count} different {kind}s: {places}; {advice}"))
}

/// The number in a level file.
fn number(level: &[u8]) -> String {
    match level {
        [level] => level.to_string(),
        _ => format!("a file of {}", counted(level.len(), "byte")),
    }
}
