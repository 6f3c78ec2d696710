//! Notes for a lecturer on files that were copied and on rounds that are there twice. They change no mark.

use super::marks::Mark;
use crate::sheets::folder::Folder;
use crate::sheets::judged::{named, spaced};
use crate::sheets::notation::enumerated;
use crate::sheets::{commitments, small};
use dimkhoros::{Round, RoundFile};

/// The most other folders that a folder's line names.
const MOST: usize = 3;

/// A note on a folder.
pub struct Note {
    /// In a few words, for the folder's line.
    pub brief: String,
    /// In a sentence, for standard error. It is none if another folder's note says it.
    pub whole: Option<String>,
}

impl Note {
    fn new(brief: String, whole: String) -> Note {
        Note { brief, whole: Some(whole) }
    }
}

/// The notes on a folder alone.
pub fn of(folder: &Folder) -> Vec<Note> {
    let brief = folder.others.iter().map(|name| format!("its own {name} differs"));
    let mut notes: Vec<Note> = brief
        .zip(folder.differences("its", "marked"))
        .map(|(brief, whole)| Note::new(brief, whole))
        .collect();
    notes.extend(on_rounds(folder).unwrap_or_default());
    notes
}

/// The notes on rounds that are there twice, and on commitments that are there with different challenges.
fn on_rounds(folder: &Folder) -> Option<Vec<Note>> {
    let sheet = small::light(&folder.instance()?);
    let file = RoundFile::open(&sheet, folder.bytes()[1]).ok()?;
    let rounds: Vec<Round> = file.rounds().collect();
    let groups = commitments::groups(&file);
    let on_group = |group: &Vec<usize>| {
        let mut notes: Vec<Note> = used_twice(&rounds, group).into_iter().collect();
        notes.extend(same_rounds(&rounds, group));
        notes
    };
    Some(groups.iter().flat_map(on_group).collect())
}

/// The note on rounds with the same commitment, if they have different challenges.
fn used_twice(rounds: &[Round], group: &[usize]) -> Option<Note> {
    let (times, whole) = commitments::used_twice(rounds, group)?;
    Some(Note::new(format!("nonce used {times}: rounds {}", spaced(group)), whole))
}

/// The notes on those rounds of a group that are the same round.
fn same_rounds(rounds: &[Round], group: &[usize]) -> Vec<Note> {
    let same = alike(group.iter().map(|number| (*number, rounds[*number])));
    let note = |numbers: Vec<usize>| {
        let whole = format!("{} are the same round", named(&numbers));
        Note::new(format!("same round: {}", spaced(&numbers)), whole)
    };
    same.into_iter()
        .map(|(_, numbers)| numbers)
        .filter(|numbers| numbers.len() > 1)
        .map(note)
        .collect()
}

/// Adds a note to each mark whose round file has the same bytes as that of another folder. The first of them has the sentence.
pub fn on_copies(marks: &mut [Mark]) {
    let files = marks.iter().enumerate().filter_map(|(number, mark)| {
        let folder = mark.folder.as_ref()?;
        Some((number, folder.rounds.as_ref()?))
    });
    let same = alike(files);
    let notes: Vec<(usize, Note)> =
        same.iter().flat_map(|(_, numbers)| copies(marks, numbers)).collect();
    for (number, note) in notes {
        marks[number].notes.push(note);
    }
}

/// The notes on these marks, whose round files have the same bytes, each with its mark's number: none if all are of one folder.
fn copies(marks: &[Mark], numbers: &[usize]) -> Vec<(usize, Note)> {
    let place = |number: usize| marks[number].folder.as_ref().map(|folder| folder.place);
    // A folder that is named twice is told of once, by its first name.
    let folders = alike(numbers.iter().map(|number| (*number, place(*number))));
    let note = |number: usize| {
        let others = folders.iter().filter(|(other, _)| *other != place(number));
        let names: Vec<&str> = others.map(|(_, same)| marks[same[0]].name.as_str()).collect();
        let whole =
            || format!("its rounds.bin has the same bytes as in {}", enumerated(&names, "and"));
        let brief = format!("same rounds.bin as {}", first_of(&names));
        (number, Note { brief, whole: (number == numbers[0]).then(whole) })
    };
    match folders.len() {
        1 => Vec::new(),
        _ => numbers.iter().map(|number| note(*number)).collect(),
    }
}

/// The first few of some names, and how many more there are.
fn first_of(names: &[&str]) -> String {
    let (first, more) = names.split_at(names.len().min(MOST));
    match more.len() {
        0 => first.join(", "),
        count => format!("{} and {count} more", first.join(", ")),
    }
}

/// Values by their numbers, with all numbers of a value together, in the order in which the values come first.
pub fn alike<T: PartialEq>(values: impl Iterator<Item = (usize, T)>) -> Vec<(T, Vec<usize>)> {
    let mut groups: Vec<(T, Vec<usize>)> = Vec::new();
    for (number, value) in values {
        match groups.iter_mut().find(|(other, _)| *other == value) {
            Some((_, numbers)) => numbers.push(number),
            None => groups.push((value, vec![number])),
        }
    }
    groups
}
