//! Marks as JSON.

use super::marks::{Mark, Said};
use crate::command_line::json::Json;

/// The marks, a value for each folder.
pub fn text(marks: &[Mark]) -> String {
    format!("{}\n", Json::List(marks.iter().map(mark).collect()))
}

/// A mark.
fn mark(mark: &Mark) -> Json {
    let (judged, refusal) = match &mark.said {
        Said::Judged(judged) => (Some(judged), None),
        Said::Refused(_, number, _) => (None, Some(*number)),
        Said::Unread(_) => (None, None),
    };
    let numbers = |of: fn(&crate::sheets::judged::Judged) -> &[usize]| {
        judged.map_or(Json::Null, |judged| Json::numbers(of(judged)))
    };
    let level = mark.folder.as_ref().and_then(|folder| folder.level());
    let notes = mark.notes.iter().map(|note| note.brief.as_str().into()).collect();
    Json::Object(vec![
        ("folder", mark.name.as_str().into()),
        ("result", mark.word().into()),
        ("refusal", refusal.into()),
        ("rounds", judged.map(|judged| judged.rounds()).into()),
        ("accepted", judged.map(|judged| judged.accepted).into()),
        ("rejected", numbers(|judged| &judged.rejected)),
        ("refused", numbers(|judged| &judged.refused)),
        ("level", level.into()),
        ("why", mark.why().into()),
        ("notes", Json::List(notes)),
    ])
}
