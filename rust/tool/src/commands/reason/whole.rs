//! What holds of a whole round file.

use super::{Asked, By};
use crate::command_line::{colour, files};
use crate::sheets::judged::{Judged, named};
use crate::sheets::notation::counted;
use crate::sheets::{commitments, levels, round_table};
use dimkhoros::{Instance, Refusal, Round, RoundFile};
use std::path::Path;

/// Whether the file passes, and which other rounds are not accepted if no round is asked for.
pub fn text(asked: &Asked, sheet: &Instance, file: &RoundFile<'_>) -> String {
    let folder = &asked.folder;
    let unmarked = || folder.judged_at(&[1]).map(|judged| (said_unmarked(asked, &judged), judged));
    let marked = folder.judged().map(|judged| (said_marked(&judged), judged));
    let Ok((said, judged)) = marked.or_else(|_| unmarked()) else {
        return String::new();
    };
    let differences = folder.differences("The folder's", "marked");
    let differences = differences.map(|sentence| format!("{sentence}.\n"));
    let differences: String = differences.collect();
    let said = format!("{said}\n{differences}{}", reuses(asked, &judged, sheet, file));
    let others = judged.not_accepted().into_iter().filter(|number| *number > 0);
    let others: Vec<usize> = others.filter(|_| asked.round.is_none()).collect();
    let Some(first) = others.first() else {
        return said;
    };
    let before = if asked.by == By::Folder { "FOLDER" } else { "SHEET ROUNDS" };
    let more = format!("`dimkhoros reason {before} {first}` tells more of round {first}.");
    format!("{said}\n{}\n{more}\n", round_table::of_file(sheet, file, others))
}

/// Which rounds used one nonce for different challenges, and whether they give a witness away.
fn reuses(asked: &Asked, judged: &Judged, sheet: &Instance, file: &RoundFile<'_>) -> String {
    let begin = if judged.not_accepted().is_empty() { "But r" } else { "R" };
    let rounds: Vec<Round> = file.rounds().collect();
    let groups = commitments::groups(file);
    let used = |group: &&Vec<usize>| commitments::used_twice(&rounds, group).is_some();
    let gives = |group: &Vec<usize>| commitments::first_pair(sheet, &rounds, group).is_ok();
    let said = groups.iter().filter_map(|group| commitments::used_twice(&rounds, group));
    let said: String = said.map(|(_, whole)| format!("{begin}{}.\n", &whole[1..])).collect();
    if !groups.iter().filter(used).any(gives) {
        return said;
    }
    let [sheet, rounds] = match &asked.names {
        names if names.contains(&files::name(Path::new("-"))) => ["SHEET", "ROUNDS"],
        [sheet, rounds] => [sheet.as_str(), rounds.as_str()],
    };
    format!("{said}Anyone can compute x: `dimkhoros extract {sheet} {rounds}` does.\n")
}

/// What is said of a file that is marked at a level.
fn said_marked(judged: &Judged) -> String {
    let Judged { level, challenges, .. } = judged;
    if judged.passed {
        let needed = levels::needed(*challenges, *level);
        let accepted = accepted(judged.rounds());
        let passes = colour::verdict("passes");
        return format!(
            "The whole file {passes}: {accepted}, and level {level} asks for {needed}."
        );
    }
    let bad = not_accepted(judged).map_or_else(String::new, |bad| format!(": {bad}"));
    let few = judged.too_few().map(|needed| {
        let (needed, found) = (counted(needed, "round"), judged.rounds());
        format!(
            "\nLevel {level} asks for {needed} with K = {challenges}, and the file has {found}."
        )
    });
    format!("The whole file {}{bad}.{}", colour::verdict("fails"), few.unwrap_or_default())
}

/// What is said of a file that is not marked, since its level is refused, cannot be read or was not told.
fn said_unmarked(asked: &Asked, judged: &Judged) -> String {
    let (rounds, challenges) = (judged.rounds(), judged.challenges);
    let fails = colour::verdict("fails");
    let on_rounds = match (not_accepted(judged), rounds) {
        (Some(bad), _) => format!("The whole file {fails}: {bad}."),
        (None, 0) => format!("The whole file {fails} at every level: it has no rounds."),
        (None, _) => format!("In the whole file {}.", accepted(rounds)),
    };
    let on_level = match (&asked.folder.unread_level, &asked.by) {
        (Some(why), _) => format!(" It is not marked: {why}."),
        (_, By::Folder) => {
            format!(" The marker answers `level 25`: {}.", asked.folder.fault(Refusal::Level))
        }
        (_, By::Names) if judged.accepted == rounds && rounds > 0 => {
            let level = levels::reached(challenges, rounds);
            format!(" With K = {challenges} that is enough for a level up to {level}.")
        }
        (_, By::Names) => String::new(),
    };
    on_rounds + &on_level
}

/// Which rounds are rejected and which are refused, if there are any.
fn not_accepted(judged: &Judged) -> Option<String> {
    let said = |numbers: &[usize], what: &str| match numbers {
        [] => None,
        [_] => Some(format!("{} is {what}", named(numbers))),
        _ => Some(format!("{} are {what}", named(numbers))),
    };
    match (said(&judged.rejected, "rejected"), said(&judged.refused, "refused")) {
        (Some(rejected), Some(refused)) => Some(format!("{rejected}, and {refused}")),
        (rejected, refused) => rejected.or(refused),
    }
}

/// That all rounds are accepted.
fn accepted(count: usize) -> String {
    match count {
        1 => "the one round is accepted".to_string(),
        _ => format!("all {count} rounds are accepted"),
    }
}
