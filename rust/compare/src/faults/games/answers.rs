//! Faults in the lines of a game that is played.

use crate::faults::Fault;
use crate::groups::Group;
use crate::library::{Places, Round};
use crate::search::Table;
use crate::sheets::Sheet;

/// The faulty text of a game with these rounds, where the judge's is this one.
pub fn told(fault: Fault, right: String, sheet: &Sheet, rounds: &[Round]) -> String {
    let challenges = sheet.header.challenges;
    let lines: Vec<&str> = right.lines().filter(|line| *line != "none").collect();
    match fault {
        Fault::GameNoneAfter if !lines.is_empty() => right + "none\n",
        Fault::GameSilent if lines.is_empty() => String::new(),
        Fault::GameFalling => of_lines(lines.into_iter().rev().map(String::from)),
        Fault::GameLastChallenge => {
            let last = format!("{} ", challenges - 1);
            let others = lines.into_iter().filter(|line| !line.starts_with(&last));
            of_lines(others.map(String::from))
        }
        Fault::GameFromOne => of_lines(lines.into_iter().map(|line| {
            let (challenge, slots) = line.split_once(' ').unwrap_or((line, ""));
            format!("{} {slots}", challenge.parse().unwrap_or(0) + 1)
        })),
        Fault::GameEightSlots => {
            let zeros = " 0".repeat(8 - sheet.header.columns as usize);
            of_lines(lines.into_iter().map(|line| line.to_string() + &zeros))
        }
        _ if is_of_search(fault) => searched(fault, sheet, rounds),
        _ => right,
    }
}

/// A text of these lines, or `none`.
fn of_lines(lines: impl Iterator<Item = String>) -> String {
    let text: String = lines.map(|line| line + "\n").collect();
    if text.is_empty() { String::from("none\n") } else { text }
}

/// Whether the fault is one of the search for responses.
fn is_of_search(fault: Fault) -> bool {
    [
        Fault::GameLastRound,
        Fault::GameLastResponse,
        Fault::GameEveryResponse,
        Fault::GameLastSlot,
        Fault::GameLargerRoot,
        Fault::GameRootZero,
        Fault::GameRootModulus,
        Fault::GameLastCandidate,
        Fault::GameFirstCandidate,
        Fault::GameStatementLeft,
        Fault::GameRowZero,
        Fault::GameEndRow,
        Fault::GameNoneEach,
    ]
    .contains(&fault)
}

/// The text of a faulty search.
fn searched(fault: Fault, sheet: &Sheet, rounds: &[Round]) -> String {
    let table = Table::new(sheet.clone());
    let round = match fault {
        Fault::GameLastRound => rounds.last(),
        _ => rounds.first(),
    };
    let commitment = round.map_or([0; 8], |round| round.commitment);
    let header = sheet.header;
    let group = Group::new(header.kind, header.modulus, header.order);
    let mut values = commitment.iter().take(header.rows as usize);
    if !values.all(|value| group.is_element(*value)) {
        return String::from("refused 14\n");
    }
    let mut lines = Vec::new();
    for challenge in 0..header.challenges {
        let answers = accepted(fault, &table, &commitment, challenge);
        let chosen = chosen(fault, &table, &answers);
        if chosen.is_empty() && fault == Fault::GameNoneEach {
            lines.push(format!("{challenge} none"));
        }
        let told = chosen.iter().map(|answer| table.line(challenge, answer));
        lines.extend(told.map(|line| line.trim_end().to_string()));
    }
    of_lines(lines.into_iter())
}

/// The responses that the faulty search accepts, in slot order.
fn accepted(fault: Fault, table: &Table, commitment: &Places, challenge: u32) -> Vec<Places> {
    let rows = table.sheet.header.rows as usize;
    let wanted = match fault {
        Fault::GameStatementLeft => table.wanted(commitment, 0),
        _ => table.wanted(commitment, challenge),
    };
    let compared = match fault {
        Fault::GameRowZero => 1,
        Fault::GameEndRow => rows - 1,
        _ => return left_of(fault, table, table.with_image(&wanted)),
    };
    let all = table.responses.iter();
    all.filter(|response| table.sheet.image(response)[..compared] == wanted[..compared])
        .copied()
        .collect()
}

/// These responses but those that the fault does not try.
fn left_of(fault: Fault, table: &Table, answers: &[Places]) -> Vec<Places> {
    let untried = match fault {
        Fault::GameLastCandidate => table.responses.last(),
        Fault::GameFirstCandidate => table.responses.first(),
        _ => None,
    };
    let tried = answers.iter().filter(|answer| Some(*answer) != untried);
    tried.copied().collect()
}

/// The responses that the fault shows.
fn chosen(fault: Fault, table: &Table, answers: &[Places]) -> Vec<Places> {
    let (root, modulus) = (table.sheet.header.kind == 2, table.sheet.header.modulus);
    let one = |slot: u32| vec![[slot, 0, 0, 0, 0, 0, 0, 0]];
    let none = answers.is_empty();
    match fault {
        Fault::GameEveryResponse => answers.to_vec(),
        Fault::GameLastResponse => answers.iter().rev().take(1).copied().collect(),
        Fault::GameLargerRoot if root => answers.iter().rev().take(1).copied().collect(),
        Fault::GameLastSlot => {
            let backwards = |answer: &&Places| answer.iter().rev().copied().collect::<Vec<_>>();
            answers.iter().min_by_key(backwards).copied().into_iter().collect()
        }
        Fault::GameRootZero if root && none => one(0),
        Fault::GameRootModulus if root && none => one(modulus),
        _ => answers.iter().take(1).copied().collect(),
    }
}
