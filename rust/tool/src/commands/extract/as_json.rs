//! What pairs of rounds give away, as JSON.

use crate::command_line::json::Json;
use crate::sheets::commitments::{self, Tried};
use crate::sheets::{column_count, row_count};
use dimkhoros::{Instance, Places, Refusal, Round, RoundFile};

/// The pairs of a file with the same commitment. If there are too many, only those of one round of each commitment are tried.
pub fn of_file(sheet: &Instance, file: &RoundFile<'_>) -> Json {
    let (groups, rounds) = (commitments::groups(file), file.rounds().collect::<Vec<Round>>());
    let count = groups.iter().map(|group| commitments::pair_count(group)).sum::<usize>();
    let all = count <= commitments::MOST;
    let tried = groups.iter().flat_map(|group| {
        let pair = commitments::first_pair(sheet, &rounds, group).ok();
        let with = pair.map(|pair| pair[0]).or(group.first().copied());
        commitments::tried(sheet, &rounds, group, with.filter(|_| !all))
    });
    let pairs = tried.flat_map(|Tried { answer, pairs }| {
        pairs.into_iter().map(move |pair| (pair, answer)).collect::<Vec<_>>()
    });
    let mut pairs: Vec<_> = pairs.collect();
    pairs.sort_by_key(|(pair, _)| *pair);
    let pair = |(numbers, answer)| of_pair(sheet, numbers, &rounds[numbers[0]], answer);
    Json::List(pairs.into_iter().map(pair).collect())
}

/// A pair of rounds with these numbers, of which the first one is this, and its witness or the refusal's number.
pub fn of_pair(
    sheet: &Instance,
    numbers: [usize; 2],
    first: &Round,
    answer: Result<Places, Refusal>,
) -> Json {
    let x = answer.ok().map(|x| Json::numbers(&x[..column_count(sheet)]));
    Json::Object(vec![
        ("rounds", Json::numbers(&numbers)),
        ("t", Json::numbers(&first.commitment[..row_count(sheet)])),
        ("x", x.unwrap_or(Json::Null)),
        ("refusal", answer.err().map(|refusal| refusal.number()).into()),
    ])
}
