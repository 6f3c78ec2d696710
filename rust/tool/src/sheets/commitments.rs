//! The rounds of a file with the same commitment, and what the extractor makes of them.

use crate::command_line::files;
use crate::sheets::judged::named;
use dimkhoros::{Instance, Places, Refusal, Round, RoundFile};
use std::path::Path;

/// The most pairs of rounds that are tried all.
pub const MOST: usize = 8192;

/// The numbers of rounds with the same commitment, rising, at least two in a group. The library says that they are equal.
pub fn groups(file: &RoundFile<'_>) -> Vec<Vec<usize>> {
    let rounds: Vec<Round> = file.rounds().collect();
    let mut groups: Vec<Vec<usize>> = Vec::new();
    for (number, round) in rounds.iter().enumerate() {
        let same = |group: &&mut Vec<usize>| {
            let first =
                group.first().filter(|first| rounds[**first].commitment == round.commitment);
            first.is_some_and(|first| file.same_commitment(*first, number) == Ok(true))
        };
        match groups.iter_mut().find(same) {
            Some(group) => group.push(number),
            None => groups.push(vec![number]),
        }
    }
    groups.retain(|group| group.len() > 1);
    groups
}

/// How often the nonce of rounds with the same commitment was used, if they have different challenges, and a sentence that says so,
/// without its full stop.
pub fn used_twice(rounds: &[Round], group: &[usize]) -> Option<(String, String)> {
    let mut challenges: Vec<u32> = group.iter().map(|number| rounds[*number].challenge).collect();
    challenges.sort_unstable();
    challenges.dedup();
    let times = match challenges.len() {
        1 => return None,
        2 => "twice".to_string(),
        count => format!("{count} times"),
    };
    let differ = match challenges.len() == group.len() {
        true => " and different challenges",
        false => ", and not all the same challenge",
    };
    let rounds = named(group);
    let whole = format!("{rounds} have the same commitment{differ}: the nonce was used {times}");
    Some((times, whole))
}

/// Says that a file has no such rounds.
pub fn none(path: &Path) -> String {
    format!("no two rounds of {} have the same commitment", files::name(path))
}

/// How many pairs a group has.
pub fn pair_count(group: &[usize]) -> usize {
    group.len() * group.len().saturating_sub(1) / 2
}

/// The first pair of a group that the extractor takes, which is the first accepted round and the next one with another challenge,
/// or why there is none.
pub fn first_pair(
    sheet: &Instance,
    rounds: &[Round],
    group: &[usize],
) -> Result<[usize; 2], &'static str> {
    let accepted = |number: &&usize| sheet.judge(&rounds[**number]).is_ok_and(|v| v.is_accepted());
    let accepted: Vec<usize> = group.iter().filter(accepted).copied().collect();
    let [first, others @ ..] = &accepted[..] else {
        return Err("no round is accepted");
    };
    let other = others.iter().find(|other| rounds[**other].challenge != rounds[*first].challenge);
    match other {
        Some(other) => Ok([*first, *other]),
        None if others.is_empty() => Err("one round alone is accepted"),
        None => Err("the accepted rounds have the same challenge"),
    }
}

/// What the extractor answers to some pairs of rounds.
pub struct Tried {
    /// The witness, or why there is none.
    pub answer: Result<Places, Refusal>,
    /// The pairs.
    pub pairs: Vec<[usize; 2]>,
}

/// Tries all pairs of a group, or only those with one of its rounds. Pairs with the same answer stand together.
pub fn tried(
    sheet: &Instance,
    rounds: &[Round],
    group: &[usize],
    with: Option<usize>,
) -> Vec<Tried> {
    let later = |first: usize| group.iter().filter(move |second| **second > first);
    let pairs = group.iter().flat_map(|first| later(*first).map(move |second| [*first, *second]));
    let mut all: Vec<Tried> = Vec::new();
    for pair in pairs.filter(|pair| with.is_none_or(|number| pair.contains(&number))) {
        let answer = sheet.extract(&rounds[pair[0]], &rounds[pair[1]]);
        match all.iter_mut().find(|tried| tried.answer == answer) {
            Some(tried) => tried.pairs.push(pair),
            None => all.push(Tried { answer, pairs: vec![pair] }),
        }
    }
    all
}

#[cfg(test)]
mod tests {
    use super::{first_pair, groups, pair_count, tried};
    use dimkhoros::{Instance, LONGEST_FILE, Patterns, Plan, Round, RoundWriter, places};

    /// Rounds of page D's sheet that look random: few commitments, accepted and rejected ones, some refused.
    fn rounds(sheet: &Instance, seed: usize) -> Vec<Round> {
        let round = |number: usize| {
            let hash = (number + 40 * seed).wrapping_mul(0x9e37_79b9) >> 7;
            let [c, first, second] = [hash % 4, hash / 4 % 3, hash / 12 % 12].map(|n| n as u32);
            let simulated = sheet.simulate(c, &places([first, second])).unwrap_or(places([5]));
            let commitment = if hash / 144 % 3 == 0 { places([1]) } else { simulated };
            Round { commitment, challenge: c, response: places([first, second]) }
        };
        (0..12).map(round).collect()
    }

    /// All pairs of numbers below a count, the first one smaller.
    fn pairs(count: usize) -> impl Iterator<Item = [usize; 2]> {
        (0..count).flat_map(move |first| (first + 1..count).map(move |second| [first, second]))
    }

    #[test]
    fn groups_and_pairs_are_those_of_the_library() {
        let plan = Plan {
            pattern: 2,
            modulus: 23,
            order: 11,
            challenges: 11,
            values: &[2, 3],
            statement: &[18],
        };
        let sheet = Instance::from_pattern(&Patterns::shipped(), &plan).unwrap();
        let found: usize = (0..200).map(|seed| compared(&sheet, &rounds(&sheet, seed))).sum();
        assert!(found > 100, "{found} pairs give a witness");
    }

    /// Compares groups and pairs of rounds with what the library says of all pairs, and answers how many give a witness.
    fn compared(sheet: &Instance, rounds: &[Round]) -> usize {
        let mut buffer = [0; LONGEST_FILE];
        let mut writer = RoundWriter::start(sheet, 1, &mut buffer).unwrap();
        rounds.iter().for_each(|round| writer.append(round).unwrap());
        let file = writer.file();
        let groups = groups(&file);
        let alike = |pair: &[usize; 2]| file.same_commitment(pair[0], pair[1]) == Ok(true);
        let count = pairs(rounds.len()).filter(alike).count();
        assert_eq!(groups.iter().map(|group| pair_count(group)).sum::<usize>(), count);
        groups.iter().map(|group| compared_group(sheet, rounds, group)).sum()
    }

    /// Compares a group's pairs, and answers how many give a witness.
    fn compared_group(sheet: &Instance, rounds: &[Round], group: &[usize]) -> usize {
        let takes = |[first, second]: &[usize; 2]| {
            let one_group = group.contains(first) && group.contains(second);
            one_group && sheet.extract(&rounds[*first], &rounds[*second]).is_ok()
        };
        let taken: Vec<[usize; 2]> = pairs(rounds.len()).filter(takes).collect();
        assert_eq!(first_pair(sheet, rounds, group).ok().as_ref(), taken.first());
        let all = tried(sheet, rounds, group, None);
        let given = all.iter().filter(|tried| tried.answer.is_ok());
        assert_eq!(given.map(|tried| tried.pairs.len()).sum::<usize>(), taken.len());
        assert_eq!(all.iter().map(|tried| tried.pairs.len()).sum::<usize>(), pair_count(group));
        let with = group.last().copied();
        let some = tried(sheet, rounds, group, with);
        let count = some.iter().map(|tried| tried.pairs.len()).sum::<usize>();
        assert_eq!(count, group.len() - 1);
        taken.len()
    }
}
