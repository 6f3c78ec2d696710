use std::collections::BTreeMap;

use super::*;
use crate::library::Library::Judge;
use crate::library::{Header, Judgement};

/// Shapes, and whether each is met.
type Shapes = Vec<(bool, &'static str)>;

/// What stands out in the sheet that a watch holds beside the one that is handed in.
fn held(watch: &Watch, sheet: &[u8]) -> Shapes {
    let (length, long) = (watch.length as usize, sheet.len());
    let bytes = watch.sheet.get(..length).unwrap_or(&watch.sheet);
    let same = watch.sheet.starts_with(sheet);
    let differing = bytes.iter().zip(sheet).filter(|(a, b)| a != b).count();
    let loads = Judge.load(bytes).refusal == 0;
    let junk = same && length == long && watch.sheet[long..].iter().any(|byte| *byte != 0);
    vec![
        (same && length == long + 1, "a length of one more"),
        (same && length + 1 == long, "a length of one fewer"),
        (same && length == 309, "a length of 309"),
        (same && watch.length == u32::MAX, "a length of 2^32 - 1"),
        (length == long && differing == 1, "another byte"),
        (differing > 0 && loads, "another sheet that loads"),
        (differing > 0 && !loads, "bytes that do not load"),
        (junk, "junk after the sheet"),
        (watch.count == 64, "a count of 64"),
        (watch.count == 65, "a count of 65"),
        (watch.count == u32::MAX, "a count of 2^32 - 1"),
    ]
}

/// A watch and the round that it is given, with a sheet that loads.
struct Asked<'a> {
    sheet: &'a [u8],
    header: Header,
    watch: &'a Watch,
    round: &'a Round,
}

impl Asked<'_> {
    fn count(&self) -> usize {
        MOST_REMEMBERED.min(self.watch.count as usize)
    }

    /// Whether the round at this place has the same commitment.
    fn is_same(&self, place: usize) -> bool {
        let used = ..self.header.rows as usize;
        self.watch.rounds[place].commitment[used] == self.round.commitment[used]
    }

    /// Whether it has another challenge too.
    fn reuses(&self, place: usize) -> bool {
        self.is_same(place) && self.watch.rounds[place].challenge != self.round.challenge
    }

    fn verdict(&self, place: usize) -> Judgement {
        Judge.judge(self.sheet, &self.watch.rounds[place])
    }

    /// What stands out in the rounds that are remembered.
    fn remembered(&self) -> Shapes {
        let (count, rounds) = (self.count(), &self.watch.rounds);
        let nearest = (0..count).find(|place| self.reuses(*place));
        let at_count = count < MOST_REMEMBERED && self.reuses(count);
        let repeated = (0..nearest.unwrap_or(0)).any(|place| self.is_same(place));
        let zeros = rounds.iter().all(|round| *round == Round::default());
        vec![
            (nearest.is_none(), "no reuse"),
            (nearest == Some(0), "a reuse 1 back"),
            (nearest == Some(62), "a reuse 63 back"),
            (nearest.is_none() && at_count, "a reuse at the count"),
            (repeated, "a nearer repeat"),
            (count == 63 && zeros, "63 rounds of zeros"),
            (count == 0, "a count of 0"),
            (self.watch.count == 63, "a count of 63"),
        ]
    }

    /// What stands out in the rounds that may be named.
    fn named(&self) -> Shapes {
        let reused: Vec<usize> = (0..self.count()).filter(|it| self.reuses(*it)).collect();
        let Some(named) = reused.first().copied() else {
            return Vec::new();
        };
        let round = &self.watch.rounds[named];
        let beyond = self.header.rows as usize..;
        let junk = round.commitment[beyond.clone()] != self.round.commitment[beyond];
        let is_accepted = |place: &usize| self.verdict(*place).accepted == 1;
        let (refusal, forged) = (self.verdict(named).refusal, !is_accepted(&named));
        let some_accepted = reused.iter().any(is_accepted);
        let all_accepted = reused.iter().all(is_accepted);
        vec![
            (junk, "other junk beyond the rows"),
            (round.challenge == self.header.challenges, "a named challenge K"),
            (refusal == 16, "a named slot of q"),
            (forged && refusal == 0, "a rejected named round"),
            (forged && some_accepted, "forged before accepted"),
            (!forged && !all_accepted, "accepted before forged"),
        ]
    }
}

/// What is said of a round, with what judging alone says if it is refused with 21.
fn said(case: &WatchCase, sheet: &[u8], round: &Round) -> String {
    let word = |verdict: &Judgement| match (verdict.refusal, verdict.accepted) {
        (0, 1) => "accepted".to_string(),
        (0, _) => "rejected".to_string(),
        (number, _) => format!("refused {number}"),
    };
    let judged = word(&Judge.judge(sheet, round));
    match case.run(Judge).answers[0].1.refusal() {
        21 => format!("21 for {judged}"),
        _ => judged,
    }
}

/// What stands out in a case, after what is said there.
fn shapes(case: &WatchCase) -> Vec<String> {
    let (Start::Made(watch), [WatchStep { sheet, round }]) = (&case.start, &case.steps[..]) else {
        panic!("a watch that is made by hand is given one round");
    };
    let mut shapes = held(watch, sheet);
    let loaded = Judge.load(sheet);
    if loaded.refusal == 0 {
        let asked = Asked { sheet, header: loaded.header, watch, round };
        shapes.extend(asked.remembered());
        shapes.extend(asked.named());
    }
    let said = said(case, sheet, round);
    let met = shapes.into_iter().filter(|(met, _)| *met);
    met.map(|(_, shape)| format!("{said}: {shape}")).collect()
}

/// Watches that do not fit the sheet.
const UNFIT: [&str; 10] = [
    "a length of one more",
    "a length of one fewer",
    "a length of 309",
    "a length of 2^32 - 1",
    "another byte",
    "another sheet that loads",
    "bytes that do not load",
    "a count of 64",
    "a count of 65",
    "a count of 2^32 - 1",
];

/// Named rounds that are not accepted.
const FORGED: [&str; 4] = [
    "a named challenge K",
    "a named slot of q",
    "a rejected named round",
    "forged before accepted",
];

/// What no number is given for.
const FIT: [&str; 11] = [
    "no reuse",
    "a reuse 1 back",
    "a reuse 63 back",
    "a reuse at the count",
    "a nearer repeat",
    "other junk beyond the rows",
    "accepted before forged",
    "junk after the sheet",
    "63 rounds of zeros",
    "a count of 0",
    "a count of 63",
];

/// The shapes that are to be met: what is said, and with what.
fn wanted() -> Vec<String> {
    let lists: [(&str, &[&str]); 8] = [
        ("21 for accepted", &UNFIT),
        ("21 for accepted", &FORGED),
        ("21 for rejected", &UNFIT),
        ("refused 14", &UNFIT),
        ("refused 15", &UNFIT),
        ("refused 16", &UNFIT),
        ("accepted", &FIT),
        ("rejected", &FIT),
    ];
    let shapes = lists
        .iter()
        .flat_map(|(said, shapes)| shapes.iter().map(move |shape| format!("{said}: {shape}")));
    shapes.collect()
}

#[test]
fn watches_of_every_shape_are_met() {
    let mut met: BTreeMap<String, u32> = BTreeMap::new();
    for seed in 0..16_000 {
        for shape in shapes(&made(&mut Random::new(seed))) {
            *met.entry(shape).or_insert(0) += 1;
        }
    }
    let times = |shape: &String| met.get(shape).copied().unwrap_or(0);
    let few: Vec<_> = wanted().into_iter().map(|shape| (times(&shape), shape)).collect();
    let few: Vec<_> = few.into_iter().filter(|(times, _)| *times < 4).collect();
    assert!(few.is_empty(), "met too seldom: {few:?}");
}
