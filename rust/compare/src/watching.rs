//! What card 9 asks of a watch, in runs of 70 and of 130 rounds, through one library
//! alone.
//!
//! What is remembered is made without the watch: the last 63 of the rounds that came
//! with the sheet's bytes and that the judging call accepts. For each accepted round
//! the nearest of them with the same commitment and another challenge is named, with
//! the witness that the extracting call answers for the two.

use crate::cases::WatchStep;
use crate::library::{Judgement, LONGEST_SHEET, Library, MOST_REMEMBERED, Places, Round, Watch};
use crate::making::watched_rounds;
use crate::printing::hex;
use crate::random::Random;

/// How many runs there are of either length.
const RUNS: u64 = 30;

/// How often something was met.
#[derive(Debug, Default)]
struct Met {
    rounds: u64,
    accepted: u64,
    /// Accepted rounds that name one.
    named: u64,
    /// Those that name one that stands 63 back.
    last: u64,
    /// Accepted rounds that name none though one that they would name stands 64 back.
    forgotten: u64,
    /// Those that name one though a nearer one has the same commitment.
    passed_over: u64,
}

/// Tries the card in every run and answers the line to print. An error says where it
/// fails.
pub fn check(library: Library) -> Result<String, String> {
    let met = tried(library)?;
    Ok(format!(
        "card 9 holds in {} runs of 70 and 130 rounds, {} rounds: of {} accepted ones {} name one, {} one \
         63 back and {} one before a nearer repeat; {} name none and have one 64 back",
        2 * RUNS,
        met.rounds,
        met.accepted,
        met.named,
        met.last,
        met.passed_over,
        met.forgotten
    ))
}

/// Tries the card in every run.
fn tried(library: Library) -> Result<Met, String> {
    let mut met = Met::default();
    for (seed, rounds) in (0..RUNS).flat_map(|seed| [(seed, 70), (seed, 130)]) {
        let (sheet, steps) = watched_rounds(&mut Random::new(seed), rounds);
        let fails = |what: String| format!("card 9 fails on sheet {}: {what}", hex(&sheet));
        let mut run = Run::new(library, &sheet).map_err(fails)?;
        for (number, step) in steps.iter().enumerate() {
            let heard = run.hear(step, &mut met);
            heard.map_err(|what| fails(format!("{what} at round {number} of seed {seed}")))?;
        }
    }
    Ok(met)
}

/// A watch that is opened on a sheet, and the rounds that are accepted there.
struct Run<'a> {
    library: Library,
    sheet: &'a [u8],
    rows: usize,
    columns: usize,
    watch: Watch,
    /// All accepted rounds with zeros beyond the rows and columns, the newest first.
    past: Vec<Round>,
}

impl Run<'_> {
    /// The watch is opened on the sheet, which loads.
    fn new(library: Library, sheet: &[u8]) -> Result<Run<'_>, String> {
        let (header, opened) = (library.load(sheet).header, library.watch_open(sheet));
        let run = Run {
            library,
            sheet,
            rows: header.rows as usize,
            columns: header.columns as usize,
            watch: opened.watch,
            past: Vec::new(),
        };
        if opened.refusal == 0 && opened.watch == run.expected() {
            Ok(run)
        } else {
            Err("another watch is opened".to_string())
        }
    }

    /// The watch on the sheet that remembers the last 63 of the accepted rounds.
    fn expected(&self) -> Watch {
        let count = self.past.len().min(MOST_REMEMBERED);
        let mut rounds = [Round::default(); MOST_REMEMBERED];
        rounds[..count].copy_from_slice(&self.past[..count]);
        let mut sheet = [0; LONGEST_SHEET];
        sheet[..self.sheet.len()].copy_from_slice(self.sheet);
        Watch { rounds, sheet, length: self.sheet.len() as u32, count: count as u32 }
    }

    /// The verdict that is to be given: the judging call's, and 21 for other bytes.
    fn verdict(&self, WatchStep { sheet, round }: &WatchStep) -> Judgement {
        let judged = self.library.judge(sheet, round);
        if judged.refusal == 0 && sheet != self.sheet {
            Judgement { refusal: 21, ..Judgement::default() }
        } else {
            judged
        }
    }

    /// The place among all accepted rounds of the nearest with the same commitment and
    /// another challenge.
    fn nearest(&self, round: &Round) -> Option<usize> {
        let mut past = self.past.iter();
        past.position(|other| self.is_same(other, round) && other.challenge != round.challenge)
    }

    fn is_same(&self, one: &Round, other: &Round) -> bool {
        one.commitment[..self.rows] == other.commitment[..self.rows]
    }

    /// What is to be said of an accepted round.
    fn said(&self, round: &Round, met: &mut Met) -> (u32, Places) {
        met.accepted += 1;
        match self.nearest(round) {
            Some(place) if place < MOST_REMEMBERED => {
                let nearer = &self.past[..place];
                met.named += 1;
                met.last += u64::from(place + 1 == MOST_REMEMBERED);
                met.passed_over += u64::from(nearer.iter().any(|it| self.is_same(it, round)));
                let named = &self.past[place];
                let extracted = self.library.extract(self.sheet, round, named);
                (place as u32 + 1, extracted.values)
            }
            place => {
                met.forgotten += u64::from(place == Some(MOST_REMEMBERED));
                (0, [0; 8])
            }
        }
    }

    /// Whether the table carries these values to the statement.
    fn is_witness(&self, values: &Places) -> bool {
        let image = self.library.simulate(self.sheet, 0, values);
        image.refusal == 0 && image.values == self.library.load(self.sheet).statement
    }

    /// Gives the watch a round. An error says what is not as it is to be.
    fn hear(&mut self, step: &WatchStep, met: &mut Met) -> Result<(), &'static str> {
        let verdict = self.verdict(step);
        let mut said = (0, [0; 8]);
        if verdict.accepted == 1 {
            said = self.said(&step.round, met);
            let mut round = step.round;
            round.commitment[self.rows..].fill(0);
            round.response[self.columns..].fill(0);
            self.past.insert(0, round);
        }
        met.rounds += 1;
        let answer = self.library.watch_round(&step.sheet, &self.watch, &step.round);
        self.watch = answer.watch;
        match () {
            _ if answer.verdict != verdict => Err("another verdict"),
            _ if (answer.back, answer.witness) != said => Err("another round is named"),
            _ if said.0 > 0 && !self.is_witness(&said.1) => Err("what is given is no witness"),
            _ if answer.watch != self.expected() => Err("another watch is handed back"),
            _ => Ok(()),
        }
    }
}

#[cfg(test)]
mod tests {
    use super::*;
    use crate::faults::FAULTS;
    use crate::library::Library::{Faulty, Judge};

    #[test]
    fn the_judge_meets_the_card_and_all_is_met() {
        let met = tried(Judge).unwrap();
        assert_eq!(met.rounds, RUNS * 200);
        let sheets = (0..RUNS).map(|seed| watched_rounds(&mut Random::new(seed), 1).0);
        let kinds: Vec<u8> = sheets.map(|sheet| sheet[5]).collect();
        assert!([1, 2].iter().all(|kind| kinds.contains(kind)), "{kinds:?}");
        let counts = [met.named, met.last, met.forgotten, met.passed_over];
        assert!(counts.iter().all(|times| *times > 50), "{met:?}");
    }

    /// Faults that show only in a watch made by hand, or if opening is refused.
    const NOT_IN_RUNS: [&str; 17] = [
        "watch-open-refused-held",
        "watch-open-refuses-nothing",
        "watch-one-beyond",
        "watch-judges-all",
        "watch-mends-older",
        "watch-clears-behind",
        "watch-behind-stays",
        "watch-clears-bytes",
        "watch-rejected-forged",
        "watch-sheet-values",
        "watch-length-cut",
        "watch-count-cut",
        "watch-forged-none",
        "watch-forged-farther",
        "watch-forged-named",
        "watch-forged-refused",
        "watch-forged-back",
    ];

    #[test]
    fn impostors_do_not_meet_card_nine() {
        let faults = FAULTS.iter().filter(|planted| planted.name.starts_with("watch-"));
        let met: Vec<&str> = faults
            .filter(|planted| tried(Faulty(planted.fault)).is_ok())
            .map(|planted| planted.name)
            .collect();
        assert_eq!(met, NOT_IN_RUNS);
    }
}
