//! Faults of opening a watch, and of what it says of a round and remembers.

use crate::faults::Fault;
use crate::faults::unfit_watches::{early, unfit};
use crate::library::Library::Judge;
use crate::library::{
    Header, Judgement, LONGEST_SHEET, MOST_REMEMBERED, Opened, Places, Round, Watch, WatchAnswer,
};

/// Puts bytes and their length into a watch. Of more than 308 the first are held.
pub fn hold(watch: &mut Watch, sheet: &[u8]) {
    let held = &sheet[..sheet.len().min(LONGEST_SHEET)];
    watch.sheet[..held.len()].copy_from_slice(held);
    watch.length = sheet.len() as u32;
}

pub fn watch_open(fault: Fault, sheet: &[u8]) -> Opened {
    let mut right = Judge.watch_open(sheet);
    let Opened { watch, refusal } = &mut right;
    let used = watch.length as usize;
    match (fault, *refusal) {
        (Fault::OpenLengthMore, 0) => watch.length += 1,
        (Fault::OpenLongest, 0) => watch.length = LONGEST_SHEET as u32,
        (Fault::OpenLengthCut, 0) => watch.length &= 0xff,
        (Fault::OpenLastByte, 0) => watch.sheet[used - 1] = 0,
        (Fault::OpenFields, 0) => watch.sheet[20..].fill(0),
        (Fault::OpenJunk, 0) => watch.sheet[used..].fill(0xee),
        (Fault::OpenCountsOne, 0) => watch.count = 1,
        (Fault::OpenRounds, 0) => watch.rounds[MOST_REMEMBERED - 1].challenge = 1,
        (Fault::OpenRefusedHeld, 1..) => hold(watch, sheet),
        (Fault::OpenRefusesNothing, 1..) => {
            hold(watch, sheet);
            *refusal = 0;
        }
        _ => {}
    }
    right
}

/// What a watch is given.
#[derive(Clone, Copy)]
pub struct Given<'a> {
    pub sheet: &'a [u8],
    pub watch: &'a Watch,
    pub round: &'a Round,
}

impl Given<'_> {
    pub fn header(&self) -> Header {
        Judge.load(self.sheet).header
    }

    /// The judge's answer if the watch is this one.
    pub fn with(&self, watch: &Watch) -> WatchAnswer {
        Judge.watch_round(self.sheet, watch, self.round)
    }

    /// The places of the remembered rounds whose commitment is the same in the first
    /// so many places.
    fn same(&self, places: u32) -> impl Iterator<Item = usize> + '_ {
        let count = MOST_REMEMBERED.min(self.watch.count as usize);
        (0..count).filter(move |place| self.is_same(*place, places))
    }

    fn is_same(&self, place: usize, places: u32) -> bool {
        let used = ..places as usize;
        self.watch.rounds[place].commitment[used] == self.round.commitment[used]
    }

    /// The same without those that have the same challenge.
    pub fn reused(&self, places: u32) -> impl Iterator<Item = usize> + '_ {
        self.same(places).filter(|place| self.is_other(*place))
    }

    fn is_other(&self, place: usize) -> bool {
        self.watch.rounds[place].challenge != self.round.challenge
    }

    pub fn is_accepted(&self, place: usize) -> bool {
        Judge.judge(self.sheet, &self.watch.rounds[place]).accepted == 1
    }

    /// A refusal with this number.
    pub fn refused(&self, refusal: u32) -> WatchAnswer {
        WatchAnswer {
            watch: *self.watch,
            witness: [0; 8],
            back: 0,
            verdict: Judgement { refusal, ..Judgement::default() },
        }
    }

    /// The answer that names the round at this place, or none.
    fn naming(&self, place: Option<usize>, right: WatchAnswer) -> WatchAnswer {
        let named = place.map(|place| &self.watch.rounds[place]);
        let extracted = named.map(|named| Judge.extract(self.sheet, self.round, named));
        WatchAnswer {
            witness: extracted.map_or([0; 8], |extracted| extracted.values),
            back: place.map_or(0, |place| place as u32 + 1),
            ..right
        }
    }

    /// The watch with the round as its newest.
    pub fn remembered(&self) -> Watch {
        let mut watch = *self.watch;
        watch.rounds.rotate_right(1);
        watch.rounds[0] = *self.round;
        let Header { rows, columns, .. } = self.header();
        watch.rounds[0].commitment[rows as usize..].fill(0);
        watch.rounds[0].response[columns as usize..].fill(0);
        watch.count = MOST_REMEMBERED.min(watch.count as usize + 1) as u32;
        watch
    }
}

pub fn watch_round(fault: Fault, sheet: &[u8], watch: &Watch, round: &Round) -> WatchAnswer {
    let given = Given { sheet, watch, round };
    let right = given.with(watch);
    match (right.verdict.refusal, right.verdict.accepted) {
        (0, 1) => stored(fault, &given, named(fault, &given, right)),
        (0, _) => rejected(fault, &given, right),
        (21, _) => unfit(fault, &given, right),
        _ => early(fault, &given, right),
    }
}

/// The answer with another number of rounds back.
fn with_back(mut answer: WatchAnswer, back: u32) -> WatchAnswer {
    answer.back = back;
    answer
}

/// What is said of an accepted round.
fn named(fault: Fault, given: &Given, right: WatchAnswer) -> WatchAnswer {
    let back = right.back;
    let rows = || given.header().rows;
    match fault {
        Fault::WatchFarthest => given.naming(given.reused(rows()).last(), right),
        Fault::WatchStopsSame => {
            let first = given.same(rows()).next();
            given.naming(first.filter(|place| given.is_other(*place)), right)
        }
        Fault::WatchSameChallenge => given.naming(given.same(rows()).next(), right),
        Fault::WatchEightPlaces => given.naming(given.reused(8).next(), right),
        Fault::WatchRowZero => given.naming(given.reused(1).next(), right),
        Fault::WatchEndRow => given.naming(given.reused(rows() - 1).next(), right),
        Fault::WatchBackSame => {
            let same = given.same(rows());
            let nearer = same.filter(|place| *place < back as usize);
            with_back(right, nearer.count() as u32)
        }
        Fault::WatchBackZero => with_back(right, back.saturating_sub(1)),
        Fault::WatchLooks62 | Fault::WatchSearchesLate if back == 63 => given.naming(None, right),
        Fault::WatchSearchesLate if back > 0 => with_back(right, back + 1),
        Fault::WatchOneBeyond if back == 0 => beyond(given, rows(), right),
        Fault::WatchJudgesAll
            if (0..given.watch.count as usize).any(|place| !given.is_accepted(place)) =>
        {
            given.refused(21)
        }
        _ => WatchAnswer { witness: witness(fault, given, &right), ..right },
    }
}

/// What is said if the round at the count is looked at too, and no other is named.
fn beyond(given: &Given, rows: u32, right: WatchAnswer) -> WatchAnswer {
    let at = given.watch.count as usize;
    if at < MOST_REMEMBERED && given.is_same(at, rows) && given.is_other(at) {
        given.naming(Some(at), right)
    } else {
        right
    }
}

/// The witness beside an accepted round.
fn witness(fault: Fault, given: &Given, right: &WatchAnswer) -> Places {
    let mut witness = right.witness;
    match (fault, right.back) {
        (Fault::WatchNoWitness, _) => witness = [0; 8],
        (Fault::WatchWitnessNone, 0) => witness = right.watch.rounds[0].response,
        (Fault::WatchWitnessBeyond, 1..) => {
            let beyond = given.header().columns as usize..;
            witness[beyond.clone()].copy_from_slice(&given.round.response[beyond]);
        }
        _ => {}
    }
    witness
}

/// The watch that is handed back beside an accepted round.
fn stored(fault: Fault, given: &Given, mut answer: WatchAnswer) -> WatchAnswer {
    let before = given.watch.count as usize;
    let watch = &mut answer.watch;
    match fault {
        Fault::WatchKeeps62 => watch.count = watch.count.min(62),
        Fault::WatchKeeps64 if before == MOST_REMEMBERED => watch.count = 64,
        Fault::WatchCountStill => watch.count = given.watch.count,
        Fault::WatchNewestLost if before == MOST_REMEMBERED => *watch = *given.watch,
        Fault::WatchNewestLast if before < MOST_REMEMBERED => {
            let newest = watch.rounds[0];
            watch.rounds = given.watch.rounds;
            watch.rounds[before] = newest;
        }
        Fault::WatchStoresCommitment => watch.rounds[0].commitment = given.round.commitment,
        Fault::WatchStoresResponse => watch.rounds[0].response = given.round.response,
        Fault::WatchMendsOlder => {
            let Header { rows, columns, .. } = given.header();
            for round in &mut watch.rounds {
                round.commitment[rows as usize..].fill(0);
                round.response[columns as usize..].fill(0);
            }
        }
        Fault::WatchClearsBehind => watch.rounds[watch.count as usize..].fill(Round::default()),
        Fault::WatchBehindStays if before < MOST_REMEMBERED => {
            let behind = before + 1..;
            watch.rounds[behind.clone()].copy_from_slice(&given.watch.rounds[behind]);
        }
        Fault::WatchClearsBytes => watch.sheet[watch.length as usize..].fill(0),
        _ => {}
    }
    answer
}

/// What is said of a rejected round, and the watch that is handed back.
fn rejected(fault: Fault, given: &Given, mut right: WatchAnswer) -> WatchAnswer {
    let nearest = || given.reused(given.header().rows).next();
    match fault {
        Fault::WatchRemembersRejected => right.watch = given.remembered(),
        Fault::WatchRejectedNames => {
            right.back = nearest().map_or(0, |place| place as u32 + 1);
        }
        Fault::WatchRejectedForged if nearest().is_some_and(|place| !given.is_accepted(place)) => {
            return given.refused(21);
        }
        Fault::WatchFirstRow => right.verdict.rows &= right.verdict.rows.wrapping_neg(),
        Fault::WatchNoRows => right.verdict.rows = 0,
        _ => {}
    }
    right
}
