//! Faults of refusing a watch, and of what is refused before it.

use crate::faults::Fault;
use crate::faults::watches::{Given, hold};
use crate::library::Library::Judge;
use crate::library::{MOST_REMEMBERED, Round, Watch, WatchAnswer};

impl Given<'_> {
    /// Whether the watch holds exactly the sheet's bytes.
    fn is_on_sheet(&self) -> bool {
        let Given { sheet, watch, .. } = self;
        watch.length as usize == sheet.len() && watch.sheet.starts_with(sheet)
    }

    /// Whether the watch holds the sheet's bytes and counts at most 63 rounds.
    fn fits(&self) -> bool {
        self.is_on_sheet() && self.watch.count as usize <= MOST_REMEMBERED
    }

    /// The answer of one to whom the watch is opened on the sheet and has this count.
    /// What the watch holds comes back as it was given.
    fn fitted(&self, count: u32) -> WatchAnswer {
        let mut watch = *self.watch;
        hold(&mut watch, self.sheet);
        watch.count = count;
        let mut answer = self.with(&watch);
        answer.watch.sheet = self.watch.sheet;
        answer.watch.length = self.watch.length;
        if answer.verdict.accepted == 0 {
            answer.watch.count = self.watch.count;
        }
        answer
    }

    /// The answer of one to whom the rounds at these places are not remembered.
    fn without(&self, places: &[usize]) -> WatchAnswer {
        let mut watch = *self.watch;
        for place in places {
            watch.rounds[*place] = Round::default();
        }
        let mut answer = self.with(&watch);
        for place in places.iter().filter(|place| **place + 1 < MOST_REMEMBERED) {
            answer.watch.rounds[*place + 1] = self.watch.rounds[*place];
        }
        answer
    }
}

/// Whether a fault takes the sheet that is held for the one that is handed in.
fn takes_sheet(fault: Fault, Given { sheet, watch, .. }: &Given) -> bool {
    let Watch { sheet: held, length, .. } = watch;
    match fault {
        Fault::WatchSheetFront => held[..20] == sheet[..20],
        Fault::WatchSheetLength => *length as usize == sheet.len(),
        Fault::WatchSheetValues => held.starts_with(sheet),
        Fault::WatchSheetLoaded => {
            let held = held.get(..*length as usize).unwrap_or(&held[..]);
            Judge.load(held) == Judge.load(sheet)
        }
        Fault::WatchLengthCut => {
            *length as usize & 0xffff == sheet.len() && held.starts_with(sheet)
        }
        _ => false,
    }
}

/// What is said if the watch does not fit or the named round is not accepted.
pub fn unfit(fault: Fault, given: &Given, mut right: WatchAnswer) -> WatchAnswer {
    let Given { sheet, watch, round } = given;
    let count = watch.count;
    match fault {
        _ if takes_sheet(fault, given) => given.fitted(count),
        Fault::WatchKeeps64 if given.is_on_sheet() && count == 64 => {
            let mut answer = given.fitted(63);
            answer.watch.count = 64;
            answer
        }
        Fault::WatchCountCut if given.is_on_sheet() && count > 0xff => given.fitted(count & 0xff),
        Fault::WatchRejectedFits if Judge.judge(sheet, round).accepted == 0 => given.fitted(0),
        Fault::WatchRefusedRemembered if Judge.judge(sheet, round).accepted == 1 => {
            right.watch = given.remembered();
            right
        }
        Fault::WatchRefusedVerdict => {
            right.verdict.accepted = Judge.judge(sheet, round).accepted;
            right
        }
        _ if given.fits() => forged(fault, given, right),
        _ => right,
    }
}

/// What is said if the named round is not accepted.
fn forged(fault: Fault, given: &Given, mut right: WatchAnswer) -> WatchAnswer {
    let reused: Vec<usize> = given.reused(given.header().rows).collect();
    let nearest = reused[0];
    let named = &given.watch.rounds[nearest];
    let refused = Judge.judge(given.sheet, named).refusal != 0;
    match fault {
        Fault::WatchForgedNone => given.without(&reused),
        Fault::WatchForgedFarther => {
            let wrong = reused.into_iter().filter(|place| !given.is_accepted(*place));
            given.without(&wrong.collect::<Vec<_>>())
        }
        Fault::WatchForgedNamed => {
            let mut answer = given.without(&reused);
            answer.back = nearest as u32 + 1;
            answer
        }
        Fault::WatchForgedRefused if refused => given.without(&reused),
        Fault::WatchForgedBack => {
            right.back = nearest as u32 + 1;
            right
        }
        _ => right,
    }
}

/// What is said if the sheet or the round is refused.
pub fn early(fault: Fault, given: &Given, right: WatchAnswer) -> WatchAnswer {
    match (fault, right.verdict.refusal) {
        (Fault::WatchFitsFirst, 14..=16) if !given.fits() => given.refused(21),
        (Fault::WatchFitsBeforeSheet, 2..=11) if !given.is_on_sheet() => given.refused(21),
        (Fault::WatchRefusedMoves, 14..=16) => WatchAnswer { watch: given.remembered(), ..right },
        _ => right,
    }
}
