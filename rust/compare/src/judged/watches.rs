//! The judge's calls on a watch, behind those of the library.

use judge::watch;

use super::values::{judgement, round};
use crate::library::{Opened, Round, Watch, WatchAnswer};

/// A watch for the judge.
fn for_judge(held: &Watch) -> watch::Watch {
    watch::Watch {
        sheet: held.sheet,
        length: held.length.into(),
        rounds: held.rounds.each_ref().map(round),
        count: held.count,
    }
}

/// A watch from the judge, whose length is one that the library gave or that of a
/// sheet.
fn from_judge(held: watch::Watch) -> Watch {
    Watch {
        rounds: held.rounds.map(|round| Round {
            commitment: round.commitment,
            challenge: round.challenge,
            response: round.response,
        }),
        sheet: held.sheet,
        length: held.length as u32,
        count: held.count,
    }
}

pub fn watch_open(sheet: &[u8]) -> Opened {
    let (result, opened) = watch::open(sheet);
    Opened { watch: from_judge(opened), refusal: result.err().unwrap_or(0) }
}

pub fn watch_round(sheet: &[u8], held: &Watch, given: &Round) -> WatchAnswer {
    let (answer, next) = watch::take_round(sheet, for_judge(held), &round(given));
    WatchAnswer {
        watch: from_judge(next),
        witness: answer.witness,
        back: answer.back,
        verdict: judgement(answer.verdict),
    }
}
