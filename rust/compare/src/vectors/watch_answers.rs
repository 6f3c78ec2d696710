//! Watches, and the answers of the calls on them, as the vectors have them.

use super::Given;
use super::answers::{list, sizes, told, verdict};
use super::bytes;
use super::inputs::Inputs;
use crate::library::{LONGEST_SHEET, Library, Round, Watch};

/// A round that a watch remembers: t, c and r.
fn remembered(round: &Round) -> String {
    let (t, r) = (list(&round.commitment, 1), list(&round.response, 1));
    format!("{t}:{}:{r}", round.challenge)
}

/// What a watch remembers: the count, and its rounds up to the last that is not
/// zeros. Equal ones that follow each other are one with a count.
fn memory(watch: &Watch) -> String {
    let zeros = |round: &Round| *round == Round::default();
    let last = watch.rounds.iter().rposition(|round| !zeros(round));
    let shown = &watch.rounds[..last.map_or(0, |last| last + 1)];
    let pieces = shown.chunk_by(|a, b| a == b).map(|run| match run.len() {
        1 => remembered(&run[0]),
        count => format!("{}*{count}", remembered(&run[0])),
    });
    let rounds = match last {
        None => "-".to_string(),
        Some(_) => pieces.collect::<Vec<_>>().join("/"),
    };
    format!("count={} rounds={rounds}", watch.count)
}

/// The bytes that a watch holds, up to the last that is not 0 and at least as many as
/// its length says.
fn held(watch: &Watch) -> String {
    let last = watch.sheet.iter().rposition(|byte| *byte != 0);
    let shown = last.map_or(0, |last| last + 1).max(watch.length as usize);
    format!("held={}", bytes::text(&watch.sheet[..shown.min(LONGEST_SHEET)]))
}

/// All that a watch holds.
pub fn watch(watch: &Watch) -> String {
    format!("{} length={} {}", memory(watch), watch.length, held(watch))
}

/// All that a watch holds, without the length and the bytes that are this sheet's.
fn on_sheet(watch: &Watch, sheet: &[u8]) -> String {
    let mut words = vec![memory(watch)];
    if watch.length as usize != sheet.len() {
        words.push(format!("length={}", watch.length));
    }
    let behind = watch.sheet.strip_prefix(sheet);
    if !behind.is_some_and(|behind| behind.iter().all(|byte| *byte == 0)) {
        words.push(held(watch));
    }
    words.join(" ")
}

impl Given {
    pub fn watch_open(&self, library: Library) -> String {
        let opened = library.watch_open(&self.sheet);
        let clean = watch(&opened.watch) == "count=0 rounds=- length=0 held=-";
        told(opened.refusal, clean, || watch(&opened.watch))
    }

    pub fn watch_round(&self, library: Library, inputs: &mut Inputs) -> Result<String, String> {
        let given = inputs.watch(&self.sheet)?;
        let answer = library.watch_round(&self.sheet, &given, &inputs.round("")?);
        let (judged, back) = (answer.verdict, answer.back);
        let clean = judged.accepted == 0
            && judged.rows == 0
            && back == 0
            && answer.witness == [0; 8]
            && answer.watch == given;
        Ok(told(judged.refusal, clean, || {
            let verdict = verdict(judged);
            let x = list(&answer.witness, sizes(&self.sheet).1);
            let watch = on_sheet(&answer.watch, &self.sheet);
            format!("{verdict} back={back} x={x} {watch}")
        }))
    }
}
