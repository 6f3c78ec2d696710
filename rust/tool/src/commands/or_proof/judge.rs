//! A round of the OR proof, judged.

use super::rounds;
use crate::command_line::colour;
use crate::command_line::failure::Outcome;
use crate::command_line::words::{self, Words};
use crate::sheets::{brought, equation};
use dimkhoros::Side;
use std::ffi::OsString;
use std::io::Write;

/// Prints the equations of both sides of a round, and its verdict.
pub fn run(words: Vec<OsString>, out: &mut dyn Write) -> Outcome {
    let words = Words::sort(words, &rounds::GRAMMAR)?;
    let groups = words.groups();
    if let [_, second, ..] = &groups[..] {
        return Err(words::twice(&format!("{}=", second[0].letter)));
    }
    let sheets = rounds::load(&words)?;
    let pair = rounds::pair(&words, &sheets)?;
    let round = rounds::read(&pair, words.values(), None)?;
    let judged = pair.judge(&round);
    let verdict =
        judged.map_err(|refusal| brought::refused(refusal, &rounds::brought(&pair, &round)))?;
    writeln!(out, "{}\n", rounds::difference(&pair, &round, Side::Second))?;
    let sides = [Side::First, Side::Second];
    let sides = sides.map(|side| (pair.instance(side), rounds::of_side(&pair, &round, side)));
    let verdict = colour::verdict(&verdict.to_string());
    writeln!(out, "{}\n{verdict}", equation::lines(&sides)?)?;
    Ok(())
}
