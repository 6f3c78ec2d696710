//! The command `simulate`: accepted rounds without a witness.

use crate::command_line::failure::{Failure, Outcome};
use crate::command_line::words::{Grammar, Words};
use crate::sheets::round_words::Asked;
use crate::sheets::{self, round_table, small};
use dimkhoros::{Instance, Places, Round};
use std::ffi::OsString;
use std::io::Write;

/// The command's help.
pub const HELP: &str = "\
usage: dimkhoros simulate SHEET c=CHALLENGE [r=VALUE,...]

Makes the one commitment with which Vic accepts a challenge and a response: t = [r] · z^(-c). No witness is needed. Without r, all
responses are taken in turn, if there are at most 512.

    SHEET        a sheet
    c=CHALLENGE  a challenge, from 0 to K - 1
    r=VALUE,...  a response, a value for each column

Example:
    $ dimkhoros make schnorr m=23 q=11 h=2 x=7 -o sheet.bin
    13 = 2^x mod 23, q = 11, K = 11
    $ dimkhoros simulate sheet.bin c=3 r=0
    t  c  r  verdict
    2  3  0  accepted
";

const GRAMMAR: Grammar =
    Grammar { plain: &["SHEET"], optional: 0, letters: &["c", "r"], flags: &[], options: &[] };

/// Runs the command.
pub fn run(words: Vec<OsString>, out: &mut dyn Write) -> Outcome {
    let words = Words::sort(words, &GRAMMAR)?;
    let challenge = words.needed("c", "the challenge")?.number()?;
    let sheet = sheets::load(&words.path(0))?;
    let responses = match words.once("r")? {
        Some(value) => vec![sheets::by_column(&sheet, value)?],
        None => small::domain(&sheet, small::LISTED).ok_or(Failure::words(format!(
            "r= is missing: the response, of which the sheet has more than {}",
            small::LISTED
        )))?,
    };
    let rounds = responses.iter().map(|response| simulated(&sheet, challenge, response));
    let rounds = rounds.collect::<Outcome<Vec<Round>>>()?;
    out.write_all(round_table::plain(&sheet, &rounds).as_bytes())?;
    Ok(())
}

/// A simulated round.
fn simulated(sheet: &Instance, challenge: u32, response: &Places) -> Outcome<Round> {
    let asked = Asked::Simulated { challenge, response: *response };
    asked.round(sheet).map_err(|refusal| asked.refused(sheet, refusal))
}
