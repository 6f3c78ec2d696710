//! Ledgers, what they are made of, and the answers of the calls on them, as the vectors
//! have them.

use super::answers::{list, told};
use super::inputs::Inputs;
use crate::calls::Call;
use crate::ledgers::{counted, entry_numbers, line_numbers};
use crate::library::{Checked, Entries, Ledger, LedgerWritten, Library};

/// The lists that are counted, and those behind them up to the last that is not zeros.
/// Equal ones that follow each other are one with a count. The count follows if it is not
/// as many.
fn lists<const N: usize>(name: &str, lists: &[[u32; N]], count: u32) -> String {
    let last = lists.iter().rposition(|list| *list != [0; N]);
    let shown = &lists[..last.map_or(0, |last| last + 1).max(counted(count))];
    let pieces = shown.chunk_by(|a, b| a == b).map(|run| {
        let numbers = list(&run[0], 1);
        match run.len() {
            1 => numbers,
            times => format!("{numbers}*{times}"),
        }
    });
    let pieces = match shown {
        [] => "-".to_string(),
        _ => pieces.collect::<Vec<_>>().join("/"),
    };
    if count as usize == shown.len() {
        format!("{name}={pieces}")
    } else {
        format!("{name}={pieces} count={count}")
    }
}

/// The lines of a ledger.
pub fn ledger(ledger: &Ledger) -> String {
    let lines = ledger.lines.each_ref().map(line_numbers);
    lists("lines", &lines, ledger.count)
}

/// What a ledger is made of.
pub fn entries(entries: &Entries) -> String {
    let all = entries.entries.each_ref().map(entry_numbers);
    lists("entries", &all, entries.count)
}

/// What a ledger is found to be. Beside `accepted` a line is shown only if it is not 0.
fn found(checked: Checked) -> String {
    match (checked.accepted, checked.line) {
        (1, 0) => "accepted".to_string(),
        (1, line) => format!("accepted {line}"),
        (_, line) => format!("rejected {line}"),
    }
}

/// The calls on a ledger, which are given no sheet and no file.
pub fn answer(library: Library, call: Call, inputs: &mut Inputs) -> Result<String, String> {
    let base = inputs.base()?;
    if call == Call::LedgerCheck {
        let checked = library.ledger_check(base, &inputs.ledger()?);
        let clean = checked.accepted == 0 && checked.line == 0;
        return Ok(told(checked.refusal, clean, || found(checked)));
    }
    let LedgerWritten { ledger: made, refusal } = library.ledger_write(base, &inputs.entries()?);
    Ok(told(refusal, made == Ledger::default(), || ledger(&made)))
}
