//! The judge's calls on a ledger, behind those of the library.

use judge::ledger;

use crate::library::{Base, Checked, Entries, Entry, Ledger, LedgerWritten, Line};

/// What the lines share, for the judge.
fn shared(base: Base) -> ledger::Base {
    ledger::Base {
        g: base.g,
        h: base.h,
        modulus: base.modulus,
        order: base.order,
        challenges: base.challenges,
    }
}

/// A line for the judge.
fn for_judge(line: Line) -> ledger::Line {
    ledger::Line {
        kind: line.kind,
        first: line.first,
        second: line.second,
        commitment: line.commitment,
        t: line.t,
        challenge: line.challenge,
        response: line.response,
    }
}

/// A line from the judge.
fn from_judge(line: ledger::Line) -> Line {
    Line {
        kind: line.kind,
        first: line.first,
        second: line.second,
        commitment: line.commitment,
        t: line.t,
        challenge: line.challenge,
        response: line.response,
    }
}

/// What a line is made of, for the judge.
fn wish(entry: Entry) -> ledger::Wish {
    ledger::Wish {
        kind: entry.kind,
        first: entry.first,
        second: entry.second,
        value: entry.value,
        blinding: entry.blinding,
        nonce: entry.nonce,
        challenge: entry.challenge,
    }
}

pub fn ledger_check(base: Base, held: &Ledger) -> Checked {
    let held = ledger::Ledger { lines: held.lines.map(for_judge), count: held.count };
    let (accepted, line, refusal) = match ledger::check(&shared(base), &held) {
        Ok(ledger::Checked::Accepted) => (1, 0, 0),
        Ok(ledger::Checked::Rejected { line }) => (0, line, 0),
        Err(refusal) => (0, 0, refusal),
    };
    Checked { accepted, line, refusal }
}

pub fn ledger_write(base: Base, entries: &Entries) -> LedgerWritten {
    let wishes = ledger::Wishes { entries: entries.entries.map(wish), count: entries.count };
    match ledger::write(&shared(base), &wishes) {
        Ok(made) => LedgerWritten {
            ledger: Ledger { lines: made.lines.map(from_judge), count: made.count },
            refusal: 0,
        },
        Err(refusal) => LedgerWritten { refusal, ..LedgerWritten::default() },
    }
}
