//! Sheets, rounds and results, as the judge and as the library have them.

use judge::{Rows, Verdict};

use crate::library::{Computed, Header, Judgement, Loaded, Places, Round, Written};

/// A loaded sheet or the refusal, with zeros beside it.
pub fn loaded(result: Result<judge::Sheet, u32>) -> Loaded {
    match result {
        Ok(sheet) => Loaded {
            refusal: 0,
            header: Header {
                kind: sheet.kind,
                modulus: sheet.modulus,
                order: sheet.order,
                challenges: sheet.challenges,
                rows: sheet.rows,
                columns: sheet.columns,
            },
            statement: sheet.statement,
        },
        Err(refusal) => Loaded { refusal, ..Loaded::default() },
    }
}

/// The values of a sheet for the judge.
pub fn sheet(header: Header, entries: &[u32; 64], statement: &Places) -> judge::Sheet {
    let mut sheet = judge::Sheet {
        kind: header.kind,
        modulus: header.modulus,
        order: header.order,
        challenges: header.challenges,
        rows: header.rows,
        columns: header.columns,
        entries: [[0; 8]; 8],
        statement: *statement,
    };
    sheet.entries.as_flattened_mut().copy_from_slice(entries);
    sheet
}

/// A written length or the refusal, with zeros beside it.
pub fn written(result: Result<usize, u32>) -> Written {
    match result {
        Ok(length) => Written { refusal: 0, length },
        Err(refusal) => Written { refusal, length: 0 },
    }
}

/// A round for the judge.
pub fn round(round: &Round) -> judge::Round {
    judge::Round {
        commitment: round.commitment,
        challenge: round.challenge,
        response: round.response,
    }
}

/// Eight values or the refusal, with zeros beside it.
pub fn computed(result: Result<Places, u32>) -> Computed {
    match result {
        Ok(values) => Computed { refusal: 0, values },
        Err(refusal) => Computed { refusal, values: [0; 8] },
    }
}

/// The mask of these rows: row i has the bit of value 2^i.
pub fn mask(rows: &Rows) -> u32 {
    let values = [1, 2, 4, 8, 16, 32, 64, 128];
    let differing = values.iter().zip(rows).filter(|(_, differs)| **differs);
    differing.map(|(value, _)| value).sum()
}

/// A verdict as three numbers.
pub fn judgement(verdict: Verdict) -> Judgement {
    let (refusal, accepted, rows) = match verdict {
        Verdict::Accepted => (0, 1, 0),
        Verdict::Rejected(rows) => (0, 0, mask(&rows)),
        Verdict::Refused(refusal) => (refusal, 0, 0),
    };
    Judgement { refusal, accepted, rows }
}
