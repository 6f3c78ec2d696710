//! Sheets, round files and pattern files as JSON.

use super::{column_count, row_count};
use crate::command_line::json::Json;
use dimkhoros::{EXPONENT, Instance, Patterns, Round, RoundFile, Verdict};

/// A sheet: its numbers m, l (q or e), K, s (rows) and n (columns), its table, which a root sheet has not, and its statement z.
pub fn sheet(name: &str, sheet: &Instance) -> Json {
    let (values, rows, columns) = (sheet.values(), row_count(sheet), column_count(sheet));
    let header = values.header;
    let entries = values.entries.iter().take(rows).map(|row| Json::numbers(&row[..columns]));
    let table = (header.kind == EXPONENT).then(|| Json::List(entries.collect()));
    Json::Object(vec![
        ("file", name.into()),
        ("type", "sheet".into()),
        ("kind", header.kind.into()),
        ("m", header.modulus.into()),
        ("l", header.order.into()),
        ("K", header.challenges.into()),
        ("s", header.rows.into()),
        ("n", header.columns.into()),
        ("table", table.unwrap_or(Json::Null)),
        ("z", Json::numbers(&values.statement[..rows])),
    ])
}

/// A round file of a sheet, with Vic's verdicts.
pub fn rounds(name: &str, sheet: &Instance, file: &RoundFile<'_>) -> Json {
    let round = |(number, one): (usize, Round)| round(sheet, number, &one);
    Json::Object(vec![
        ("file", name.into()),
        ("type", "rounds".into()),
        ("version", file.version().into()),
        ("rounds", Json::List(file.rounds().enumerate().map(round).collect())),
    ])
}

/// A round with its verdict: accepted, rejected with the rows that differ, or refused with the number.
fn round(sheet: &Instance, number: usize, round: &Round) -> Json {
    let judged = sheet.judge(round);
    let rows = match &judged {
        Ok(Verdict::Rejected { rows }) => rows.into_iter().map(Json::from).collect(),
        _ => Vec::new(),
    };
    let verdict = match &judged {
        Ok(verdict) if verdict.is_accepted() => "accepted",
        Ok(_) => "rejected",
        Err(_) => "refused",
    };
    Json::Object(vec![
        ("round", number.into()),
        ("t", Json::numbers(&round.commitment[..row_count(sheet)])),
        ("c", round.challenge.into()),
        ("r", Json::numbers(&round.response[..column_count(sheet)])),
        ("verdict", verdict.into()),
        ("rows", Json::List(rows)),
        ("refusal", judged.err().map(|refusal| refusal.number()).into()),
    ])
}

/// A pattern file.
pub fn patterns(name: &str, patterns: &Patterns) -> Json {
    let pattern = |layout: dimkhoros::Layout<'_>| {
        let rows = layout.digits.chunks(layout.columns).map(Json::numbers);
        Json::Object(vec![
            ("s", layout.rows.into()),
            ("n", layout.columns.into()),
            ("values", layout.values.into()),
            ("digits", Json::List(rows.collect())),
        ])
    };
    Json::Object(vec![
        ("file", name.into()),
        ("type", "patterns".into()),
        ("patterns", Json::List(patterns.layouts().map(pattern).collect())),
    ])
}
