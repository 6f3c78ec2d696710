//! Marks as comma-separated values.

use super::checksum;
use super::marks::{Mark, Said};
use crate::sheets::judged::spaced;
use crate::sheets::{notation, row_count};
use dimkhoros::Instance;

/// The names of the fields.
const FIELDS: [&str; 18] = [
    "folder",
    "result",
    "refusal",
    "rounds",
    "accepted",
    "rejected",
    "refused",
    "level",
    "why",
    "not_accepted",
    "sheet",
    "m",
    "l",
    "K",
    "s",
    "n",
    "z",
    "notes",
];

/// The marks as comma-separated values (RFC 4180, with the line ends of this system).
pub fn text(marks: &[Mark]) -> String {
    let line = |fields: &[String]| {
        let fields: Vec<String> = fields.iter().map(|field| quoted(&no_formula(field))).collect();
        fields.join(",") + "\n"
    };
    let lines: String = marks.iter().map(|mark| line(&fields(mark))).collect();
    line(&FIELDS.map(str::to_string)) + &lines
}

/// The fields of a mark, in the order of their names. What is not known is empty.
fn fields(mark: &Mark) -> Vec<String> {
    let refusal = match mark.said {
        Said::Refused(_, number, _) => number.to_string(),
        _ => String::new(),
    };
    let level = mark.folder.as_ref().and_then(|folder| folder.level());
    let level = level.map_or_else(String::new, |level| level.to_string());
    let [rounds, accepted, rejected, refused, not_accepted] = of_rounds(mark);
    let (name, word) = (mark.name.clone(), mark.word().to_string());
    let mut fields = vec![
        name,
        word,
        refusal,
        rounds,
        accepted,
        rejected,
        refused,
        level,
        mark.why(),
        not_accepted,
    ];
    fields.extend(of_sheet(mark));
    fields.push(mark.noted());
    fields
}

/// How many rounds there are, how many of these are accepted, rejected and refused, and which ones are not accepted.
fn of_rounds(mark: &Mark) -> [String; 5] {
    let Said::Judged(judged) = &mark.said else {
        return Default::default();
    };
    let counts = [judged.rounds(), judged.accepted, judged.rejected.len(), judged.refused.len()];
    let [rounds, accepted, rejected, refused] = counts.map(|count| count.to_string());
    [rounds, accepted, rejected, refused, spaced(&judged.not_accepted())]
}

/// The sheet's checksum, and its m, l, K, s, n and z if it loads.
fn of_sheet(mark: &Mark) -> [String; 7] {
    let Some(bytes) = mark.folder.as_ref().and_then(|folder| folder.sheet.as_ref()) else {
        return Default::default();
    };
    let sum = checksum::of(bytes).to_string();
    let [m, l, k, s, n, z] = Instance::load(bytes).map(|sheet| numbers(&sheet)).unwrap_or_default();
    [sum, m, l, k, s, n, z]
}

/// A sheet's m, l, K, s, n and z, the last one with a value for each row.
fn numbers(sheet: &Instance) -> [String; 6] {
    let (header, statement) = (sheet.values().header, &sheet.values().statement);
    let numbers = [header.modulus, header.order, header.challenges, header.rows, header.columns];
    let [m, l, k, s, n] = numbers.map(|number| number.to_string());
    [m, l, k, s, n, notation::list(&statement[..row_count(sheet)], " ")]
}

/// Characters with which a formula begins in a spreadsheet.
const FORMULA: [char; 8] = ['=', '+', '-', '@', '＝', '＋', '－', '＠'];

/// A field that a spreadsheet does not take for a formula. Only a path can begin like one, and `./` leaves it the same path.
fn no_formula(field: &str) -> String {
    if field.trim_start().starts_with(FORMULA) { format!("./{field}") } else { field.to_string() }
}

/// A field, in quotes if it needs them. Some spreadsheets split at a semicolon.
fn quoted(field: &str) -> String {
    if field.contains([',', ';', '"', '\r', '\n']) {
        format!("\"{}\"", field.replace('"', "\"\""))
    } else {
        field.to_string()
    }
}
