//! The statement: the homomorphism with the numbers of a sheet, its domain, its group and its challenges.

use super::page::{self, Section};
use super::text;
use crate::sheets::{column_count, notation, row_count, small};
use dimkhoros::{EXPONENT, Instance};

/// The longest formula, in characters, that is set large, or beside a heading.
const LONG: usize = 52;

/// The most rows whose formulas stand over the facts.
const TALL: usize = 4;

/// The sections on a sheet, with a heading, in prose. The last fact says what is known of witnesses. A long statement stands
/// alone.
pub fn sections(sheet: &Instance, heading: &str, witnesses: &str) -> Vec<Section> {
    let facts = facts(sheet, "The sheet", witnesses);
    let section = |id: &str, heading: &str, body: String| Section {
        id: id.to_string(),
        heading: heading.to_string(),
        body,
    };
    if row_count(sheet) > TALL {
        vec![
            section("statement", heading, formulas(sheet)),
            section("sheet", "The sheet's domain, group and challenges", facts),
        ]
    } else {
        vec![section("statement", heading, formulas(sheet) + &facts)]
    }
}

/// The statement row by row, and the homomorphism where that says more.
pub fn formulas(sheet: &Instance) -> String {
    let lines = lines(sheet);
    let long = lines.len() > 3 || lines.iter().any(|line| line.chars().count() > LONG);
    let class = if long { "formula long" } else { "formula" };
    let lines: String =
        lines.iter().map(|line| format!("<p>{}</p>\n", text::formula_html(line))).collect();
    format!("<div class=\"{class}\">\n{lines}</div>\n")
}

/// The homomorphism and the statement. A sheet of many rows has the homomorphism row by row.
fn lines(sheet: &Instance) -> Vec<String> {
    let statement = notation::by_row(sheet, &sheet.values().statement);
    if row_count(sheet) < 3 {
        return vec![notation::homomorphism(sheet), format!("z = {statement}")];
    }
    let coordinates: Vec<String> =
        (0..column_count(sheet)).map(|column| notation::coordinate(sheet, "x", column)).collect();
    let names: Vec<String> = (1..=row_count(sheet)).map(|row| format!("z{row}")).collect();
    let first = format!("[{}] = ({})", coordinates.join(", "), names.join(", "));
    let rows = notation::statement(sheet);
    let named = names.iter().zip(rows).map(|(name, row)| format!("{name} = {row}"));
    [first].into_iter().chain(named).collect()
}

/// A short reminder of the statement, where it is short.
pub fn reminder(sheet: &Instance) -> String {
    let words = notation::statement(sheet).join(", ");
    if words.chars().count() <= LONG { format!("${words}$") } else { String::new() }
}

/// The sheet's sets and numbers, each with its name. The last says what is known of witnesses.
pub fn fact_list(sheet: &Instance, witnesses: &str) -> [(&'static str, String); 6] {
    let header = sheet.values().header;
    let last = header.challenges - 1;
    [
        ("domain", domain(sheet)),
        ("group", group(sheet)),
        ("homomorphism", law(sheet)),
        ("challenges", format!("$c$ from 0 to {last}, so $K = {}$", header.challenges)),
        ("extractor", extractor(sheet)),
        ("witness", witnesses.to_string()),
    ]
}

/// The sheet's sets and numbers as a table.
fn facts(sheet: &Instance, caption: &str, witnesses: &str) -> String {
    let row = |(name, words): &(&str, String)| {
        format!("<tr><th scope=\"row\">{name}</th><td>{}</td></tr>\n", text::html(words))
    };
    format!(
        "<table class=\"facts wide\">\n<caption>{}</caption>\n<tbody>\n{}</tbody>\n</table>\n",
        text::html(caption),
        fact_list(sheet, witnesses).iter().map(row).collect::<String>()
    )
}

/// The domain in words.
fn domain(sheet: &Instance) -> String {
    let (header, columns) = (sheet.values().header, column_count(sheet));
    let each = if header.kind == EXPONENT {
        format!("0 to {}, added modulo {}", header.order - 1, header.order)
    } else {
        format!("the numbers prime to {0}, multiplied modulo {0}", header.modulus)
    };
    let many = match columns {
        1 => each,
        _ => format!("{columns} coordinates, each {each}"),
    };
    let each_count = if header.kind == EXPONENT {
        Some(u64::from(header.order))
    } else {
        small::elements(sheet).map(|elements| elements.len() as u64)
    };
    many + &size(each_count, columns)
}

/// The group in words.
fn group(sheet: &Instance) -> String {
    let (header, rows) = (sheet.values().header, row_count(sheet));
    let each = if header.kind == EXPONENT {
        format!(
            "the $v$ with $v^{} = 1$ modulo {1}, multiplied modulo {1}",
            header.order, header.modulus
        )
    } else {
        format!("the numbers prime to {0}, multiplied modulo {0}", header.modulus)
    };
    let many = match rows {
        1 => each,
        _ => format!("{rows} values, each of {each}"),
    };
    many + &size(small::elements(sheet).map(|elements| elements.len() as u64), rows)
}

/// How many elements there are of so many coordinates, where that is known and small.
fn size(each: Option<u64>, count: usize) -> String {
    let all = each.and_then(|each| each.checked_pow(count as u32));
    match all.filter(|all| *all <= u64::from(u32::MAX)) {
        Some(all) => format!(" ({all} elements)"),
        None => String::new(),
    }
}

/// The law of the homomorphism.
fn law(sheet: &Instance) -> String {
    let sign = if sheet.values().header.kind == EXPONENT { "+" } else { "·" };
    format!("$[x {sign} y] = [x] · [y]$")
}

/// The numbers that the extractor has besides rounds.
fn extractor(sheet: &Instance) -> String {
    let header = sheet.values().header;
    if header.kind == EXPONENT {
        format!("$ℓ = {}$ and $u = 0$, with $[u] = z^{{ℓ}} = 1$", header.order)
    } else {
        format!("$ℓ = {}$ and $u = z$, with $[u] = z^{{ℓ}}$", header.order)
    }
}

/// A paragraph below the facts.
pub fn note(words: &str) -> String {
    page::paragraph("note", words)
}
