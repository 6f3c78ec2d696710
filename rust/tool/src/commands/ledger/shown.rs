//! A ledger as a table, and as a text for others.

use super::made::Made;
use crate::command_line::colour;
use crate::command_line::failure::Outcome;
use crate::command_line::table::{self, Set};
use crate::sheets::notation::{counted, list};
use dimkhoros::{Base, Line};

/// The columns of the table, numbers set to the right. v and b are left out where they are not known.
const HEADING: [(&str, Set); 9] = [
    ("line", Set::Right),
    ("kind", Set::Left),
    ("of", Set::Left),
    ("v", Set::Right),
    ("b", Set::Right),
    ("C", Set::Right),
    ("t", Set::Left),
    ("c", Set::Right),
    ("r", Set::Left),
];

/// The ledger line by line with all commitments, rounds and verdicts, and how many lines there are.
pub fn table(made: &Made) -> Outcome<String> {
    let Base { g, h, modulus, order, challenges } = *made.ledger.base();
    let head = format!(
        "A commitment to v with b is {g}^v · {h}^b mod {modulus}; q = {order}, K = {challenges}\n\n"
    );
    let (mut heading, mut set): (Vec<&str>, Vec<Set>) = HEADING.into_iter().unzip();
    heading.push("verdict");
    set.push(Set::Left);
    let mut rows = vec![heading.into_iter().map(str::to_string).collect()];
    for number in 0..made.lines.len() {
        rows.push(cells(made, number)?);
    }
    if made.openings.is_none() {
        rows.iter_mut().for_each(|row: &mut Vec<String>| drop(row.drain(3..5)));
        set.drain(3..5);
    }
    let table =
        if made.lines.is_empty() { String::new() } else { table::lines("", &set, &rows) + "\n" };
    Ok(head + &table + &summary(made)?)
}

/// The cells of a line.
fn cells(made: &Made, number: usize) -> Outcome<Vec<String>> {
    let (kind, of) = match made.lines[number] {
        Line::Commitment { .. } => ("commitment", String::new()),
        Line::Sum { first, second } => ("sum", format!("{first} {second}")),
        Line::Product { first, second, .. } => ("product", format!("{first} {second}")),
        Line::Unknown { .. } => ("", String::new()),
    };
    let opening = made.openings.as_ref().and_then(|openings| openings.get(number));
    let [v, b] = opening.map_or_else(Default::default, |opening| {
        [opening.value, opening.blinding].map(|number| number.to_string())
    });
    let commitment = made.commitments[number].to_string();
    let mut cells = vec![number.to_string(), kind.to_string(), of, v, b, commitment];
    if let Line::Product { t, challenge, response, .. } = made.lines[number] {
        let tuple = |values: &[u32]| format!("({})", list(values, ", "));
        cells.extend([tuple(&t), challenge.to_string(), tuple(&response)]);
        let product = made.product(number)?;
        let verdict = product.map(|product| product.instance.judge(&product.round)).transpose()?;
        cells.extend(verdict.map(|verdict| colour::verdict(&verdict.to_string())));
    }
    Ok(cells)
}

/// How many lines of each kind there are, and what the checker says.
fn summary(made: &Made) -> Outcome<String> {
    let count = |is: fn(&Line) -> bool| made.lines.iter().filter(|line| is(line)).count();
    let commitments = count(|line| matches!(line, Line::Commitment { .. }));
    let sums = count(|line| matches!(line, Line::Sum { .. }));
    let products = count(|line| matches!(line, Line::Product { .. }));
    let kinds = [(commitments, "commitment"), (sums, "sum"), (products, "product")];
    let kinds = kinds.map(|(count, kind)| counted(count, kind)).join(", ");
    let lines = counted(made.lines.len(), "line");
    Ok(format!("{lines}: {kinds}; {}\n", made.ledger.check()?))
}

/// The ledger as a text without values, which others check.
pub fn public(made: &Made) -> String {
    let Base { g, h, modulus, order, challenges } = made.ledger.base();
    let mut text = format!("g={g} h={h} m={modulus} q={order} K={challenges}\n");
    for line in &made.lines {
        text += &match line {
            Line::Commitment { commitment } => format!("commitment C={commitment}\n"),
            Line::Sum { first, second } => format!("sum {first} {second}\n"),
            Line::Product { first, second, commitment, t, challenge, response } => {
                let (t, r) = (list(t, ","), list(response, ","));
                format!("product {first} {second} C={commitment} t={t} c={challenge} r={r}\n")
            }
            Line::Unknown { .. } => String::new(),
        };
    }
    text
}
