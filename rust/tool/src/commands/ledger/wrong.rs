//! Which line of a ledger's text is wrong, and why.

use super::made::Made;
use super::text::{Given, Text};
use crate::by_hand;
use crate::command_line::failure::{Failure, Outcome, rule};
use crate::sheets::{allowed, causes};
use dimkhoros::{Base, EXPONENT, Header, Ledger, Line, MOST_LINES, Refusal, Verdict};

/// Names the line of a text that a refusal is by, the first one of which the number is true, with the value and what is allowed.
pub fn refused(text: &Text, refusal: Refusal) -> Failure {
    let header = header(&text.base);
    if let Some(value) = of_base(&text.base, refusal) {
        let (name, place) = (&text.name, text.base_at);
        let why = match refusal {
            Refusal::Challenges => causes::challenges(&header),
            _ => rule(refusal).to_string() + &allowed::by(refusal, &header),
        };
        return Failure::cause(refusal, format!("{name}:{place}: {value}: {why}"));
    }
    let mut lines = text.lines.iter().enumerate();
    let found = lines.find_map(|(number, (place, given))| {
        Some((number, *place, of_line(&text.base, number, given, refusal)?))
    });
    let Some((number, place, value)) = found else {
        return Failure::refused(refusal, &text.name);
    };
    let allowed = match refusal {
        Refusal::LineNotAbove if number == 0 => "; no line is above line 0".to_string(),
        Refusal::LineNotAbove => format!("; the lines above are 0 to {}", number - 1),
        _ => allowed::by(refusal, &header),
    };
    let (name, rule) = (&text.name, rule(refusal));
    Failure::cause(refusal, format!("{name}:{place}: line {number}: {value}: {rule}{allowed}"))
}

/// The numbers of a sheet over a base, for what is allowed on it.
fn header(base: &Base) -> Header {
    let Base { modulus, order, challenges, .. } = *base;
    Header { kind: EXPONENT, modulus, order, challenges, rows: 2, columns: 3 }
}

/// The number of a base that a refusal is by.
fn of_base(base: &Base, refusal: Refusal) -> Option<String> {
    match refusal {
        Refusal::Modulus => Some(format!("m = {}", base.modulus)),
        Refusal::Order => Some(format!("q = {}", base.order)),
        Refusal::Challenges => Some(format!("K = {}", base.challenges)),
        Refusal::Entry if !is_element(base, base.g) => Some(format!("g = {}", base.g)),
        Refusal::Entry => Some(format!("h = {}", base.h)),
        _ => None,
    }
}

/// Whether a number is a group element, as the library says of a ledger of one commitment over elements. 1 is one.
fn is_element(base: &Base, commitment: u32) -> bool {
    let line = Line::Commitment { commitment };
    let ledger = Ledger::from_lines(&Base { g: 1, h: 1, ..*base }, &[line]);
    ledger.is_ok_and(|ledger| ledger.check() != Err(Refusal::Commitment))
}

/// The value of a line that a refusal is by, if the line breaks the rule.
fn of_line(base: &Base, number: usize, given: &Given, refusal: Refusal) -> Option<String> {
    if refusal == Refusal::LedgerSize {
        return (number == MOST_LINES).then(|| "the 65th line".to_string());
    }
    let broken = |value: u32| match refusal {
        Refusal::Commitment => !is_element(base, value),
        Refusal::Challenge => value >= base.challenges,
        Refusal::Coordinate => value >= base.order,
        _ => false,
    };
    let values = values(given, refusal);
    if let Some((letter, value)) = values.into_iter().find(|(_, value)| broken(*value)) {
        return Some(format!("{value} in {letter}="));
    }
    let (first, second) = named(given).filter(|_| refusal == Refusal::LineNotAbove)?;
    let wrong = [first, second].into_iter().find(|line| *line >= number)?;
    Some(format!("it names line {wrong}"))
}

/// The values of a line that a rule is about, with their letters.
fn values(given: &Given, refusal: Refusal) -> Vec<(&'static str, u32)> {
    let several = |letter, values: &[u32]| values.iter().map(|value| (letter, *value)).collect();
    match (refusal, *given) {
        (Refusal::Coordinate, Given::Commitment { value, blinding }) => {
            vec![("v", value), ("b", blinding)]
        }
        (Refusal::Coordinate, Given::Product { blinding, nonce: [k1, k2, k3], .. }) => {
            vec![("b", blinding), ("k", k1), ("k", k2), ("k", k3)]
        }
        (Refusal::Coordinate, Given::Closed(Line::Product { response, .. })) => {
            several("r", &response)
        }
        (Refusal::Commitment, Given::Closed(Line::Commitment { commitment })) => {
            vec![("C", commitment)]
        }
        (Refusal::Commitment, Given::Closed(Line::Product { commitment, t: [t1, t2], .. })) => {
            vec![("C", commitment), ("t", t1), ("t", t2)]
        }
        (Refusal::Challenge, Given::Product { challenge, .. })
        | (Refusal::Challenge, Given::Closed(Line::Product { challenge, .. })) => {
            vec![("c", challenge)]
        }
        _ => Vec::new(),
    }
}

/// The two lines that a line names.
pub fn named(given: &Given) -> Option<(usize, usize)> {
    match *given {
        Given::Sum { first, second }
        | Given::Product { first, second, .. }
        | Given::Closed(Line::Product { first, second, .. }) => Some((first, second)),
        _ => None,
    }
}

/// Names the first product whose round is rejected, with the first row that differs and both sides of it.
pub fn rejected(text: &Text, made: &Made) -> Outcome<Option<Failure>> {
    let dimkhoros::Checked::Rejected { line } = made.ledger.check()? else {
        return Ok(None);
    };
    let (place, name) = (text.lines.get(line).map_or(0, |(place, _)| *place), &text.name);
    let mut why = String::new();
    if let Some(product) = made.product(line)? {
        let (sheet, round) = (&product.instance, &product.round);
        let Verdict::Rejected { rows } = sheet.judge(round)? else {
            return Err(Failure::failed(format!(
                "{name}: line {line} is rejected, and its round is not"
            )));
        };
        let row = rows.first().unwrap_or_default();
        let sides = by_hand::sides(sheet, round).unwrap_or_default();
        why = sides.get(row).map_or_else(String::new, |sides| {
            format!(": in row {row} [r] is {} and t · z^c is {}", sides.image, sides.right)
        });
    }
    Ok(Some(Failure::failed(format!("{name}:{place}: line {line}: the round is rejected{why}"))))
}
