//! What the extracted numbers of a product open, by hand.

use super::made::{Made, Opening};
use crate::by_hand::steps::{INDENT, powers_text};
use crate::by_hand::{power, product};
use crate::command_line::failure::{Failure, Outcome};
use dimkhoros::Base;

/// Says what the extracted numbers open: the first line, and with an opening of the second line the product. The lines are those
/// that the product names, and its own.
pub fn text(made: &Made, lines: [usize; 3], [x1, x2, x3]: [u32; 3]) -> Outcome<String> {
    let base = made.ledger.base();
    let q = base.order;
    let [first, second, own] =
        lines.map(|line| format!("line {line} with the commitment {}", made.commitments[line]));
    let commitment = |line: usize| made.commitments[line];
    let factor = Opening { value: x1, blinding: x2 };
    let factor = committed(base, factor, commitment(lines[0]))?;
    let opened = format!(
        "\n6. So {first} opens to the value x1 = {x1} with the blinding number x2 = {x2}:\n\n{factor}"
    );
    let Some(opening) = made.openings.as_ref().and_then(|openings| openings.get(lines[1])) else {
        return Ok(opened
            + &format!(
                "\n7. If {second} opens to the value v with the blinding number b, then {own}\n   \
                 opens to the value {x1}·v mod {q} with the blinding number {x1}·b + {x3} mod {q}.\n"
            ));
    };
    let Opening { value: v, blinding: b } = *opening;
    let value = u64::from(x1) * u64::from(v);
    let blinding = u64::from(x1) * u64::from(b) + u64::from(x3);
    let below = |number: u64| (number % u64::from(q)) as u32;
    let product = Opening { value: below(value), blinding: below(blinding) };
    let product = committed(base, product, commitment(lines[2]))?;
    let [value, blinding] = [value, blinding].map(|number| reduced(number, q));
    Ok(opened
        + &format!(
            "\n7. And {second} opens to the value {v} with the blinding number {b}, so {own}\n   \
             opens to the value x1·{v} mod {q} with the blinding number x1·{b} + x3 mod {q}:\n\n\
             {INDENT}{x1}·{v} = {value}\n{INDENT}{x1}·{b} + {x3} = {blinding}\n{product}"
        ))
}

/// A number, and what it leaves.
fn reduced(number: u64, order: u32) -> String {
    match number % u64::from(order) {
        rest if rest == number => number.to_string(),
        rest => format!("{number}, and {number} - {}·{order} = {rest}", number / u64::from(order)),
    }
}

/// That a commitment is the one to a value with a blinding number.
fn committed(base: &Base, opening: Opening, commitment: u32) -> Outcome<String> {
    let Base { g, h, modulus, .. } = *base;
    let powers = [power(g, opening.value, modulus), power(h, opening.blinding, modulus)];
    let rest = product(powers[0].rest, powers[1].rest, modulus);
    if rest == commitment {
        Ok(format!("{INDENT}{}\n", powers_text(&powers, rest, modulus)))
    } else {
        Err(Failure::failed(format!(
            "the commitment is {commitment}, and the opening by hand is one of {rest}"
        )))
    }
}
