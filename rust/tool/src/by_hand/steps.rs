//! The extractor by hand, in lines of text.

mod numbers;

use crate::by_hand::{Column, Euclid, Line, Power, Sides, Steps, row_powers};
use crate::command_line::table::{self, Set};
use crate::sheets;
use crate::sheets::notation::{self, coordinate};
use dimkhoros::{EXPONENT, Instance, Places};
pub use numbers::powers_text;
use numbers::{by_squaring, power_text, product, shows_squares, signed};

/// What stands before each line of a step.
pub const INDENT: &str = "       ";

/// The steps of two rounds, which have these numbers.
pub fn text(sheet: &Instance, numbers: [usize; 2], steps: &Steps) -> String {
    let modulus = sheet.values().header.modulus;
    let order = sheet.values().header.order;
    let [first, second] = steps.rounds.map(|round| round.challenge);
    let Euclid { difference, .. } = steps.euclid;
    let rule = if sheet.values().header.kind == EXPONENT {
        format!("x = b·(r - r') mod {order}")
    } else {
        format!("x = z^a · (r/r')^b mod {modulus}")
    };
    [
        format!("1. Both rounds are accepted, since [r] = t · z^c mod {modulus} in every row:\n\n"),
        accepted(sheet, numbers, steps),
        format!("\n2. c - c' = {first} - {second} = {difference}\n\n"),
        format!(
            "3. a and b with {order}·a + {}·b = 1, by Euclid's algorithm:\n\n",
            signed(difference)
        ),
        euclid(&steps.euclid),
        format!("\n4. {rule}:\n\n"),
        columns(sheet, steps),
        format!("\n5. {}:\n\n", is_witness(sheet, &steps.witness)),
        image(sheet, &steps.witness),
        left_out(sheet, steps),
    ]
    .concat()
}

/// Says that the squares of powers are left out, where they are.
fn left_out(sheet: &Instance, steps: &Steps) -> String {
    let modulus = sheet.values().header.modulus;
    let sides = steps.sides.iter().flatten();
    let mut powers: Vec<Power> =
        sides.flat_map(|sides| [&sides.powers[..], &[sides.statement]].concat()).collect();
    powers.extend(steps.columns.iter().flat_map(Column::powers));
    let rows = 0..sheets::row_count(sheet);
    powers.extend(rows.flat_map(|row| row_powers(sheet, row, &steps.witness)));
    let is_long = powers.iter().any(|power| power.whole().is_none());
    if is_long && !shows_squares(modulus) {
        format!(
            "\nThe squares of which powers are made are left out: modulo {modulus} they can have more than ten digits.\n"
        )
    } else {
        String::new()
    }
}

/// Both sides of each row of both rounds. The numbers of rows are left out where there is one.
fn accepted(sheet: &Instance, numbers: [usize; 2], steps: &Steps) -> String {
    let heading = ["round", "row", "t", "c", "r", "[r]", "z^c", "t · z^c"];
    let mut rows = vec![heading.map(str::to_string).to_vec()];
    for ((number, round), sides) in numbers.iter().zip(&steps.rounds).zip(&steps.sides) {
        let r = notation::by_column(sheet, &round.response);
        let [number, c] = [number.to_string(), round.challenge.to_string()];
        rows.extend(sides.iter().enumerate().map(|(row, sides)| {
            let [number, c, r] = [&number, &c, &r].map(String::clone);
            let [left, power, right] = both(sides, sheet.values().header.modulus);
            vec![number, row.to_string(), sides.commitment.to_string(), c, r, left, power, right]
        }));
    }
    let mut set = [Set::Right; 5].to_vec();
    set.extend([Set::Left; 3]);
    if sheets::row_count(sheet) == 1 {
        set.remove(1);
        rows.iter_mut().for_each(|row| drop(row.remove(1)));
    }
    let powers =
        steps.sides.iter().flatten().flat_map(|sides| {
            sides.powers.iter().chain(std::iter::once(&sides.statement)).copied()
        });
    table::lines(INDENT, &set, &rows) + &by_squaring(powers, sheet.values().header.modulus)
}

/// Both sides of a row, with z^c between them.
fn both(sides: &Sides, modulus: u32) -> [String; 3] {
    let Sides { powers, commitment, statement, image, right } = sides;
    [
        powers_text(powers, *image, modulus),
        power_text(statement, modulus),
        product(&[*commitment, statement.rest], *right),
    ]
}

/// Euclid's algorithm, and a and b.
fn euclid(euclid: &Euclid) -> String {
    let Euclid { order, difference, ref lines, a, b } = *euclid;
    let d = signed(difference);
    let above = |number: usize| number.checked_sub(2).and_then(|above| lines.get(above..number));
    let row = |(number, line): (usize, &Line)| {
        let why = above(number).map_or_else(String::new, |above| {
            format!("{} - {}·{}", above[0].rest, line.quotient, above[1].rest)
        });
        let [a, b] = [line.a, line.b].map(signed);
        vec![format!("{} =", line.rest), format!("{order}·{a}"), format!("+ {d}·{b}"), why]
    };
    let rows: Vec<Vec<String>> = lines.iter().enumerate().map(row).collect();
    let mut text = table::lines(INDENT, &[Set::Right, Set::Left, Set::Left, Set::Left], &rows);
    if let Some(last) = lines.last().filter(|last| last.b != b) {
        let [old_a, old_b] = [last.a, last.b];
        text += &format!(
            "{INDENT}b = {old_b} + {order} = {b} and a = {old_a} - {d} = {a} will do too, and b is not negative\n"
        );
    }
    let first = i128::from(order) * i128::from(a);
    let second = signed(i128::from(difference) * i128::from(b));
    let [a, b] = [a, b].map(signed);
    text + &format!("{INDENT}{order}·{a} + {d}·{b} = {first} + {second} = 1\n")
}

/// The columns of the witness.
fn columns(sheet: &Instance, steps: &Steps) -> String {
    let text = |(column, step): (usize, &Column)| match step {
        Column::Exponent { .. } => exponent(sheet, steps, column, step),
        Column::Root { .. } => root(sheet, steps, column, step),
    };
    steps.columns.iter().enumerate().map(text).collect()
}

/// A column of an exponent sheet's witness.
fn exponent(sheet: &Instance, steps: &Steps, column: usize, step: &Column) -> String {
    let Column::Exponent { difference, product, witness } = step else {
        return String::new();
    };
    let [first, second] = steps.rounds.map(|round| round.response[column]);
    let (b, order) = (steps.euclid.b, steps.euclid.order);
    let times = product.div_euclid(order.into());
    let reduced = match times {
        0 => String::new(),
        1.. => format!(", and {product} - {times}·{order} = {witness}"),
        _ => format!(", and {product} + {}·{order} = {witness}", -times),
    };
    let name = coordinate(sheet, "x", column);
    let difference = signed(*difference);
    format!("{INDENT}{name} = {b}·({first} - {second}) = {b}·{difference} = {product}{reduced}\n")
}

/// A column of a root sheet's witness.
fn root(sheet: &Instance, steps: &Steps, column: usize, step: &Column) -> String {
    let Column::Root { inverse, quotient, statement_inverse, first, second, witness } = step else {
        return String::new();
    };
    let modulus = sheet.values().header.modulus;
    let [r, other] = steps.rounds.map(|round| round.response[column]);
    let z = sheet.values().statement[column];
    let [x_name, r_name, z_name] = ["x", "r", "z"].map(|letter| coordinate(sheet, letter, column));
    let inverted = |name: &str, value: u32, inverse: u32| {
        format!("{name}^(-1) = {inverse}, since {}\n", product(&[value, inverse], 1 % modulus))
    };
    let mut lines = vec![inverted(&format!("{r_name}'"), other, *inverse)];
    lines.push(format!("{r_name}/{r_name}' = {}\n", product(&[r, *inverse], *quotient)));
    lines.extend(statement_inverse.map(|inverse| inverted(&z_name, z, inverse)));
    let of_inverse =
        statement_inverse.map_or_else(String::new, |_| format!("{z}^({}) = ", steps.euclid.a));
    lines.push(format!("{z_name}^a = {of_inverse}{}\n", power_text(first, modulus)));
    lines.push(format!("({r_name}/{r_name}')^b = {}\n", power_text(second, modulus)));
    lines.push(format!("{x_name} = {}\n", product(&[first.rest, second.rest], *witness)));
    let lines: String = lines.iter().map(|line| format!("{INDENT}{line}")).collect();
    lines + &by_squaring([*first, *second].into_iter(), modulus)
}

/// Says that coordinates are a witness.
fn is_witness(sheet: &Instance, witness: &Places) -> String {
    let (x, z) =
        (notation::by_column(sheet, witness), notation::by_row(sheet, &sheet.values().statement));
    format!("The witness is x = {x}, since [x] = {z} = z")
}

/// The image of a witness, row by row. The numbers of rows are left out where there is one.
fn image(sheet: &Instance, witness: &Places) -> String {
    let modulus = sheet.values().header.modulus;
    let image = sheet.image(witness).unwrap_or_default();
    let count = sheets::row_count(sheet);
    let powers: Vec<Vec<Power>> = (0..count).map(|row| row_powers(sheet, row, witness)).collect();
    let line = |(row, (powers, image)): (usize, (&Vec<Power>, u32))| {
        let row = if count == 1 { String::new() } else { format!("row {row}: ") };
        format!("{INDENT}{row}[x] = {}\n", powers_text(powers, image, modulus))
    };
    let lines: String = powers.iter().zip(image).enumerate().map(line).collect();
    lines + &by_squaring(powers.into_iter().flatten(), modulus)
}

#[cfg(test)]
mod tests;
