//! The steps of a round and of the extractor, as a class works them out with a calculator. The numbers stand here as data; what
//! the library computes too, it computes alike, and a test holds the two together.

mod arithmetic;
pub mod steps;

pub use arithmetic::{CALCULATOR, Euclid, Line, Power, euclid, inverse, power, product, rest};

use crate::sheets::{column_count, row_count};
use dimkhoros::{EXPONENT, Instance, PLACES, Places, Round};

/// Both sides of a row of a round, [r] and t · z^c.
#[derive(Clone, Debug, PartialEq)]
pub struct Sides {
    /// The powers whose product is [r] in this row, one for each column of an exponent sheet, and one of a root sheet.
    pub powers: Vec<Power>,
    /// [r] in this row, as the library gives it.
    pub image: u32,
    /// t in this row.
    pub commitment: u32,
    /// z^c in this row.
    pub statement: Power,
    /// What t · z^c leaves.
    pub right: u32,
}

/// Both sides of each row of a round: none where its response is not in the domain.
pub fn sides(sheet: &Instance, round: &Round) -> Option<Vec<Sides>> {
    let image = sheet.image(&round.response).ok()?;
    let values = sheet.values();
    let modulus = values.header.modulus;
    let row = |row: usize| {
        let statement = power(values.statement[row], round.challenge, modulus);
        let commitment = round.commitment[row];
        let right = product(commitment, statement.rest, modulus);
        let powers = row_powers(sheet, row, &round.response);
        Sides { powers, image: image[row], commitment, statement, right }
    };
    Some((0..row_count(sheet)).map(row).collect())
}

/// The powers whose product is the image of coordinates in a row.
pub fn row_powers(sheet: &Instance, row: usize, coordinates: &Places) -> Vec<Power> {
    let values = sheet.values();
    let (modulus, order) = (values.header.modulus, values.header.order);
    if values.header.kind != EXPONENT {
        return vec![power(coordinates[row], order, modulus)];
    }
    let entries = values.entries[row].iter().zip(coordinates).take(column_count(sheet));
    entries.map(|(entry, coordinate)| power(*entry, *coordinate, modulus)).collect()
}

/// The witness in a column, step by step.
#[derive(Clone, Debug, PartialEq)]
pub enum Column {
    /// Of an exponent sheet: x = b·(r − r′) mod q.
    Exponent {
        /// r − r′, which may be negative.
        difference: i64,
        /// b·(r − r′) before it is reduced.
        product: i128,
        /// x.
        witness: u32,
    },
    /// Of a root sheet: x = z^a · (r/r′)^b mod m.
    Root {
        /// The inverse of r′.
        inverse: u32,
        /// r/r′, which is r times that inverse.
        quotient: u32,
        /// The inverse of z, where a is negative and it is needed.
        statement_inverse: Option<u32>,
        /// z^a, as a power of z, or of its inverse where a is negative.
        first: Power,
        /// (r/r′)^b.
        second: Power,
        /// x.
        witness: u32,
    },
}

impl Column {
    /// The witness in this column.
    pub fn witness(&self) -> u32 {
        match self {
            Column::Exponent { witness, .. } | Column::Root { witness, .. } => *witness,
        }
    }

    /// The powers of this column.
    pub fn powers(&self) -> Vec<Power> {
        match self {
            Column::Exponent { .. } => Vec::new(),
            Column::Root { first, second, .. } => vec![*first, *second],
        }
    }
}

/// The extractor on two rounds, step by step.
#[derive(Clone, Debug, PartialEq)]
pub struct Steps {
    /// The two rounds.
    pub rounds: [Round; 2],
    /// Both sides of their rows, a list for each round.
    pub sides: [Vec<Sides>; 2],
    /// ℓ·a + (c − c′)·b = 1.
    pub euclid: Euclid,
    /// The columns of the witness.
    pub columns: Vec<Column>,
    /// The witness that the steps end in.
    pub witness: Places,
}

/// The extractor on two rounds, step by step: none where a step cannot be done, which is so of no two rounds that the library's
/// extractor takes.
pub fn steps(sheet: &Instance, first: &Round, second: &Round) -> Option<Steps> {
    let sides = [sides(sheet, first)?, sides(sheet, second)?];
    let difference = i64::from(first.challenge) - i64::from(second.challenge);
    let euclid = euclid(sheet.values().header.order, difference)?;
    let step = |column: usize| {
        let responses = [first.response[column], second.response[column]];
        if sheet.values().header.kind == EXPONENT {
            Some(exponent_column(responses, &euclid))
        } else {
            root_column(sheet, sheet.values().statement[column], responses, &euclid)
        }
    };
    let columns = (0..column_count(sheet)).map(step).collect::<Option<Vec<Column>>>()?;
    let mut witness = [0; PLACES];
    for (place, column) in witness.iter_mut().zip(&columns) {
        *place = column.witness();
    }
    Some(Steps { rounds: [*first, *second], sides, euclid, columns, witness })
}

/// A column of an exponent sheet's witness.
fn exponent_column(responses: [u32; 2], euclid: &Euclid) -> Column {
    let difference = i64::from(responses[0]) - i64::from(responses[1]);
    let product = i128::from(euclid.b) * i128::from(difference);
    Column::Exponent { difference, product, witness: rest(product, euclid.order) }
}

/// A column of a root sheet's witness.
fn root_column(
    sheet: &Instance,
    statement: u32,
    responses: [u32; 2],
    euclid: &Euclid,
) -> Option<Column> {
    let modulus = sheet.values().header.modulus;
    let inverse_of_second = inverse(responses[1], modulus)?;
    let quotient = product(responses[0], inverse_of_second, modulus);
    let statement_inverse = if euclid.a < 0 { Some(inverse(statement, modulus)?) } else { None };
    let a = u32::try_from(euclid.a.unsigned_abs()).ok()?;
    let first = power(statement_inverse.unwrap_or(statement), a, modulus);
    let second = power(quotient, u32::try_from(euclid.b).ok()?, modulus);
    let witness = product(first.rest, second.rest, modulus);
    let inverse = inverse_of_second;
    Some(Column::Root { inverse, quotient, statement_inverse, first, second, witness })
}

#[cfg(test)]
pub mod tests;
