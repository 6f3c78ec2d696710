//! All coordinates and elements of a sheet, where they are few.

use crate::sheets::column_count;
use dimkhoros::{EXPONENT, Header, Instance, PLACES, Places, Values};

/// The most values that are tried one by one.
pub const MOST: u32 = 4096;

/// The most responses that are listed.
pub const LISTED: usize = 512;

/// What follows where a statement has no witness.
pub const UNANSWERED: &str = "A commitment answers at most one challenge.";

/// The values of a coordinate, rising: none where there are too many to try.
pub fn coordinates(sheet: &Instance) -> Option<Vec<u32>> {
    let header = sheet.values().header;
    if header.kind == EXPONENT {
        (header.order <= MOST).then(|| (0..header.order).collect())
    } else {
        elements(sheet)
    }
}

/// The elements of the group, rising: none where the modulus is too large to try. The library says of each whether it is one.
pub fn elements(sheet: &Instance) -> Option<Vec<u32>> {
    let modulus = sheet.values().header.modulus;
    let light = light(sheet);
    let is_element = |value: &u32| light.with_statement(&[*value; PLACES]).is_ok();
    (modulus <= MOST).then(|| (1..modulus).filter(is_element).collect())
}

/// All choices of coordinates, those that differ first in the last column behind each other: none where there are more than
/// `most`.
pub fn domain(sheet: &Instance, most: usize) -> Option<Vec<Places>> {
    let values = coordinates(sheet)?;
    let columns = column_count(sheet);
    let count = values.len().checked_pow(columns as u32)?;
    if count > most {
        return None;
    }
    let choice = |number: usize| {
        let mut places = [0; PLACES];
        let mut rest = number;
        for place in places[..columns].iter_mut().rev() {
            *place = values[rest % values.len()];
            rest /= values.len();
        }
        places
    };
    Some((0..count).map(choice).collect())
}

/// The sheet with the challenge count 2. It has the same elements, coordinates and images, and its bytes are tested faster, which
/// counts where many values are tried.
pub fn light(sheet: &Instance) -> Instance {
    let values = sheet.values();
    let header = Header { challenges: 2, ..values.header };
    Instance::encode(&Values { header, ..*values }).unwrap_or_else(|_| sheet.clone())
}

/// All witnesses of a sheet, found by trying all coordinates: none where there are more than `most`.
pub fn witnesses(sheet: &Instance, most: usize) -> Option<Vec<Places>> {
    let statement = sheet.values().statement;
    let mut all = domain(sheet, most)?;
    let light = light(sheet);
    all.retain(|coordinates| light.image(coordinates) == Ok(statement));
    Some(all)
}
