//! Peggy as a team: the two calls of the combiner.
//!
//! Each player holds a part of the witness and makes a round for its image,
//! which is public. The combiner joins these rounds to one round for the
//! statement. Rows beyond the count of players are not read.

use crate::arithmetic::{multiply, reduce};
use crate::bytes::first;
use crate::protocol::{are_elements, test_commitment, test_slots};
use crate::sheet::{Sheet, unpack};

/// The sheet and the count of players, after the tests 2 to 9, 27, 10 and 11.
///
/// Test 11 takes in the images of the first `count` players.
fn team(sheet: &[u8], count: u64, images: &[[u32; 8]; 8]) -> Result<(Sheet, usize), u32> {
    let sheet = unpack(sheet)?;
    if !(2..=8).contains(&count) {
        return Err(27);
    }
    sheet.test_values()?;
    let players = count as usize;
    let mut used = images.iter().take(players);
    if used.any(|image| !are_elements(&sheet, image)) {
        return Err(11);
    }
    Ok((sheet, players))
}

/// Refuses with 28 when the images do not multiply to the statement.
fn test_images(sheet: &Sheet, images: &[[u32; 8]]) -> Result<(), u32> {
    if multiplied(sheet, images) == sheet.statement { Ok(()) } else { Err(28) }
}

/// The product of the parts mod m, row by row, with 0 beyond the rows in use.
fn multiplied(sheet: &Sheet, parts: &[[u32; 8]]) -> [u32; 8] {
    let mut product = first(&[1; 8], sheet.s());
    for part in parts {
        for (value, factor) in product.iter_mut().zip(part).take(sheet.s()) {
            *value = multiply(*value, *factor, sheet.modulus);
        }
    }
    product
}

/// The sum of the parts mod q, slot by slot, with 0 beyond the columns in use.
fn added(sheet: &Sheet, parts: &[[u32; 8]]) -> [u32; 8] {
    let mut sum = [0; 8];
    for part in parts {
        for (slot, more) in sum.iter_mut().zip(part).take(sheet.n()) {
            *slot = reduce(i128::from(*slot) + i128::from(*more), sheet.order);
        }
    }
    sum
}

/// Answers the product of the players' commitments, row by row, with 0 beyond
/// the rows in use.
///
/// Refuses with 2 to 9 for the sheet, 27 when the count of players is outside
/// 2 to 8, 10 for an entry and 11 for a value of the statement or of an image
/// that is no group element. Then with 14 for a value of a player's commitment
/// that is no group element and 28 when the images do not multiply to the
/// statement.
pub fn multiply_commitments(
    sheet: &[u8],
    count: u64,
    images: &[[u32; 8]; 8],
    commitments: &[[u32; 8]; 8],
) -> Result<[u32; 8], u32> {
    let (sheet, players) = team(sheet, count, images)?;
    let parts = &commitments[..players];
    for part in parts {
        test_commitment(&sheet, part)?;
    }
    test_images(&sheet, &images[..players])?;
    Ok(multiplied(&sheet, parts))
}

/// Answers the players' responses, joined slot by slot: added mod q in kind 1
/// and multiplied mod m in kind 2, with 0 beyond the columns in use.
///
/// Refuses with 2 to 9 for the sheet, 27 when the count of players is outside
/// 2 to 8, 10 for an entry and 11 for a value of the statement or of an image
/// that is no group element. Then with 16 for a slot of a player's response
/// that is no domain slot and 28 when the images do not multiply to the
/// statement.
pub fn join_responses(
    sheet: &[u8],
    count: u64,
    images: &[[u32; 8]; 8],
    responses: &[[u32; 8]; 8],
) -> Result<[u32; 8], u32> {
    let (sheet, players) = team(sheet, count, images)?;
    let parts = &responses[..players];
    for part in parts {
        test_slots(&sheet, part)?;
    }
    test_images(&sheet, &images[..players])?;
    // In kind 2 there are as many columns as rows.
    Ok(match sheet.kind {
        1 => added(&sheet, parts),
        _ => multiplied(&sheet, parts),
    })
}
