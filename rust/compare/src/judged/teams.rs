//! The judge's calls of a team's combiner, behind those of the library.

use super::values::computed;
use crate::library::{Computed, MOST_PLAYERS, PLACES, Parts, Places};

/// What each player brings.
fn rows(parts: &Parts) -> [Places; MOST_PLAYERS] {
    let mut rows = [[0; PLACES]; MOST_PLAYERS];
    rows.as_flattened_mut().copy_from_slice(parts);
    rows
}

pub fn team_commitment(sheet: &[u8], count: u32, images: &Parts, commitments: &Parts) -> Computed {
    let (images, commitments) = (rows(images), rows(commitments));
    computed(judge::multiply_commitments(sheet, count.into(), &images, &commitments))
}

pub fn team_response(sheet: &[u8], count: u32, images: &Parts, responses: &Parts) -> Computed {
    let (images, responses) = (rows(images), rows(responses));
    computed(judge::join_responses(sheet, count.into(), &images, &responses))
}
