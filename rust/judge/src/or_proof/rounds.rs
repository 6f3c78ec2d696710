//! OR rounds: judging and extracting.

use super::{left, load_both};
use crate::protocol::{
    Round, Rows, combine, differ, differing, test_challenge, test_commitment, test_slots,
};
use crate::sheet::Sheet;

/// An OR round. Places beyond the rows or columns in use are not read.
#[derive(Clone, Debug, PartialEq, Eq)]
pub struct OrRound {
    /// The commitments of side 0 and of side 1.
    pub commitments: [[u32; 8]; 2],
    /// The challenge c of the whole round.
    pub challenge: u32,
    /// The challenge c0 of side 0. That of side 1 is (c − c0) mod K.
    pub first_challenge: u32,
    /// The responses of side 0 and of side 1.
    pub responses: [[u32; 8]; 2],
}

/// What a judged OR round comes to.
#[derive(Clone, Copy, Debug, PartialEq, Eq)]
pub enum OrVerdict {
    /// Both sides are accepted.
    Accepted,
    /// The differing rows of side 0 and of side 1. A side that is accepted has
    /// none, and there is at least one side that is not.
    Rejected([Rows; 2]),
    /// The number of the refusal.
    Refused(u32),
}

/// What two OR rounds give: the witness of one side.
#[derive(Clone, Copy, Debug, PartialEq, Eq)]
pub struct OrWitness {
    /// The side, 0 or 1.
    pub side: u32,
    /// Its witness, with 0 beyond the columns in use.
    pub witness: [u32; 8],
}

impl OrRound {
    /// The round of one side alone.
    fn of_side(&self, sheets: &[Sheet; 2], side: usize) -> Round {
        let challenge = match side {
            0 => self.first_challenge,
            _ => left(sheets, self.challenge, self.first_challenge),
        };
        Round { commitment: self.commitments[side], challenge, response: self.responses[side] }
    }
}

/// Test 14 of both commitments.
fn test_commitments(sheets: &[Sheet; 2], round: &OrRound) -> Result<(), u32> {
    test_commitment(&sheets[0], &round.commitments[0])?;
    test_commitment(&sheets[1], &round.commitments[1])
}

/// Test 15 of c and c0. Both sheets have the same K.
fn test_challenges(sheets: &[Sheet; 2], round: &OrRound) -> Result<(), u32> {
    test_challenge(&sheets[0], round.challenge)?;
    test_challenge(&sheets[0], round.first_challenge)
}

/// Test 16 of both responses.
fn test_responses(sheets: &[Sheet; 2], round: &OrRound) -> Result<(), u32> {
    test_slots(&sheets[0], &round.responses[0])?;
    test_slots(&sheets[1], &round.responses[1])
}

/// The verdict on an OR round whose values have passed 14 to 16.
fn both_sides(sheets: &[Sheet; 2], round: &OrRound) -> OrVerdict {
    // Decision: card 4's first rejected side is not given apart, since it is
    // the first that has a differing row.
    let rows = [0, 1].map(|side: usize| {
        let part = round.of_side(sheets, side);
        let sheet = &sheets[side];
        differing(sheet, &part.commitment, part.challenge, &part.response)
    });
    if rows == [[false; 8]; 2] { OrVerdict::Accepted } else { OrVerdict::Rejected(rows) }
}

/// Judges an OR round: accepted when both sides are, otherwise rejected with
/// all the differing rows of both sides.
///
/// Refuses with 2 to 11 for the sheets, the lowest number over both, and 26
/// when their counts K differ. Then with 14 for a commitment value that is no
/// group element, 15 for a c or c0 of K or more and 16 for a response slot
/// that is no domain slot, each over both sides.
pub fn judge(sheets: [&[u8]; 2], round: &OrRound) -> OrVerdict {
    match judged(sheets, round) {
        Ok(verdict) => verdict,
        Err(number) => OrVerdict::Refused(number),
    }
}

fn judged(sheets: [&[u8]; 2], round: &OrRound) -> Result<OrVerdict, u32> {
    let sheets = load_both(sheets)?;
    test_commitments(&sheets, round)?;
    test_challenges(&sheets, round)?;
    test_responses(&sheets, round)?;
    Ok(both_sides(&sheets, round))
}

/// Answers the witness that two accepted OR rounds with equal commitments and
/// different c give: side 0's if the c0 differ, else side 1's.
///
/// Refuses with 2 to 11 and 26 for the sheets, and with 14, 15 or 16 when
/// either round has a value that a judged OR round may not have. Then with 18
/// when a side's commitments differ, 19 when the two c are equal and 20 when
/// either round is rejected.
pub fn extract(sheets: [&[u8]; 2], first: &OrRound, second: &OrRound) -> Result<OrWitness, u32> {
    let sheets = load_both(sheets)?;
    // Decision: each number is asked of both rounds and both sides before the
    // next, as 01's extractor does with its two rounds.
    let rounds = [first, second];
    rounds.iter().try_for_each(|round| test_commitments(&sheets, round))?;
    rounds.iter().try_for_each(|round| test_challenges(&sheets, round))?;
    rounds.iter().try_for_each(|round| test_responses(&sheets, round))?;
    for (side, sheet) in sheets.iter().enumerate() {
        if differ(sheet, &first.commitments[side], &second.commitments[side]) {
            return Err(18);
        }
    }
    if first.challenge == second.challenge {
        return Err(19);
    }
    for round in rounds {
        if both_sides(&sheets, round) != OrVerdict::Accepted {
            return Err(20);
        }
    }
    // Where the c0 are equal the c1 differ, since the c do.
    let side = usize::from(first.first_challenge == second.first_challenge);
    let [one, other] = rounds.map(|round| round.of_side(&sheets, side));
    Ok(OrWitness { side: side as u32, witness: combine(&sheets[side], &one, &other) })
}
