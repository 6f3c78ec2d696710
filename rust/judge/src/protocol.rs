//! Rounds: judging, simulating and extracting.

use crate::arithmetic::{euclid, inverse, multiply, power, reduce, signed_power};
use crate::sheet::{Sheet, load};

/// A round (t, c, r). Places beyond the rows or columns in use are not read.
#[derive(Clone, Debug, PartialEq, Eq)]
pub struct Round {
    /// The commitment t, one value for each row.
    pub commitment: [u32; 8],
    /// The challenge c.
    pub challenge: u32,
    /// The response r, one slot for each column.
    pub response: [u32; 8],
}

/// The rows whose two sides differ: a flag for each of the rows 0 to 7.
///
/// The flags beyond the rows in use are false.
pub type Rows = [bool; 8];

/// What a judged round comes to.
#[derive(Clone, Copy, Debug, PartialEq, Eq)]
pub enum Verdict {
    /// Both sides agree in every row.
    Accepted,
    /// The rows whose two sides differ. There is at least one.
    Rejected(Rows),
    /// The number of the refusal.
    Refused(u32),
}

/// Whether every commitment value in use is a group element.
pub(crate) fn are_elements(sheet: &Sheet, values: &[u32; 8]) -> bool {
    let mut used = values.iter().take(sheet.s());
    used.all(|value| sheet.is_group_element(*value))
}

/// Whether every nonce, witness or response value in use is a domain slot.
pub(crate) fn are_slots(sheet: &Sheet, values: &[u32; 8]) -> bool {
    let mut used = values.iter().take(sheet.n());
    used.all(|value| sheet.is_domain_slot(*value))
}

/// Refuses with 14 when a commitment value is no group element.
pub(crate) fn test_commitment(sheet: &Sheet, commitment: &[u32; 8]) -> Result<(), u32> {
    if are_elements(sheet, commitment) { Ok(()) } else { Err(14) }
}

/// Refuses with 15 when the challenge is K or more.
pub(crate) fn test_challenge(sheet: &Sheet, challenge: u32) -> Result<(), u32> {
    if challenge < sheet.challenges { Ok(()) } else { Err(15) }
}

/// Refuses with 16 when a nonce, witness or response slot is no domain slot.
pub(crate) fn test_slots(sheet: &Sheet, slots: &[u32; 8]) -> Result<(), u32> {
    if are_slots(sheet, slots) { Ok(()) } else { Err(16) }
}

/// The two sides of every row in use, `[r]` first and then t · z^c mod m.
///
/// The values have passed 14 to 16.
pub(crate) fn sides(
    sheet: &Sheet,
    commitment: &[u32; 8],
    challenge: u32,
    response: &[u32; 8],
) -> Vec<(u32, u32)> {
    let m = sheet.modulus;
    let image = sheet.image(response);
    let mut sides = Vec::new();
    for (i, left) in image.iter().enumerate().take(sheet.s()) {
        let factor = power(sheet.statement[i], u128::from(challenge), m);
        sides.push((*left, multiply(commitment[i], factor, m)));
    }
    sides
}

/// The rows of a round whose two sides differ.
///
/// The values have passed 14 to 16.
pub(crate) fn differing(
    sheet: &Sheet,
    commitment: &[u32; 8],
    challenge: u32,
    response: &[u32; 8],
) -> Rows {
    let sides = sides(sheet, commitment, challenge, response);
    let mut rows = [false; 8];
    for (differs, (left, right)) in rows.iter_mut().zip(sides) {
        *differs = left != right;
    }
    rows
}

/// The numbers of these rows, from 0 and rising.
pub(crate) fn row_numbers(rows: &Rows) -> Vec<usize> {
    (0..8).filter(|row| rows[*row]).collect()
}

/// The verdict on a round whose values have passed 14 to 16.
pub(crate) fn verdict(
    sheet: &Sheet,
    commitment: &[u32; 8],
    challenge: u32,
    response: &[u32; 8],
) -> Verdict {
    let rows = differing(sheet, commitment, challenge, response);
    if rows.contains(&true) { Verdict::Rejected(rows) } else { Verdict::Accepted }
}

/// The verdict on a round, after the tests 14 to 16.
pub(crate) fn tested_verdict(sheet: &Sheet, round: &Round) -> Result<Verdict, u32> {
    test_commitment(sheet, &round.commitment)?;
    test_challenge(sheet, round.challenge)?;
    test_slots(sheet, &round.response)?;
    Ok(verdict(sheet, &round.commitment, round.challenge, &round.response))
}

/// Judges a round: accepted when `[r]` = t · z^c in every row, otherwise
/// rejected with all the rows that differ.
///
/// Refuses with 2 to 11 for the sheet, 14 for a commitment value that is no
/// group element, 15 for a challenge of K or more and 16 for a response slot
/// that is no domain slot.
pub fn judge(sheet: &[u8], round: &Round) -> Verdict {
    match load(sheet).and_then(|sheet| tested_verdict(&sheet, round)) {
        Ok(verdict) => verdict,
        Err(number) => Verdict::Refused(number),
    }
}

/// Answers the commitment t = `[r]` · z^(−c) that makes (t, c, r) an accepted
/// round, with 0 beyond the rows in use.
///
/// Refuses with 2 to 11 for the sheet, 15 for a challenge of K or more and 16
/// for a response slot that is no domain slot.
pub fn simulate(sheet: &[u8], challenge: u32, response: &[u32; 8]) -> Result<[u32; 8], u32> {
    let sheet = load(sheet)?;
    test_challenge(&sheet, challenge)?;
    test_slots(&sheet, response)?;
    Ok(simulated(&sheet, challenge, response))
}

/// The commitment `[r]` · z^(−c) of values that have passed 15 and 16.
pub(crate) fn simulated(sheet: &Sheet, challenge: u32, response: &[u32; 8]) -> [u32; 8] {
    let m = sheet.modulus;
    let mut commitment = sheet.image(response);
    for (value, z) in commitment.iter_mut().zip(&sheet.statement).take(sheet.s()) {
        *value = multiply(*value, signed_power(*z, -i128::from(challenge), m), m);
    }
    commitment
}

/// Answers the witness that two accepted rounds with equal commitments and
/// different challenges give, with 0 beyond the columns in use.
///
/// Refuses with 2 to 11 for the sheet, and with 14, 15 or 16 when either round
/// has a commitment value, a challenge or a response slot that a judged round
/// may not have. Then with 18 when the commitments differ, 19 when the
/// challenges are equal and 20 when either round is rejected.
pub fn extract(sheet: &[u8], first: &Round, second: &Round) -> Result<[u32; 8], u32> {
    let sheet = load(sheet)?;
    // Decision: "the lowest number that applies" holds over both rounds, so 14
    // in the second round comes before 15 in the first.
    test_commitment(&sheet, &first.commitment)?;
    test_commitment(&sheet, &second.commitment)?;
    test_challenge(&sheet, first.challenge)?;
    test_challenge(&sheet, second.challenge)?;
    test_slots(&sheet, &first.response)?;
    test_slots(&sheet, &second.response)?;
    if differ(&sheet, &first.commitment, &second.commitment) {
        return Err(18);
    }
    if first.challenge == second.challenge {
        return Err(19);
    }
    for round in [first, second] {
        let verdict = verdict(&sheet, &round.commitment, round.challenge, &round.response);
        if verdict != Verdict::Accepted {
            return Err(20);
        }
    }
    Ok(combine(&sheet, first, second))
}

/// Whether two commitments differ in a row in use.
pub(crate) fn differ(sheet: &Sheet, first: &[u32; 8], second: &[u32; 8]) -> bool {
    // Decision: places beyond s "are not read", so they do not make two
    // commitments differ.
    let mut pairs = first.iter().zip(second).take(sheet.s());
    pairs.any(|(one, other)| one != other)
}

/// u^a · (r/r′)^b, slot by slot, with ℓ · a + (c − c′) · b = 1.
///
/// The challenges differ and lie below K. By 8 no d from 2 to K − 1 divides
/// ℓ, so the greatest common divisor of ℓ and c − c′ is 1.
pub(crate) fn combine(sheet: &Sheet, first: &Round, second: &Round) -> [u32; 8] {
    let difference = i128::from(first.challenge) - i128::from(second.challenge);
    let (_, a, b) = euclid(i128::from(sheet.order), difference);
    let m = sheet.modulus;
    let mut witness = [0; 8];
    for (j, slot) in witness.iter_mut().enumerate().take(sheet.n()) {
        let (r, other) = (first.response[j], second.response[j]);
        *slot = if sheet.kind == 1 {
            reduce(b * (i128::from(r) - i128::from(other)), sheet.order)
        } else {
            let quotient = multiply(r, inverse(other, m), m);
            let left = signed_power(sheet.statement[j], a, m);
            multiply(left, signed_power(quotient, b, m), m)
        };
    }
    witness
}
