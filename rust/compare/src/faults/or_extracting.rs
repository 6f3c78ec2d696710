//! Faults of extracting from rounds of the OR proof.

use crate::arithmetic::{inverse, multiply, power};
use crate::faults::Fault;
use crate::faults::or_rounds::sides;
use crate::library::Library::Judge;
use crate::library::{Computed, OrExtracted, OrRound, Places, Round};

/// A refusal with this number.
fn refused(refusal: u32) -> OrExtracted {
    OrExtracted { refusal, ..OrExtracted::default() }
}

/// A witness of this side, or a refusal.
fn of_side(side: u32, computed: Computed) -> OrExtracted {
    OrExtracted {
        values: computed.values,
        side: if computed.refusal == 0 { side } else { 0 },
        refusal: computed.refusal,
    }
}

pub fn or_extract(
    fault: Fault,
    first: &[u8],
    second: &[u8],
    a: &OrRound,
    b: &OrRound,
) -> OrExtracted {
    let right = Judge.or_extract(first, second, a, b);
    match right.refusal {
        0 => witness(fault, first, second, [a, b], right),
        2..=11 | 26 => right,
        _ => number(fault, first, second, [a, b], right),
    }
}

/// The witness of two rounds that are not refused.
fn witness(
    fault: Fault,
    first: &[u8],
    second: &[u8],
    [a, b]: [&OrRound; 2],
    mut right: OrExtracted,
) -> OrExtracted {
    let count = Judge.load(first).header.challenges;
    let seconds = [a, b].map(|round| sides(count, round)[1]);
    let commitments = [a, b].map(|round| (round.commitment0, round.commitment1));
    match (fault, right.side) {
        (Fault::OrExtractFirst, _) => right.side = 0,
        (Fault::OrExtractWhole, 1) => {
            let whole = [a, b].map(|round| round.challenge);
            right.values = with_challenges(second, seconds, whole);
        }
        (Fault::OrExtractSecond, 0) if seconds[0].challenge != seconds[1].challenge => {
            return of_side(1, Judge.extract(second, &seconds[0], &seconds[1]));
        }
        (Fault::OrExtractEqual, 1) => return refused(19),
        (Fault::OrExtractEightPlaces, _) if commitments[0] != commitments[1] => return refused(18),
        (Fault::OrExtractBeyond, 0) => {
            let columns = Judge.load(first).header.columns as usize;
            right.values[columns..].copy_from_slice(&a.response0[columns..]);
        }
        _ => {}
    }
    right
}

/// 01's formula of two rounds of one sheet, with these challenges for theirs.
fn with_challenges(sheet: &[u8], [one, other]: [Round; 2], challenges: [u32; 2]) -> Places {
    let loaded = Judge.load(sheet);
    let (m, order) = (loaded.header.modulus, loaded.header.order);
    let difference = i64::from(challenges[0]) - i64::from(challenges[1]);
    let reduced = difference.rem_euclid(i64::from(order)) as u32;
    let b = inverse(reduced, order);
    let a = (1 - i128::from(difference) * i128::from(b)) / i128::from(order);
    let mut witness = [0; 8];
    for (j, slot) in witness.iter_mut().enumerate().take(loaded.header.columns as usize) {
        let (r, other) = (one.response[j], other.response[j]);
        *slot = if loaded.header.kind == 1 {
            let factor = i128::from(b) * (i128::from(r) - i128::from(other));
            factor.rem_euclid(i128::from(order)) as u32
        } else {
            let z = loaded.statement[j];
            let base = if a < 0 { inverse(z, m) } else { z };
            let left = power(base, a.unsigned_abs() as u32, m);
            let quotient = multiply(r, inverse(other, m), m);
            multiply(left, power(quotient, b, m), m)
        };
    }
    witness
}

/// The number of two rounds of which one is refused, or both.
fn number(
    fault: Fault,
    first: &[u8],
    second: &[u8],
    [a, b]: [&OrRound; 2],
    right: OrExtracted,
) -> OrExtracted {
    let count = Judge.load(first).header.challenges;
    let verdicts = [a, b].map(|round| Judge.or_judge(first, second, round));
    match (fault, right.refusal) {
        (Fault::OrExtractFirstRound, 14..=16) if verdicts[0].refusal != 0 => {
            refused(verdicts[0].refusal)
        }
        (Fault::OrExtractOneCommitment, 18) => {
            let changed = OrRound { commitment1: a.commitment1, ..*b };
            Judge.or_extract(first, second, a, &changed)
        }
        (Fault::OrExtractOneC, 19)
            if a.challenge0 != b.challenge0 && verdicts.iter().all(|v| v.accepted == 1) =>
        {
            let [one, other] = [a, b].map(|round| sides(count, round)[0]);
            of_side(0, Judge.extract(first, &one, &other))
        }
        (Fault::OrExtractOneSide, 20) if verdicts.iter().all(|verdict| verdict.rows0 == 0) => {
            OrExtracted::default()
        }
        (Fault::OrExtractOneRound, 20) if verdicts[0].accepted == 1 => OrExtracted::default(),
        _ => right,
    }
}
