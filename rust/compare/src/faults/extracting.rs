//! Faults of extracting.

use crate::arithmetic::{gcd, inverse, multiply, power};
use crate::faults::Fault;
use crate::library::Library::Judge;
use crate::library::{Computed, Header, Places, Round};

/// A refusal with this number.
fn refused(refusal: u32) -> Computed {
    Computed { refusal, values: [0; 8] }
}

pub fn extract(fault: Fault, sheet: &[u8], first: &Round, second: &Round) -> Computed {
    let right = Judge.extract(sheet, first, second);
    match right.refusal {
        0 => witness(fault, &Judge.load(sheet).header, first, second, right),
        2..=11 => right,
        _ => number(fault, sheet, first, second, right),
    }
}

/// The witness of two rounds that are not refused.
fn witness(
    fault: Fault,
    header: &Header,
    first: &Round,
    second: &Round,
    mut right: Computed,
) -> Computed {
    let columns = header.columns as usize;
    match (fault, header.kind) {
        (Fault::ExtractTwenty, _) => return refused(20),
        (Fault::ExtractEightPlaces, _) if first.commitment != second.commitment => {
            return refused(18);
        }
        (Fault::ExtractBeyond, _) => {
            right.values[columns..].copy_from_slice(&first.response[columns..]);
        }
        (
            Fault::ExtractInverseModM
            | Fault::ExtractModM
            | Fault::ExtractUnsigned
            | Fault::ExtractWithoutStatement,
            kind,
        ) => {
            let combined = match kind {
                1 => combine_exponents(fault, header, first, second),
                _ => combine_roots(fault, header, first, second),
            };
            if let Some(values) = combined {
                right.values[..columns].copy_from_slice(&values[..columns]);
            }
        }
        _ => {}
    }
    right
}

/// The difference of two numbers mod m.
fn difference(one: u32, other: u32, m: u32) -> u32 {
    (i64::from(one) - i64::from(other)).rem_euclid(i64::from(m)) as u32
}

/// The factor times the difference of the responses, in kind 1.
fn combine_exponents(
    fault: Fault,
    header: &Header,
    first: &Round,
    second: &Round,
) -> Option<Places> {
    let Header { modulus, order, .. } = *header;
    let (c, other) = (first.challenge, second.challenge);
    let (reduced_mod, inverted, inverted_mod) = match fault {
        Fault::ExtractInverseModM => (order, difference(c, other, modulus), modulus),
        Fault::ExtractModM => (modulus, difference(c, other, order), order),
        Fault::ExtractUnsigned => (order, c.wrapping_sub(other) % order, order),
        _ => return None,
    };
    if gcd(inverted, inverted_mod) != 1 {
        return Some([0; 8]);
    }
    let factor = i128::from(inverse(inverted, inverted_mod));
    Some(std::array::from_fn(|j| {
        let (r, other) = (i128::from(first.response[j]), i128::from(second.response[j]));
        (factor * (r - other)).rem_euclid(i128::from(reduced_mod)) as u32
    }))
}

/// The quotient of the responses to the power b without z^a, in kind 2.
fn combine_roots(fault: Fault, header: &Header, first: &Round, second: &Round) -> Option<Places> {
    let Header { modulus, order, .. } = *header;
    if fault != Fault::ExtractWithoutStatement {
        return None;
    }
    let b = inverse(difference(first.challenge, second.challenge, order), order);
    Some(std::array::from_fn(|j| {
        let quotient = multiply(first.response[j], inverse(second.response[j], modulus), modulus);
        power(quotient, b, modulus)
    }))
}

/// The number of two rounds of which one is refused, or both.
fn number(fault: Fault, sheet: &[u8], first: &Round, second: &Round, right: Computed) -> Computed {
    let verdicts = [first, second].map(|round| Judge.judge(sheet, round));
    match (fault, right.refusal) {
        (Fault::ExtractFirstRound, 14..=16) if verdicts[0].refusal != 0 => {
            refused(verdicts[0].refusal)
        }
        (Fault::ExtractEqualFirst, 18) if first.challenge == second.challenge => refused(19),
        (Fault::ExtractRejectedFirst, 18 | 19) if verdicts.iter().any(|v| v.accepted == 0) => {
            refused(20)
        }
        (Fault::ExtractFirstJudged, 20) if verdicts[0].accepted == 1 => Computed::default(),
        (Fault::ExtractSecondJudged, 20) if verdicts[1].accepted == 1 => Computed::default(),
        _ => right,
    }
}
