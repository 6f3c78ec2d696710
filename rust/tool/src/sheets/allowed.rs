//! What the rules on values allow on a sheet.

use dimkhoros::{EXPONENT, Header, Refusal};

/// What a rule allows on a sheet with this header, as it stands after a line that says that the rule is broken: nothing if the
/// rule is on something else than a value.
pub fn by(refusal: Refusal, header: &Header) -> String {
    match refusal {
        Refusal::Entry | Refusal::Statement | Refusal::Commitment => {
            format!("; the group has {}", group(header))
        }
        Refusal::Challenge => {
            format!(
                "; challenges are the numbers from 0 to {}",
                header.challenges.saturating_sub(1)
            )
        }
        Refusal::Coordinate if header.kind == EXPONENT => {
            format!("; the domain has the numbers from 0 to {}", header.order.saturating_sub(1))
        }
        Refusal::Coordinate => format!("; the domain has {}", group(header)),
        _ => String::new(),
    }
}

/// The elements of the group.
fn group(header: &Header) -> String {
    let Header { modulus, order, .. } = header;
    let last = modulus.saturating_sub(1);
    match header.kind {
        EXPONENT => format!("the numbers v from 1 to {last} with v^{order} mod {modulus} = 1"),
        _ => format!("the numbers from 1 to {last} without a factor in common with {modulus}"),
    }
}
