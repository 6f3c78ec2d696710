//! The proved library, through its archive. The functions are those of the crate
//! `dimkhoros_sys`, but for the makers of sheets.

use crate::library::{Forms, Plan, Written};

pub use dimkhoros_sys::*;

/// Gives the numbers of the plan to the sheet maker one by one.
pub fn from_pattern(
    patterns: &[u8],
    plan: Plan,
    values: &[u32],
    statement: &[u32],
    buffer: &mut [u8],
) -> Written {
    let (number, m, q, k) = (plan.number, plan.modulus, plan.order, plan.challenges);
    dimkhoros_sys::from_pattern(patterns, number, m, q, k, values, statement, buffer)
}

/// Gives the numbers and lists of the forms to the maker one by one.
pub fn linear(forms: &Forms, buffer: &mut [u8]) -> Written {
    let header = forms.header;
    dimkhoros_sys::linear(
        header.modulus,
        header.order,
        header.challenges,
        header.rows,
        header.columns,
        &forms.generators,
        &forms.coefficients,
        &forms.statement,
        buffer,
    )
}
