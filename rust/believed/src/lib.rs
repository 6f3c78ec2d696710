//! The definitions that a reader of the theorems has to believe: those that the record `Demands` reaches, by the names that
//! stand in the sources. And the calls that it speaks of, beside those that the library exports.

pub mod calls;
pub mod contracts;
pub mod page;
pub mod reach;
pub mod specs;
