//! What both boxes are built on: their folder and sheet, the store, random numbers and the wire.

mod base;
mod points;
mod random;
mod store;
mod wire;

pub use base::{Base, Failure};
pub use random::random_below;
pub use wire::Line;
