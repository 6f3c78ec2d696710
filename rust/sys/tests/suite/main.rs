//! The tests of what crosses: this crate, the header and the archive agree.

mod cc;
mod echo;
mod header;
mod in_place;
mod layout;
mod types;
mod warnings;
