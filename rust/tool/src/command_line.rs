//! The command line: the words of a command, the files it names, and what is printed.

pub mod colour;
pub mod completions;
pub mod failure;
pub mod files;
pub mod help;
pub mod json;
pub mod man;
pub mod output;
pub mod table;
pub mod words;
pub mod wrap;
