//! The tests of this crate's public face, of the header's words, of the examples, of the scripts that mark folders and install, and
//! of the Python module.

mod archive;
mod box_header;
mod boxes;
#[path = "../../../sys/tests/suite/cc.rs"]
mod cc;
mod converting;
mod examples;
mod forms;
mod games;
mod home;
mod install;
mod installed;
mod ledgers;
mod levels;
mod links;
mod marks;
mod or_rounds;
mod or_sessions;
#[path = "../../../sys/tests/suite/outside.rs"]
mod outside;
mod pages;
mod patterns;
mod python;
mod reading;
mod readme;
mod reasons;
mod refusals;
mod repeats;
mod rounds;
mod rows;
mod run;
mod saved_states;
mod sessions;
mod sheets;
mod sizes;
mod stored;
mod storing;
mod teams;
mod tree;
mod watches;
mod words;
