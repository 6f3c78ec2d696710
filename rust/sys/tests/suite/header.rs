//! The header, this crate and the archive have the same calls and numbers, and the pages name calls that the headers have.

use crate::cc;

use dimkhoros_sys::*;
use phases::{prover, verifier};
use std::collections::BTreeSet;
use std::fmt::Write;
use std::fs;

/// The constants of this crate, under their names in C and in the order of the C program.
const CONSTANTS: [(&str, usize); 32] = [
    ("PLACES", PLACES),
    ("ENTRIES", ENTRIES),
    ("MOST_PLAYERS", MOST_PLAYERS),
    ("PARTS", PARTS),
    ("SAVED_STATES", SAVED_STATES),
    ("MOST_ANSWERED", MOST_ANSWERED),
    ("MOST_REMEMBERED", MOST_REMEMBERED),
    ("MOST_LINES", MOST_LINES),
    ("LONGEST_SHEET", LONGEST_SHEET),
    ("SHIPPED_PATTERNS", SHIPPED_PATTERNS),
    ("MOST_PATTERNS", MOST_PATTERNS),
    ("LONGEST_PATTERNS", LONGEST_PATTERNS),
    ("EMPTY_FILE", EMPTY_FILE),
    ("MOST_ROUNDS", MOST_ROUNDS),
    ("LONGEST_FILE", LONGEST_FILE),
    ("LONGEST_FILE_2", LONGEST_FILE_2),
    ("LONGEST_TEXT", LONGEST_TEXT),
    ("LONGEST_REASON", LONGEST_REASON),
    ("LONGEST_GAME", LONGEST_GAME),
    ("EXPONENT", EXPONENT as usize),
    ("ROOT", ROOT as usize),
    ("LINE_COMMITMENT", lines::COMMITMENT as usize),
    ("LINE_SUM", lines::SUM as usize),
    ("LINE_PRODUCT", lines::PRODUCT as usize),
    ("PROVER_NEW", prover::NEW as usize),
    ("PROVER_COMMITTED", prover::COMMITTED as usize),
    ("PROVER_ANSWERED", prover::ANSWERED as usize),
    ("PROVER_DROPPED", prover::DROPPED as usize),
    ("VERIFIER_WAITING", verifier::WAITING as usize),
    ("VERIFIER_HOLDING", verifier::HOLDING as usize),
    ("VERIFIER_ASKED", verifier::ASKED as usize),
    ("VERIFIER_JUDGED", verifier::JUDGED as usize),
];

#[test]
fn constants_are_the_same_in_c() {
    let mut text = String::new();
    for (name, number) in CONSTANTS {
        writeln!(text, "{name} {number}").unwrap();
    }
    assert_eq!(text, cc::run("numbers.c"));
}

/// The version of this crate as a number.
fn crate_version() -> u32 {
    let part = |text: &str| text.parse::<u32>().unwrap();
    10000 * part(env!("CARGO_PKG_VERSION_MAJOR"))
        + 100 * part(env!("CARGO_PKG_VERSION_MINOR"))
        + part(env!("CARGO_PKG_VERSION_PATCH"))
}

#[test]
fn header_archive_and_crate_have_one_version() {
    let (number, text) = (crate_version(), env!("CARGO_PKG_VERSION"));
    assert_eq!(version(), number);
    assert_eq!(cc::run("version.c"), format!("{number} {text} {number}\n"));
}

#[test]
fn the_header_serves_cpp() {
    assert_eq!(cc::run("from_cpp.cpp"), "0 1 the buffer is too short for the result\n");
}

/// The names in a file that begin with the library's name and end where the given byte stands, or anywhere.
fn names(bytes: &[u8], end: Option<u8>) -> BTreeSet<String> {
    const START: &[u8] = b"dimkhoros_";
    let mut names = BTreeSet::new();
    for place in 0..bytes.len() {
        if !bytes[place..].starts_with(START) {
            continue;
        }
        let is_part = |byte: &u8| byte.is_ascii_alphanumeric() || *byte == b'_';
        let name: Vec<u8> = bytes[place..].iter().copied().take_while(is_part).collect();
        if end.is_none() || bytes.get(place + name.len()).copied() == end {
            names.insert(String::from_utf8(name).unwrap());
        }
    }
    names
}

#[test]
fn the_pages_name_functions_of_the_headers() {
    let read = |file: &str| fs::read(cc::root().join(file)).unwrap();
    let headers = ["include/dimkhoros.h", "include/dimkhoros_box.h"].map(read).concat();
    let functions = names(&headers, Some(b'('));
    for page in ["docs/C.md", "docs/BOXES.md", "docs/promises/exports.md"] {
        let mut told = names(&read(page), Some(b'`'));
        // What ends in a line is the beginning of several names.
        told.retain(|name| !name.ends_with('_'));
        assert!(told.len() > 10, "{page} names {} functions", told.len());
        let unknown: Vec<_> = told.difference(&functions).collect();
        assert!(unknown.is_empty(), "{page} names {unknown:?}, which no header has");
    }
}

#[test]
fn the_header_and_this_crate_declare_what_the_archive_exports() {
    let exported = names(&fs::read(ARCHIVE).unwrap(), None);
    let header = fs::read_to_string(cc::root().join("include/dimkhoros.h")).unwrap();
    // What the header defines itself begins with these two words.
    let own: String = header.lines().filter(|line| line.starts_with("static inline")).collect();
    let own = names(own.as_bytes(), Some(b'('));
    let all = names(header.as_bytes(), Some(b'('));
    assert_eq!(all.difference(&own).cloned().collect::<BTreeSet<_>>(), exported);
    assert!(own.is_disjoint(&exported));
    assert_eq!(names(include_bytes!("../../src/exports.rs"), Some(b'(')), exported);
    assert_eq!(names(include_bytes!("../../src/calls.rs"), Some(b'(')), exported);
}
