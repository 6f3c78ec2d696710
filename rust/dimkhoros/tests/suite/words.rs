//! The header and this crate have the same version, names, numbers and sentences.

use crate::cc;

use dimkhoros::{Pattern, Refusal};
use std::fmt::{Debug, Write};
use std::fs;

/// A name as C writes it: `SheetMark` is SHEET_MARK.
fn c_name(name: impl Debug) -> String {
    let mut text = String::new();
    for letter in format!("{name:?}").chars() {
        if letter.is_uppercase() && !text.is_empty() {
            text.push('_');
        }
        text.extend(letter.to_uppercase());
    }
    text
}

#[test]
fn version_refusals_and_patterns_are_the_same_in_c() {
    let mut text = format!("{}\n", env!("CARGO_PKG_VERSION"));
    for refusal in (1..=99).filter_map(Refusal::from_number) {
        let name = c_name(refusal);
        writeln!(text, "{} {name} {}", refusal.number(), refusal.sentence()).unwrap();
    }
    text += "nothing is refused\nno refusal has this number\n";
    use Pattern::*;
    for pattern in [Root, Schnorr, Okamoto, Equality, DiffieHellman, Product] {
        writeln!(text, "PATTERN_{} {}", c_name(pattern), pattern.number()).unwrap();
    }
    assert_eq!(text, cc::run("words.c"));
    assert_eq!(Refusal::from_number(0), None);
    assert_eq!(Refusal::from_number(u32::MAX), None);
}

#[test]
fn the_changelog_begins_with_this_version() {
    let changelog = fs::read_to_string(cc::root().join("CHANGELOG.md")).unwrap();
    let first = changelog.lines().find(|line| line.starts_with("## ")).unwrap();
    assert_eq!(first, format!("## {}", env!("CARGO_PKG_VERSION")));
}
