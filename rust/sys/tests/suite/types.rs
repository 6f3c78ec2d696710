//! What each call takes and answers has the same types in the library, in this crate and in the header.

use crate::cc;

use std::collections::BTreeMap;
use std::fs;

/// The types that each call takes, and the type that it answers, as this crate writes them.
type Calls = BTreeMap<String, Vec<String>>;

/// The text between the first two of these words, and what follows.
fn between<'a>(text: &'a str, start: &str, end: &str) -> Option<(&'a str, &'a str)> {
    text.split_once(start)?.1.split_once(end)
}

/// The first word of a text.
fn first_word(text: &str) -> &str {
    text.split_whitespace().next().unwrap().trim_end_matches(';')
}

/// The calls in a text in which each stands behind this word, by the types that one parameter crosses as.
fn calls(mut text: &str, start: &str, crosses: fn(&str) -> Vec<String>) -> Calls {
    let mut calls = Calls::new();
    while let Some((name, rest)) = between(text, start, "(") {
        let (taken, rest) = rest.split_once(')').unwrap();
        let parts = taken.split(',').map(str::trim).filter(|part| !part.is_empty());
        let mut types: Vec<String> =
            parts.flat_map(|part| crosses(part.split_once(": ").unwrap().1)).collect();
        types.push(first_word(rest.trim_start().strip_prefix("-> ").unwrap()).to_string());
        calls.insert(name.to_string(), types);
        text = rest;
    }
    calls
}

/// The types that a parameter of a proved export crosses as: a slice is a pointer and a length, an array a pointer.
fn crosses(rattle: &str) -> Vec<String> {
    let Some(lent) = rattle.strip_prefix('&') else {
        return vec![rattle.to_string()];
    };
    let (mutable, lent) = match lent.strip_prefix("mut ") {
        Some(lent) => ("mut", lent),
        None => ("const", lent),
    };
    let lent = lent.trim_start_matches('[').trim_end_matches(']');
    match lent.split_once(';') {
        Some((item, _)) => vec![format!("*{mutable} {item}")],
        None => vec![format!("*{mutable} {lent}"), "usize".to_string()],
    }
}

/// The exports as they stand in the proved library.
fn in_library() -> Calls {
    let mut text = String::new();
    for file in fs::read_dir(cc::root().join("crates/dimkhoros/src")).unwrap() {
        text += &fs::read_to_string(file.unwrap().path()).unwrap();
    }
    calls(&text, "pub extern \"C\" fn ", crosses)
}

/// The same as this crate declares them.
fn in_crate() -> Calls {
    let handed = |part: &str| vec![part.replace("Handed", "ProverSession")];
    calls(include_str!("../../src/exports.rs"), "pub fn ", handed)
}

/// A type of C as this crate writes it.
fn of_c(c: &str) -> String {
    let item = |c: &str| match c.trim() {
        "uint8_t" => "u8".to_string(),
        "uint32_t" => "u32".to_string(),
        "size_t" => "usize".to_string(),
        name => name.trim_start_matches("Dimkhoros").to_string(),
    };
    match (c.strip_suffix('*'), c.strip_prefix("const ")) {
        (None, _) => item(c),
        (Some(lent), None) => format!("*mut {}", item(lent)),
        (Some(_), Some(lent)) => format!("*const {}", item(lent.trim_end_matches('*'))),
    }
}

/// The type of a parameter in C, which its name follows and, for an array, its size.
fn taken_in_c(part: &str) -> String {
    let name = part.rfind([' ', '*']).unwrap() + 1;
    let star = if part.ends_with(']') { "*" } else { "" };
    of_c(&format!("{}{star}", part[..name].trim()))
}

/// The header without its comments.
fn header() -> String {
    let text = fs::read_to_string(cc::root().join("include/dimkhoros.h")).unwrap();
    let mut pieces = text.split("/*");
    let first = pieces.next().unwrap().to_string();
    pieces.fold(first, |kept, piece| kept + piece.split_once("*/").unwrap().1)
}

/// A call as the header declares it, before any other use of its name.
fn in_header(header: &str, name: &str) -> Vec<String> {
    let (before, rest) = header.split_once(&format!("{name}(")).unwrap();
    let (taken, _) = rest.split_once(')').unwrap();
    let parts = taken.split(',').map(str::trim).filter(|part| *part != "void");
    let mut types: Vec<String> = parts.map(taken_in_c).collect();
    types.push(of_c(before.split_whitespace().last().unwrap()));
    types
}

#[test]
fn every_call_has_the_types_of_the_proved_export() {
    let library = in_library();
    assert!(library.contains_key("dimkhoros_judge"));
    assert_eq!(in_crate(), library);
    let header = header();
    for (name, types) in library {
        assert_eq!(in_header(&header, &name), types, "{name}");
    }
}

#[test]
fn a_number_of_another_width_is_found() {
    let checked =
        "pub fn dimkhoros_check(file: *const u8, file_length: usize, number: u32) -> u32;";
    let proved = "pub extern \"C\" fn dimkhoros_check(file: &[u8], number: usize) -> u32\n";
    let one = calls(checked, "pub fn ", |part| vec![part.to_string()]);
    let other = calls(proved, "pub extern \"C\" fn ", crosses);
    assert_ne!(one, other);
    assert_eq!(other["dimkhoros_check"], ["*const u8", "usize", "usize", "u32"]);
    let c = "uint32_t dimkhoros_check(const uint8_t *file, size_t file_length, uint32_t number);";
    assert_eq!(in_header(c, "dimkhoros_check"), one["dimkhoros_check"]);
}
