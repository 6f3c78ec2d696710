//! What a definition reaches by the names that stand in it.

use std::collections::BTreeSet;

use crate::specs::{Definition, Import, Place, Specs};

/// The words of a definition's line, between spaces and brackets, without the fields that are taken of a value (`value.field`).
pub fn words(line: &str) -> impl Iterator<Item = &str> {
    let parts = line.split(|c: char| c.is_whitespace() || "(){},;[]".contains(c));
    parts.filter_map(|part| part.split('.').next()).filter(|word| !word.is_empty())
}

/// The index of what a word of a file stands for, if it is a definition of the crates.
pub fn meant(specs: &Specs, place: &Place, word: &str) -> Option<usize> {
    let at = |place: &Place, name: &str| {
        specs.definitions.iter().position(|d| d.place == *place && d.name == name)
    };
    if let Some(found) = at(place, word) {
        return Some(found);
    }
    let imports = specs.imports.get(place)?;
    let operator = format!("◌{word}◌");
    let Import { place, name } = imports.get(word).or_else(|| imports.get(&operator))?;
    at(place, name)
        .or_else(|| specs.definitions.iter().position(|d| d.place == *place && constructs(d, name)))
}

/// Whether a data type or an enum has a constructor of this name.
fn constructs(definition: &Definition, name: &str) -> bool {
    definition.lines.iter().skip(1).any(|line| words(line).next() == Some(name))
}

/// Adds what lines of a file reach to a list, each definition before what it reaches, unless it is there already.
pub fn reach(
    specs: &Specs,
    place: &Place,
    lines: &[String],
    seen: &mut BTreeSet<usize>,
    list: &mut Vec<usize>,
) {
    for word in lines.iter().flat_map(|line| words(line)) {
        if let Some(found) = meant(specs, place, word)
            && seen.insert(found)
        {
            list.push(found);
            let definition = &specs.definitions[found];
            reach(specs, &definition.place, &definition.lines, seen, list);
        }
    }
}
