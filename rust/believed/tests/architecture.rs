//! docs/ARCHITECTURE.md has a row for each crate of crates.txt, with the crates that it uses, and its picture has each crate.

use std::collections::{BTreeMap, BTreeSet};

use believed::specs::{root, text_of};

type Crates = BTreeSet<String>;

/// The crates of crates.txt, each with those of them that it uses.
fn listed() -> BTreeMap<String, Crates> {
    let text = text_of(&root().join("crates.txt"));
    let lines = text.lines().filter_map(|line| line.split('#').next()?.split_once(':'));
    // Behind the name stands what else the crate is, as `staticlib`.
    let named = lines.filter_map(|(name, used)| Some((name.split_whitespace().next()?, used)));
    let lines: Vec<(&str, &str)> = named.collect();
    let own = |used: &str| lines.iter().any(|(name, _)| *name == used);
    let used =
        |used: &str| used.split_whitespace().filter(|name| own(name)).map(String::from).collect();
    lines.iter().map(|(name, rest)| (name.to_string(), used(rest))).collect()
}

/// All crates below these: those that they use, and those that these use.
fn below(crates: &Crates, listed: &BTreeMap<String, Crates>) -> Crates {
    let used: Crates = crates.iter().flat_map(|name| listed[name].clone()).collect();
    let deeper = if used.is_empty() { Crates::new() } else { below(&used, listed) };
    used.into_iter().chain(deeper).collect()
}

/// The crates that a text names.
fn named(text: &str, listed: &BTreeMap<String, Crates>) -> Crates {
    let words = text.split(|sign: char| !sign.is_alphanumeric() && sign != '_');
    words.filter(|word| listed.contains_key(*word)).map(String::from).collect()
}

/// The rows of the page's table whose first column has this name: the crate, and what stands in the column `uses`.
fn rows<'a>(page: &'a str, first: &str) -> Vec<(&'a str, &'a str)> {
    let table = page.split(&format!("| {first} | what it is | uses |\n")).nth(1);
    let lines = table.expect("the page has the table").lines().skip(1);
    let rows = lines.take_while(|line| line.starts_with('|'));
    let cells = rows.map(|row| row.trim_matches('|').split('|').map(str::trim).collect::<Vec<_>>());
    cells.map(|cells| (cells[0], cells[2])).collect()
}

fn page() -> String {
    text_of(&root().join("docs/ARCHITECTURE.md"))
}

#[test]
fn every_crate_has_one_row() {
    let page = page();
    let tables = ["crate", "crate with functions", "program"];
    let rows: Vec<&str> =
        tables.iter().flat_map(|first| rows(&page, first)).map(|(name, _)| name).collect();
    let told: BTreeSet<&str> = rows.iter().copied().collect();
    assert_eq!(told.len(), rows.len());
    assert!(listed().keys().map(String::as_str).eq(told), "the rows are the crates of crates.txt");
}

#[test]
fn the_picture_has_every_crate() {
    let (page, listed) = (page(), listed());
    let picture = page.split("```").nth(1).expect("the page has a picture");
    // What a line's crates are for stands at its end, after a gap.
    let lines = picture.lines().map(str::trim);
    let left = lines.map(|line| line.rsplit_once("   ").map_or(line, |(left, _)| left));
    let told = named(&left.collect::<Vec<_>>().join("\n"), &listed);
    let lost: Vec<&String> = listed.keys().filter(|name| !told.contains(*name)).collect();
    assert!(lost.is_empty(), "{lost:?}");
}

/// A row names crates, or those `and below`, without those after `but`.
#[test]
fn the_rows_of_laws_have_the_crates_that_each_uses() {
    let (page, listed) = (page(), listed());
    for (name, uses) in rows(&page, "crate") {
        let (with, without) = uses.split_once(" but ").unwrap_or((uses, ""));
        let mut told = named(with, &listed);
        if with.contains("and below") {
            told.extend(below(&told, &listed));
        }
        let without = named(without, &listed);
        told.retain(|used| !without.contains(used));
        assert_eq!(told, listed[name], "{name}");
    }
}

/// A row names the crates with functions, and of the laws the topmost.
#[test]
fn the_rows_of_code_have_the_crates_that_each_uses() {
    let (page, listed) = (page(), listed());
    let laws: Crates = rows(&page, "crate").into_iter().map(|(name, _)| name.to_string()).collect();
    for (name, uses) in
        ["crate with functions", "program"].iter().flat_map(|first| rows(&page, first))
    {
        let used = &listed[name];
        let deeper = below(&used.intersection(&laws).cloned().collect(), &listed);
        let wanted = used.iter().filter(|used| !laws.contains(*used) || !deeper.contains(*used));
        assert_eq!(named(uses, &listed), wanted.cloned().collect(), "{name}");
    }
}
