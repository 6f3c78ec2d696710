//! The tables of docs/promises that name functions beside the definitions of their contracts agree with each other and with the
//! sources, and the page of the theorems has the fields of the demands.

use std::collections::{BTreeMap, BTreeSet};

use believed::calls::{Call, ours};
use believed::contracts::{Contract, exports, public_in};
use believed::page::sections;
use believed::specs::{Specs, files_in, root, stem, text_of};

/// A row of a table: the page, the words in code font of the column that names functions, and those of the column `equation with`.
struct Row {
    page: String,
    functions: Vec<String>,
    definitions: Vec<String>,
}

/// The words of a cell in code font.
fn code(cell: &str) -> Vec<String> {
    cell.split('`').skip(1).step_by(2).map(str::to_string).collect()
}

/// The cells of a line of a table.
fn cells(line: &str) -> Vec<&str> {
    line.trim().trim_matches('|').split('|').map(str::trim).collect()
}

/// The rows of the tables of a page that have a column of this name and a column `equation with`.
fn rows_in(page: &str, text: &str, column: &str) -> Vec<Row> {
    let (mut found, mut columns) = (Vec::new(), None);
    for line in text.lines() {
        if !line.starts_with('|') {
            columns = None;
            continue;
        }
        let cells = cells(line);
        let place = |name: &str| cells.iter().position(|cell| *cell == name);
        match columns {
            None => columns = Some((place(column), place("equation with"))),
            Some((Some(function), Some(equation))) => found.push(Row {
                page: page.to_string(),
                functions: code(cells[function]),
                definitions: code(cells[equation]),
            }),
            Some(_) => {}
        }
    }
    found
}

/// Such rows of all pages.
fn rows(column: &str) -> Vec<Row> {
    let pages = files_in(&root().join("docs/promises"), "md");
    pages.iter().flat_map(|page| rows_in(&stem(page), &text_of(page), column)).collect()
}

/// The definition of a call that stands first in each row on one function, with the function and the page.
fn told(rows: &[Row], calls: &[Call]) -> Vec<(String, String, String)> {
    let of_one = rows.iter().filter(|row| row.functions.len() == 1);
    let first = of_one.filter_map(|row| Some((row, row.definitions.first()?)));
    let calls = first.filter(|(_, first)| calls.iter().any(|call| call.definition == **first));
    calls.map(|(row, first)| (row.functions[0].clone(), first.clone(), row.page.clone())).collect()
}

/// The public function of this path, such as `protocol::judge`.
fn function(path: &str) -> Option<Contract> {
    let (crate_name, rest) = path.split_once("::")?;
    let name = rest.rsplit("::").next()?;
    public_in(crate_name).into_iter().find(|function| function.name == name)
}

#[test]
fn the_pages_give_each_function_one_definition() {
    let rows = rows("function");
    let told = told(&rows, &ours(&Specs::read()));
    assert!(told.len() > 40, "{} rows on calls", told.len());
    let mut first = BTreeMap::new();
    for (function, definition, page) in &told {
        let (known, on) = first.entry(function).or_insert((definition, page));
        assert_eq!(definition, *known, "{function} on the pages {page} and {on}");
    }
}

#[test]
fn the_page_of_the_contracts_has_a_row_for_each_call() {
    let rows = rows("function");
    let rows = rows.iter().filter(|row| row.page == "contracts" && row.functions.len() == 1);
    let mut told: Vec<&str> =
        rows.filter_map(|row| Some(row.definitions.first()?.as_str())).collect();
    let calls = ours(&Specs::read());
    let mut calls: Vec<&str> = calls.iter().map(|call| call.definition.as_str()).collect();
    told.sort_unstable();
    calls.sort_unstable();
    assert_eq!(told, calls);
}

#[test]
fn the_contract_of_each_function_on_the_pages_names_its_definition() {
    for (path, definition, page) in told(&rows("function"), &ours(&Specs::read())) {
        let Some(function) = function(&path) else {
            assert!(!path.contains("::"), "{page} names {path}, which is no public function");
            continue;
        };
        assert!(function.named.contains_key(&definition), "{page}: {path} and {definition}");
    }
}

#[test]
fn the_page_of_the_exports_names_the_call_of_each() {
    let calls = ours(&Specs::read());
    let exports = exports();
    let rows = rows("export");
    let told =
        rows.iter().flat_map(|row| &row.functions).filter(|name| name.starts_with("dimkhoros_"));
    let told: BTreeSet<&String> = told.collect();
    assert_eq!(told, exports.iter().map(|export| &export.name).collect());
    for row in &rows {
        for name in row.functions.iter().filter(|name| name.starts_with("dimkhoros_")) {
            let export = exports.iter().find(|export| export.name == *name);
            let export = export.unwrap_or_else(|| panic!("{name} is exported"));
            let of_call = |word: &String| calls.iter().any(|call| call.definition == *word);
            let lost =
                export.named.keys().find(|word| of_call(word) && !row.definitions.contains(word));
            assert_eq!(lost, None, "a call of {name} that its row does not name");
        }
    }
}

/// The words in code font of a column of the rows that begin so, in the part on the demands of the page of the theorems.
fn told_of_demands(begin: &str, column: usize) -> Vec<String> {
    let page = text_of(&root().join("docs/THEOREMS.md"));
    let part = page.split("\n## The demands\n").nth(1).and_then(|part| part.split("\n## ").next());
    let part = part.expect("the part on the demands");
    let rows = part.lines().filter(|line| line.starts_with(begin));
    rows.flat_map(|row| code(cells(row)[column])).collect()
}

#[test]
fn the_page_of_the_theorems_has_each_field_of_the_demands_and_of_the_cards() {
    let fields: Vec<String> =
        sections(&Specs::read()).into_iter().map(|section| section.field).collect();
    let whole = |field: &&String| *field != "code" && !field.contains(": ");
    let wholes: Vec<&String> = fields.iter().filter(whole).collect();
    assert_eq!(told_of_demands("| `", 0).iter().collect::<Vec<_>>(), wholes);
    let cards: Vec<&str> =
        fields.iter().filter_map(|field| field.strip_prefix("cards: ")).collect();
    assert!(cards.len() > 10, "{} fields of the cards", cards.len());
    assert_eq!(told_of_demands("| [", 1), cards);
}
