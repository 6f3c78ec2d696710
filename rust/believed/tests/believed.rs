//! The page, the calls and the exports agree with the sources.

use std::collections::BTreeSet;

use believed::calls::{Call, ours};
use believed::contracts::{Contract, exports, of_programs};
use believed::page::{self, BEGIN, END};
use believed::reach::reach;
use believed::specs::{Definition, Place, Specs, root, text_of};

/// The export whose contract names a call's definition in a form of its own, and that call.
const IN_A_FORM: [(&str, &str, &str); 1] =
    [("dimkhoros_entries", "flat_unless_refused", "load_entries")];

/// The call that no export hands out: its part is a slice of the caller's file, of which `locate_round` tells the place.
const NOT_EXPORTED: [&str; 1] = ["part_of_round"];

/// The export that is no call of 01 or 02.
const NO_CALL: [&str; 1] = ["dimkhoros_version"];

/// The page of the theorems.
fn theorems() -> String {
    text_of(&root().join("docs/THEOREMS.md"))
}

#[test]
fn the_page_has_the_list_that_the_sources_give() {
    let text = theorems();
    let listed = text
        .split_once(BEGIN)
        .and_then(|(_, rest)| rest.split_once(END))
        .expect("the page has a list")
        .0;
    let given = page::list(&Specs::read());
    assert!(
        listed == given,
        "run `cargo run -p believed` in rust/: docs/THEOREMS.md lacks what the sources give"
    );
}

/// The definitions that the demands reach.
fn reached(specs: &Specs) -> Vec<&Definition> {
    let sections = page::sections(specs);
    sections.iter().flat_map(|section| &section.added).map(|at| &specs.definitions[*at]).collect()
}

/// Whether a name of a file is the definition of a call.
fn is_call(calls: &[Call], place: &Place, name: &str) -> bool {
    calls.iter().any(|call| call.definition == name && call.defined == *place)
}

#[test]
fn the_demands_reach_no_definition_of_a_call() {
    let specs = Specs::read();
    let calls = ours(&specs);
    for word in reached(&specs) {
        let (place, name) = (&word.place, &word.name);
        assert!(!is_call(&calls, place, name), "the demands reach the definition of {name}");
        for (given, import) in specs.imports.get(place).into_iter().flatten() {
            let imported = is_call(&calls, &import.place, &import.name);
            assert!(!imported, "the demands reach {name}, whose file imports the call {given}");
        }
    }
}

/// The file of the rules by which a call's definition tests what it is given.
fn rules() -> Place {
    ("rules".to_string(), "Rule".to_string())
}

#[test]
fn the_demands_reach_no_rule_of_a_call() {
    for word in reached(&Specs::read()) {
        assert!(word.place != rules(), "the demands reach {}", word.name);
    }
}

#[test]
fn each_export_is_one_call_and_each_call_is_exported() {
    let calls = ours(&Specs::read());
    let mut met = BTreeSet::new();
    for export in exports().iter().filter(|export| !NO_CALL.contains(&export.name.as_str())) {
        let named = calls_named(export, &calls);
        assert_eq!(named.len(), 1, "{} is the call {named:?}", export.name);
        assert!(met.insert(named[0].clone()), "{} is exported twice", named[0]);
    }
    let left: Vec<&str> =
        calls.iter().map(|call| call.name.as_str()).filter(|name| !met.contains(*name)).collect();
    assert_eq!(left, NOT_EXPORTED);
}

/// The calls whose definitions an export's contract names, from the very file that `ours` takes them from.
fn calls_named(export: &Contract, calls: &[Call]) -> Vec<String> {
    if let Some((_, form, call)) = IN_A_FORM.iter().find(|(name, _, _)| *name == export.name) {
        assert!(export.named.contains_key(*form), "{} names {form}", export.name);
        return vec![call.to_string()];
    }
    let named = export.named.iter().filter(|(word, place)| is_call(calls, place, word));
    named.map(|(word, _)| word.clone()).collect()
}

/// The name behind which an export's parameters stand in its contract: its call's, or that of the call's own form.
fn meant_by(export: &Contract, calls: &[Call]) -> String {
    match IN_A_FORM.iter().find(|(name, _, _)| *name == export.name) {
        Some((_, form, _)) => form.to_string(),
        None => calls_named(export, calls).remove(0),
    }
}

#[test]
fn each_export_hands_its_parameters_to_its_call_in_their_order() {
    let calls = ours(&Specs::read());
    for export in exports().iter().filter(|export| !NO_CALL.contains(&export.name.as_str())) {
        let call = meant_by(export, &calls);
        let brought: Vec<&str> =
            export.parameters.iter().map(String::as_str).filter(|name| *name != "text").collect();
        let handed = export.handed(&call);
        assert!(!handed.is_empty(), "a clause of {} names {call}", export.name);
        for given in handed {
            assert_eq!(given, brought, "{} hands its parameters to {call}", export.name);
        }
    }
}

#[test]
fn each_contract_of_an_export_says_what_is_answered_and_what_stands_in_a_lent_array() {
    for export in exports() {
        let says = |left: &str| {
            let begin = ["{", left, "≡"];
            export.ensured.iter().any(|clause| clause.split_whitespace().take(3).eq(begin))
        };
        assert!(says("result"), "{} says what it answers", export.name);
        for array in &export.lent {
            let after = format!("{array}.new");
            assert!(says(&after), "{} says what stands in {array} after it", export.name);
        }
    }
}

#[test]
fn same_has_an_equation_for_each_call() {
    let specs = Specs::read();
    let place = ("demands".to_string(), "Same".to_string());
    let record = specs.find(&place, "Same").expect("the record Same is there");
    let mut parts = Vec::new();
    reach(&specs, &place, &record.lines, &mut BTreeSet::new(), &mut parts);
    let lines = parts.iter().flat_map(|at| &specs.definitions[*at].lines);
    let whole = lines.flat_map(|line| line.split(|c: char| c.is_whitespace() || "()".contains(c)));
    let taken: Vec<&str> = whole.flat_map(|word| word.split('.').skip(1)).collect();
    for call in ours(&specs) {
        let sides = taken.iter().filter(|word| **word == call.name).count();
        assert_eq!(sides, 2, "`Same` has an equation of what {} answers in both codes", call.name);
    }
}

#[test]
fn what_an_export_names_beside_its_call_is_said_by_crosses() {
    let specs = Specs::read();
    let calls = ours(&specs);
    let said = page::said_to_cross(&specs);
    for export in exports() {
        for (word, place) in export.named.iter().filter(|(w, p)| !is_call(&calls, p, w)) {
            let form = specs.definitions.iter().position(|d| d.place == *place && d.name == *word);
            let known = form.is_some_and(|at| said.contains(&at));
            assert!(known, "{} names {word}, of which `Crosses` says nothing", export.name);
        }
    }
}

#[test]
fn each_field_of_a_call_stands_for_the_definition_of_its_name() {
    let specs = Specs::read();
    let calls = ours(&specs);
    for call in &calls {
        assert_eq!(call.definition, call.name, "a field stands for the definition of its name");
        assert!(
            specs.find(&call.defined, &call.definition).is_some(),
            "{} is defined in {:?}",
            call.name,
            call.defined
        );
    }
    let told = format!("one field for each public call, {} in all", calls.len());
    assert!(theorems().contains(&told), "docs/THEOREMS.md says \"{told}\"");
}

#[test]
fn the_programs_functions_name_calls_alone() {
    let calls = ours(&Specs::read());
    for (_, function) in of_programs() {
        let name = &function.name;
        assert!(!function.named.is_empty(), "{name} names a call");
        for (word, place) in &function.named {
            let is_call = is_call(&calls, place, word);
            assert!(is_call, "the contract of {name} names {word}, which is no call");
        }
    }
}
