//! The list of docs/THEOREMS.md: for each field of `Demands` the definitions that it reaches and no field before it does.

use std::collections::BTreeSet;
use std::fmt::Write;

use crate::contracts::of_programs;
use crate::reach::{meant, reach, words};
use crate::specs::{Definition, Place, Specs};

/// The line of the page after which the list stands.
pub const BEGIN: &str = "<!-- believed: begin -->\n";
/// The line of the page before which the list stands.
pub const END: &str = "<!-- believed: end -->\n";

/// The file of the record `Demands`.
pub fn demands() -> Place {
    ("demands".to_string(), "Demands".to_string())
}

/// The records whose fields have rows of their own.
const PARTED: [&str; 2] = ["Refusals", "Cards"];

/// A field of the record and what it adds.
pub struct Section {
    /// The field's name.
    pub field: String,
    /// The definitions that it adds, as indices in the order of reading.
    pub added: Vec<usize>,
}

/// What is listed, and what of it the fields before have reached.
struct Listing<'a> {
    specs: &'a Specs,
    seen: BTreeSet<usize>,
    sections: Vec<Section>,
}

impl Listing<'_> {
    /// Adds the fields of a record, each under a name that begins with `prefix`.
    fn add_record(&mut self, at: usize, prefix: &str) {
        let specs = self.specs;
        let record = &specs.definitions[at];
        self.seen.insert(at);
        for (field, lines) in fields(&record.lines) {
            let name = format!("{prefix}{field}");
            let parted = PARTED
                .iter()
                .find(|parted| lines.iter().any(|line| words(line).any(|word| word == **parted)));
            let part =
                parted.and_then(|parted| specs.definitions.iter().position(|d| d.name == **parted));
            match part.filter(|part| !self.seen.contains(part)) {
                Some(part) => {
                    self.sections.push(Section { field: name.clone(), added: vec![part] });
                    self.add_record(part, &format!("{name}: "));
                }
                None => {
                    let mut added = Vec::new();
                    reach(specs, &record.place, &lines, &mut self.seen, &mut added);
                    self.sections
                        .extend((!added.is_empty()).then_some(Section { field: name, added }));
                }
            }
        }
    }
}

/// The fields of `Demands` in order, and what each adds.
pub fn sections(specs: &Specs) -> Vec<Section> {
    let is_root = |d: &Definition| d.place == demands() && d.name == "Demands";
    let at = specs.definitions.iter().position(is_root).expect("the record Demands is there");
    let mut listing = Listing { specs, seen: BTreeSet::new(), sections: Vec::new() };
    listing.add_record(at, "");
    listing.sections
}

/// A record's fields, each with its lines; what stands before the first is the row `code`, the calls that it is said of.
fn fields(lines: &[String]) -> Vec<(String, Vec<String>)> {
    let mut found = vec![("code".to_string(), Vec::new())];
    for line in lines {
        let name =
            line.trim_start().strip_prefix("pub ").filter(|rest| !rest.starts_with("record "));
        if let Some(name) = name.and_then(|rest| rest.split_whitespace().next()) {
            found.push((name.to_string(), Vec::new()));
        }
        found.last_mut().expect("one is there").1.push(line.clone());
    }
    found
}

/// The record of the forms in which structs cross to other languages, and the records that it is made of. A form itself is not
/// listed: these records say of each of its fields what it is.
pub fn crossing(specs: &Specs) -> Vec<usize> {
    let place = ("dimkhoros".to_string(), "Crosses".to_string());
    let root = specs.definitions.iter().position(|d| d.place == place && d.name == "Crosses");
    let mut found = vec![root.expect("the record Crosses is there")];
    let mut next = 0;
    while next < found.len() {
        let definition = &specs.definitions[found[next]];
        for word in definition.lines.iter().flat_map(|line| words(line)) {
            let reached =
                meant(specs, &definition.place, word).filter(|at| is_type(&specs.definitions[*at]));
            found.extend(reached.filter(|at| !found.contains(at)));
        }
        next += 1;
    }
    found
}

/// What the record of the forms and those that it is made of speak of: each form among them.
pub fn said_to_cross(specs: &Specs) -> BTreeSet<usize> {
    let records = crossing(specs).into_iter().map(|at| &specs.definitions[at]);
    let named = records
        .flat_map(|d| d.lines.iter().flat_map(|line| words(line)).map(|word| (&d.place, word)));
    named.filter_map(|(place, word)| meant(specs, place, word)).collect()
}

/// Whether a definition is a record, a struct or an enum.
fn is_type(definition: &Definition) -> bool {
    ["pub record", "pub struct", "pub enum"]
        .iter()
        .any(|begin| definition.lines[0].trim_start().starts_with(begin))
}

/// The list as it stands on the page.
pub fn list(specs: &Specs) -> String {
    let sections = sections(specs);
    let lines =
        |added: &[usize]| added.iter().map(|&at| specs.definitions[at].lines.len()).sum::<usize>();
    let all: Vec<usize> = sections.iter().flat_map(|s| s.added.clone()).collect();
    let record =
        specs.find(&demands(), "Demands").expect("the record Demands is there").lines.len();
    let forms: Vec<usize> = crossing(specs).into_iter().filter(|at| !all.contains(at)).collect();
    let programs = of_programs();
    let contracts: usize = programs.iter().map(|(_, function)| function.lines).sum();
    let mut text = format!(
        "`Demands` reaches {} lines in {} definitions, `Crosses` has {} lines in {}, and the contracts of the programs' functions have \
         {}, without blank lines, comments and imports.\n\n",
        lines(&all) + record,
        all.len() + 1,
        lines(&forms),
        forms.len(),
        contracts
    );
    text += "| field | lines | what it adds, below `crates/` |\n|---|---|---|\n";
    for section in &sections {
        let added = &section.added;
        writeln!(text, "| `{}` | {} | {} |", section.field, lines(added), by_file(specs, added))
            .expect("text grows");
    }
    writeln!(text, "| `Crosses` | {} | {} |", lines(&forms), by_file(specs, &forms))
        .expect("text grows");
    let named: Vec<String> = programs
        .iter()
        .map(|(crate_name, function)| format!("{crate_name}/src: `{}`", function.name))
        .collect();
    writeln!(text, "| the programs | {contracts} | {} |", named.join("; ")).expect("text grows");
    text
}

/// The names of definitions, those of one file together, in the order in which the files are first met.
fn by_file(specs: &Specs, added: &[usize]) -> String {
    let mut files: Vec<(String, Vec<&str>)> = Vec::new();
    for definition in added.iter().map(|&at| &specs.definitions[at]) {
        let (crate_name, module) = &definition.place;
        let file = if module.starts_with("declared.") {
            format!("{crate_name}/src")
        } else {
            format!("{crate_name}/specs/{module}")
        };
        match files.iter_mut().find(|(known, _)| *known == file) {
            Some((_, names)) => names.push(&definition.name),
            None => files.push((file, vec![&definition.name])),
        }
    }
    let told = files.iter().map(|(file, names)| format!("{file}: `{}`", names.join("`, `")));
    told.collect::<Vec<_>>().join("; ")
}
