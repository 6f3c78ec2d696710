//! The definitions of the crates' `specs` folders and the structs and enums of their sources, with what each file imports.

use std::collections::BTreeMap;
use std::fs;
use std::path::{Path, PathBuf};

/// A file's place: its crate, and its module below `specs`. A struct of the sources stands in `declared.NAME`.
pub type Place = (String, String);

/// A definition.
pub struct Definition {
    /// The file that it stands in.
    pub place: Place,
    /// Its name.
    pub name: String,
    /// Its lines, without comments, blank lines and imports.
    pub lines: Vec<String>,
}

/// Where an imported name comes from.
pub struct Import {
    /// The file that has its definition.
    pub place: Place,
    /// Its name there.
    pub name: String,
}

/// The definitions and the imports of all crates.
pub struct Specs {
    /// All definitions.
    pub definitions: Vec<Definition>,
    /// The imports of each file by the name that it gives them.
    pub imports: BTreeMap<Place, BTreeMap<String, Import>>,
}

/// The repository's root.
pub fn root() -> PathBuf {
    Path::new(env!("CARGO_MANIFEST_DIR")).join("../..")
}

/// Reads a file of the repository.
pub fn text_of(path: &Path) -> String {
    fs::read_to_string(path).unwrap_or_else(|error| panic!("{}: {error}", path.display()))
}

/// The files of a folder with an ending, in the order of their names; none if there is no such folder.
pub fn files_in(folder: &Path, ending: &str) -> Vec<PathBuf> {
    let mut found: Vec<PathBuf> = fs::read_dir(folder)
        .into_iter()
        .flatten()
        .map(|entry| entry.expect("a folder's entry is read").path())
        .filter(|path| path.extension().is_some_and(|e| e == ending))
        .collect();
    found.sort();
    found
}

/// The name of a file without its ending.
pub fn stem(path: &Path) -> String {
    path.file_stem().expect("a file has a name").to_string_lossy().into_owned()
}

/// The names of the crates, in order.
pub fn crates() -> Vec<String> {
    let mut names: Vec<String> = fs::read_dir(root().join("crates"))
        .expect("the folder of the crates is read")
        .map(|entry| {
            entry.expect("a folder's entry is read").file_name().to_string_lossy().into_owned()
        })
        .collect();
    names.sort();
    names
}

impl Specs {
    /// Reads the definitions of all crates.
    pub fn read() -> Specs {
        let mut specs = Specs { definitions: Vec::new(), imports: BTreeMap::new() };
        for name in crates() {
            let folder = root().join("crates").join(&name);
            for path in files_in(&folder.join("specs"), "antt") {
                specs.add_file((name.clone(), stem(&path)), &text_of(&path));
            }
            for path in files_in(&folder.join("src"), "rt") {
                specs.add_structs(&name, &text_of(&path));
            }
        }
        specs
    }

    /// The definition of a name in a file.
    pub fn find(&self, place: &Place, name: &str) -> Option<&Definition> {
        self.definitions.iter().find(|d| d.place == *place && d.name == name)
    }

    fn add_file(&mut self, place: Place, text: &str) {
        self.imports.insert(place.clone(), imports_of(text));
        let mut record = None;
        for line in definition_lines(text) {
            let depth = line.len() - line.trim_start().len();
            if record.is_some_and(|at| depth <= at) {
                record = None;
            }
            if let Some(name) = name_defined(line.trim_start(), record.is_some()) {
                if line.trim_start().starts_with("pub record") {
                    record = Some(depth);
                }
                self.definitions.push(Definition { place: place.clone(), name, lines: Vec::new() });
            }
            if let Some(last) = self.definitions.last_mut().filter(|d| d.place == place) {
                last.lines.push(line.to_string());
            }
        }
    }

    fn add_structs(&mut self, crate_name: &str, text: &str) {
        let mut open = false;
        for line in text.lines().filter(|line| !line.trim_start().starts_with("//")) {
            let declared =
                line.strip_prefix("pub struct ").or_else(|| line.strip_prefix("pub enum "));
            if let Some(name) = declared.and_then(|rest| rest.split_whitespace().next()) {
                let place = (crate_name.to_string(), format!("declared.{name}"));
                self.definitions.push(Definition {
                    place,
                    name: name.to_string(),
                    lines: Vec::new(),
                });
                open = true;
            }
            if open {
                self.definitions.last_mut().expect("one was added").lines.push(line.to_string());
                open = !line.ends_with('}');
            }
        }
    }
}

/// The lines of a file that stand in definitions.
fn definition_lines(text: &str) -> Vec<&str> {
    let mut inside = false;
    text.lines()
        .filter(|line| {
            let start = line.trim_start();
            if inside || (start.starts_with("use ") && start.contains('{') && !start.contains('}'))
            {
                inside = !start.contains('}');
                return false;
            }
            let other = ["--", "use ", "pub mod", "infix", "module ", "open ", "unfolding "];
            !start.is_empty() && !other.iter().any(|word| start.starts_with(word))
        })
        .collect()
}

/// The name that a line begins to define, if it does: a field of a record is none.
fn name_defined(line: &str, in_record: bool) -> Option<String> {
    let marked = line.strip_prefix("unfoldable ").or_else(|| line.strip_prefix("abbrev "));
    let rest = marked.unwrap_or(line).strip_prefix("pub ")?;
    let typed = rest.strip_prefix("record ").or_else(|| rest.strip_prefix("data "));
    if in_record && marked.is_none() && typed.is_none() {
        return None;
    }
    let name = typed.unwrap_or(rest);
    Some(name.split(|c: char| c.is_whitespace() || ":({".contains(c)).next()?.to_string())
}

/// What a file imports from the crates' definitions.
fn imports_of(text: &str) -> BTreeMap<String, Import> {
    let joined = text.replace('\n', " ");
    let mut found = BTreeMap::new();
    for part in joined.split("use Rattle.").skip(1) {
        let Some((path, rest)) = part.split_once(".{") else { continue };
        let Some((crate_name, module)) = path.split_once(".specs.") else { continue };
        let module = module.strip_suffix(".TheVariants").unwrap_or(module);
        let names = rest.split('}').next().unwrap_or("");
        for item in names.split(',').map(str::trim).filter(|item| !item.is_empty()) {
            let (name, given) = item.split_once(" as ").unwrap_or((item, item));
            let place = (crate_name.to_string(), module.to_string());
            found.insert(given.trim().to_string(), Import { place, name: name.trim().to_string() });
        }
    }
    found
}
