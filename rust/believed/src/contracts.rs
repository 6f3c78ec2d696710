//! The contracts of functions: those that the library exports, and those that the programs call.

use std::collections::BTreeMap;

use crate::reach::words;
use crate::specs::{Place, crates, files_in, root, text_of};

/// The functions over whole files that the programs call, with the crates that have them.
const OF_PROGRAMS: [(&str, &str); 3] =
    [("report", "mark_files"), ("diagnosis", "reason_files"), ("game_lines", "game_files")];

/// The kit's own library, whose words are no definitions of ours.
const LIBRARY: &str = "std";

/// A function with a contract.
pub struct Contract {
    /// The function's name.
    pub name: String,
    /// Its parameters.
    pub parameters: Vec<String>,
    /// Those of them that are lent to be changed.
    pub lent: Vec<String>,
    /// What the contract ensures, clause by clause, each from its bracket on.
    pub ensured: Vec<String>,
    /// How many lines the contract has.
    pub lines: usize,
    /// The contract's words that the source imports, each with the file that it comes from.
    pub named: BTreeMap<String, Place>,
}

impl Contract {
    /// The parameters that the clauses hand to a definition, for each clause that names it: those that stand after its name.
    pub fn handed(&self, definition: &str) -> Vec<Vec<&str>> {
        let is_parameter = |word: &&str| self.parameters.iter().any(|parameter| parameter == word);
        let after = |clause| words(clause).skip_while(|word| *word != definition).skip(1);
        let naming =
            self.ensured.iter().filter(|clause| words(clause).any(|word| word == definition));
        naming.map(|clause| after(clause).filter(is_parameter).collect()).collect()
    }
}

/// The functions that other languages can call, of all crates.
pub fn exports() -> Vec<Contract> {
    crates().iter().flat_map(|name| contracts_in(name, "\n#[unsafe(no_mangle)]\n")).collect()
}

/// The public functions of a crate.
pub fn public_in(crate_name: &str) -> Vec<Contract> {
    contracts_in(crate_name, "\npub fn ")
}

/// The functions over whole files that the programs call, each with its crate.
pub fn of_programs() -> Vec<(&'static str, Contract)> {
    let found = OF_PROGRAMS.into_iter().map(|(crate_name, name)| {
        let mut public = public_in(crate_name).into_iter();
        (crate_name, public.find(|function| function.name == name))
    });
    found
        .map(|(name, function)| (name, function.expect("the program's function is there")))
        .collect()
}

/// The functions of a crate's sources that begin with a mark.
fn contracts_in(crate_name: &str, mark: &str) -> Vec<Contract> {
    let files = files_in(&root().join("crates").join(crate_name).join("src"), "rt");
    let texts: Vec<String> = files.iter().map(|path| text_of(path)).collect();
    texts.iter().flat_map(|text| contracts_of(text, mark)).collect()
}

fn contracts_of(text: &str, mark: &str) -> Vec<Contract> {
    let imports = ghost_imports(text);
    text.split(mark).skip(1).map(|function| contract_of(function, &imports)).collect()
}

/// The contract of a function whose text begins with its name, or with the words before `fn`.
fn contract_of(function: &str, imports: &BTreeMap<String, Place>) -> Contract {
    let head = function.split("\n{").next().expect("a function has a head");
    let begin = head.split('(').next().expect("a function has a name");
    let named_so = begin.split('<').next().expect("a function has a name");
    let name = named_so.rsplit(' ').next().expect("a function has a name");
    let clauses =
        head.find("\n    requires").or(head.find("\n    ensures")).map_or("", |at| &head[at..]);
    let said = [claims_of(clauses, "\n    requires"), claims_of(clauses, "\n    ensures")].concat();
    let parts = said
        .iter()
        .flat_map(|claim| claim.split(|c: char| c.is_whitespace() || "(){}.,;[]".contains(c)));
    let named = parts.filter_map(|word| Some((word.to_string(), imports.get(word)?.clone())));
    Contract {
        name: name.to_string(),
        parameters: parameters_of(&head[begin.len()..], ""),
        lent: parameters_of(&head[begin.len()..], "&mut "),
        ensured: claims_of(clauses, "\n    ensures"),
        lines: clauses.lines().filter(|line| !line.trim().is_empty()).count(),
        named: named.collect(),
    }
}

/// What the clauses claim that begin so: each without its name, which stands before the bracket.
fn claims_of(clauses: &str, begin: &str) -> Vec<String> {
    let mut found = Vec::new();
    for clause in clauses.split(begin).skip(1) {
        let own = clause.split("\n    requires").next().unwrap_or(clause);
        let own = own.split("\n    ensures").next().unwrap_or(own);
        let at = own.find('{').expect("a clause has a bracket");
        found.push(own[at..].to_string());
    }
    found
}

/// The names of the parameters in a head's brackets whose types begin so.
fn parameters_of(brackets: &str, begin: &str) -> Vec<String> {
    let list = brackets[1..].split(')').next().expect("a head has brackets");
    let pairs = list.split(',').filter_map(|part| part.split_once(": "));
    let such = pairs.filter(|(_, kind)| kind.starts_with(begin));
    such.map(|(name, _)| name.trim().to_string()).collect()
}

/// What a source imports for its contracts from the crates' definitions.
fn ghost_imports(text: &str) -> BTreeMap<String, Place> {
    let joined = text.replace('\n', " ");
    let mut found = BTreeMap::new();
    for part in joined.split("ghost use Rattle.").skip(1) {
        let Some((path, rest)) = part.split_once(".{") else { continue };
        let Some((crate_name, module)) = path.split_once(".specs.") else { continue };
        if crate_name == LIBRARY {
            continue;
        }
        for name in rest.split('}').next().unwrap_or("").split(',').map(str::trim) {
            found.insert(name.to_string(), (crate_name.to_string(), module.to_string()));
        }
    }
    found
}
