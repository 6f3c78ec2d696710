//! The headers are free of warnings, and each answer that has to be looked at is warned of where it is not: under every compiler of
//! a list that this machine has, and every standard that it knows.

use crate::cc;

use std::collections::BTreeSet;
use std::fmt::Write as _;
use std::fs;
use std::io::{self, Write as _};
use std::process::Command;

/// A language with the compilers to try and the standards of the header, each under its names.
struct Language {
    name: &'static str,
    compilers: [&'static str; 3],
    standards: &'static [&'static [&'static str]],
}

const LANGUAGES: [Language; 2] = [
    Language {
        name: "c",
        compilers: ["gcc", "clang", "cc"],
        standards: &[&["c99"], &["c11"], &["c17"], &["c23", "c2x"]],
    },
    Language {
        name: "c++",
        compilers: ["g++", "clang++", "cc"],
        standards: &[&["c++11"], &["c++14"], &["c++17"], &["c++20"], &["c++23", "c++2b"]],
    },
];

/// The headers, each with the file that has its calls.
const HEADERS: [(&str, &str); 2] =
    [("dimkhoros.h", "answers.c"), ("dimkhoros_box.h", "box_answers.c")];

/// A compiler with a language and a standard.
struct Dialect {
    compiler: &'static str,
    language: &'static str,
    standard: &'static str,
}

impl Dialect {
    /// The command that compiles a file, with the object file under a name of its own.
    fn command(&self, purpose: &str, file: &str) -> Command {
        let object = format!("{purpose}-{file}-{}-{}.o", self.compiler, self.standard);
        let mut command = Command::new(self.compiler);
        command.env("LC_ALL", "C");
        command.arg(format!("-std={}", self.standard)).args(["-x", self.language, "-c"]);
        command.arg(cc::source(file)).arg("-I").arg(cc::root().join("include"));
        command.arg("-o").arg(cc::scratch(&object));
        command
    }

    /// Whether the compiler knows the standard.
    fn is_known(&self) -> bool {
        let standard = format!("-std={}", self.standard);
        let mut command = Command::new(self.compiler);
        command.args([&standard, "-x", self.language, "-E", "/dev/null"]);
        command.output().unwrap().status.success()
    }
}

/// What a compiler says of itself behind its name, if there is one: two names of one compiler say the same.
fn identity(compiler: &str) -> Option<String> {
    let output = Command::new(compiler).arg("--version").output().ok()?;
    let text = String::from_utf8_lossy(&output.stdout).into_owned();
    text.split_once(' ').map(|(_, rest)| rest.to_string())
}

/// The dialects of a language that a compiler knows.
fn known(compiler: &'static str, language: &Language) -> Vec<Dialect> {
    let dialect = |standard: &&'static str| Dialect { compiler, language: language.name, standard };
    let known = |names: &&[&'static str]| names.iter().map(dialect).find(Dialect::is_known);
    language.standards.iter().filter_map(known).collect()
}

/// Every dialect that this machine has, of one compiler under several names once. All are named on standard error, which the
/// test harness does not hide, and so is a compiler that is missing.
fn dialects() -> Vec<Dialect> {
    let mut found = Vec::new();
    let mut text = String::from("compilers tried:");
    for language in &LANGUAGES {
        let mut seen = BTreeSet::new();
        for compiler in language.compilers {
            let identity = identity(compiler);
            let missing = identity.is_none();
            let again = !missing && !seen.insert(identity);
            let dialects = if missing || again { Vec::new() } else { known(compiler, language) };
            let names: Vec<&str> = dialects.iter().map(|dialect| dialect.standard).collect();
            let note = match (missing, again) {
                (true, _) => "missing".to_string(),
                (_, true) => "one of these".to_string(),
                _ => names.join(" "),
            };
            write!(text, " {compiler} ({note})").unwrap();
            found.extend(dialects);
        }
    }
    io::stderr().write_all((text + "\n").as_bytes()).unwrap();
    found
}

/// The lines of a file, from 1, that throw an answer away, and the names of the calls there.
fn wrong_lines(file: &str) -> (BTreeSet<usize>, BTreeSet<String>) {
    let text = fs::read_to_string(cc::source(file)).unwrap();
    let lines = (1..).zip(text.lines());
    let calls = lines.filter_map(|(number, line)| Some((number, line.split("LOOK(dimk").nth(1)?)));
    calls.map(|(number, rest)| (number, format!("dimk{}", rest.split('(').next().unwrap()))).unzip()
}

/// The lines of a file at which a compiler warned, all of them of an answer that is thrown away.
fn warned_lines(dialect: &Dialect, file: &str) -> BTreeSet<usize> {
    let output = dialect.command("wrong", file).arg("-DWRONG").output().unwrap();
    let text = String::from_utf8_lossy(&output.stderr);
    let mut lines = BTreeSet::new();
    for warning in text.lines().filter(|line| line.contains("warning:")) {
        assert!(warning.contains("[-Wunused-result]"), "another warning: {warning}");
        let place = warning.split("answers.c:").nth(1).expect("the warning is on the file");
        lines.insert(place.split(':').next().unwrap().parse().unwrap());
    }
    lines
}

#[test]
fn every_call_that_has_to_be_looked_at_stands_in_the_file() {
    for (header, file) in HEADERS {
        let header = fs::read_to_string(cc::root().join("include").join(header)).unwrap();
        let declarations = header.split("\nDIMKHOROS_CHECKED\n").skip(1);
        let name = |text: &str| {
            text.split('(').next().unwrap().split(' ').next_back().unwrap().to_string()
        };
        let checked: BTreeSet<String> = declarations.map(name).collect();
        assert_eq!(wrong_lines(file).1, checked);
    }
}

#[test]
fn the_headers_are_free_of_warnings_and_wrong_uses_are_warned_of() {
    let dialects = dialects();
    for oldest in ["c99", "c++11"] {
        let tried = dialects.iter().any(|dialect| dialect.standard == oldest);
        assert!(tried, "no compiler knows {oldest}");
    }
    for (dialect, (_, file)) in dialects.iter().flat_map(|dialect| HEADERS.map(|it| (dialect, it)))
    {
        let mut clean = dialect.command("clean", file);
        clean.args(cc::STRICT);
        if dialect.language == "c++" {
            clean.arg("-Wold-style-cast");
        }
        cc::succeed(&mut clean);
        // No option asks for these warnings.
        let (wrong, _) = wrong_lines(file);
        let warned = warned_lines(dialect, file);
        assert_eq!(warned, wrong, "{file} {} {}", dialect.compiler, dialect.standard);
    }
}
