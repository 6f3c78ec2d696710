//! The command `patterns`, and pattern files as commands take them.

use crate::command_line::failure::{Failure, Outcome};
use crate::command_line::files::{self, Target};
use crate::command_line::words::{self, Grammar, Words};
use crate::commands::show;
use crate::sheets::{faults, notation};
use dimkhoros::{Layout, Pattern, Patterns, Refusal};
use std::ffi::{OsStr, OsString};
use std::io::Write;
use std::path::Path;

/// The command's help.
pub const HELP: &str = "\
usage: dimkhoros patterns [FILE]
       dimkhoros patterns make PATTERN... -o FILE

Shows the patterns of a pattern file. If no file is named, it shows the shipped patterns. With the word make, it makes a pattern
file of 1 to 32 patterns for `dimkhoros make --patterns FILE`.

    FILE     a pattern file. If its name is make, write ./make
    PATTERN  the name of a shipped pattern, or rows of digits with / between them. Digit 1 stands for the first public value, 2
             for the second and so on, and 0 stands for the entry 1
    -o FILE  the file to write
    --force  writes over a file that is there

Example:
    $ dimkhoros patterns make schnorr 01/12 -o own.bin
    own.bin has 17 bytes
    $ dimkhoros patterns own.bin
    own.bin is a pattern file of 17 bytes with 2 patterns.

    Pattern 1, schnorr: 1 row, 1 column, 1 value (h)
        row  x
          0  1
        x ↦ [x] = h^x mod m

    Pattern 2: 2 rows, 2 columns, 2 values
        row  x1  x2
          0   0   1
          1   1   2
        (x1, x2) ↦ [x1, x2] = (h1^x2, h1^x1 · h2^x2) mod m
    $ dimkhoros make 2 --patterns own.bin m=23 q=11 h=2,3 x=7,5 -o elgamal.bin
    9 = 2^x2 mod 23, 8 = 2^x1 · 3^x2 mod 23, q = 11, K = 11
";

const GRAMMAR: Grammar = Grammar {
    plain: &["FILE", "PATTERN..."],
    optional: 2,
    letters: &[],
    flags: &["--force"],
    options: &["-o"],
};

/// Runs the command.
pub fn run(words: Vec<OsString>, out: &mut dyn Write) -> Outcome {
    let words = Words::sort(words, &GRAMMAR)?;
    match words.plain() {
        [first, patterns @ ..] if first == "make" => make(&words, patterns, out),
        _ if words.option("-o").is_some() || words.flag("--force") => {
            Err(Failure::words("-o and --force come after the word make"))
        }
        [] => Ok(out.write_all(show::patterns::text(None, &Patterns::shipped()).as_bytes())?),
        [file] => {
            let path = Path::new(file);
            let text = show::patterns::text(Some(&files::name(path)), &load(Some(path))?);
            Ok(out.write_all(text.as_bytes())?)
        }
        [_, more, ..] => {
            let more = more.to_string_lossy();
            Err(Failure::words(format!("the word {more} is one too many")))
        }
    }
}

/// Makes a pattern file.
fn make(words: &Words, patterns: &[OsString], out: &mut dyn Write) -> Outcome {
    if patterns.is_empty() {
        return Err(Failure::words("the word PATTERN is missing"));
    }
    let target = Target::of(words)?;
    let mut file = b"PAT\x00\x01".to_vec();
    file.push(byte(patterns.len(), "patterns")?);
    for pattern in patterns {
        file.extend(written(pattern)?);
    }
    match faults::in_patterns(&file) {
        Some(fault) => Err(Failure::failed(fault.told("the file is not made", ""))),
        None => target.write(Patterns::load(&file)?.bytes(), out),
    }
}

/// The bytes of a pattern of this name or with these digits. The number of values is the largest digit.
fn written(word: &OsStr) -> Outcome<Vec<u8>> {
    let word = word.to_string_lossy();
    let named = NAMES.iter().find(|(name, _)| name.eq_ignore_ascii_case(&word));
    if let Some(layout) = named.and_then(|(_, p)| Patterns::shipped().layout(p.number()).map(bytes))
    {
        return Ok(layout);
    }
    let digit = |character: char| character.to_digit(10).map(|digit| digit as u8);
    let row = |row: &str| row.chars().map(digit).collect::<Option<Vec<u8>>>();
    let rows: Option<Vec<Vec<u8>>> = word.split('/').map(row).collect();
    let rows = rows.ok_or_else(|| {
        Failure::words(format!(
            "{word} is neither rows of digits, such as 01/12, nor the name of a shipped pattern, such as schnorr"
        ))
    })?;
    let columns = rows[0].len();
    if rows.iter().any(|row| row.len() != columns) {
        return Err(Failure::words(format!("{word} has rows of different lengths")));
    }
    let values = rows.iter().flatten().copied().max().unwrap_or(0);
    let mut bytes = vec![byte(rows.len(), "rows")?, byte(columns, "columns")?, values];
    bytes.extend(rows.concat());
    Ok(bytes)
}

/// The bytes of a pattern.
fn bytes(layout: Layout<'_>) -> Vec<u8> {
    let mut bytes = [layout.rows, layout.columns, layout.values].map(|size| size as u8).to_vec();
    bytes.extend(layout.digits);
    bytes
}

/// A count that is stored in a byte.
fn byte(count: usize, things: &str) -> Outcome<u8> {
    u8::try_from(count).map_err(|_| Failure::words(format!("{count} {things} are too many")))
}

/// The names of the shipped patterns, and of root sheets.
pub const NAMES: [(&str, Pattern); 6] = [
    ("root", Pattern::Root),
    ("schnorr", Pattern::Schnorr),
    ("okamoto", Pattern::Okamoto),
    ("equality", Pattern::Equality),
    ("diffie-hellman", Pattern::DiffieHellman),
    ("product", Pattern::Product),
];

/// What the public values of a shipped pattern are called.
pub fn value_names(pattern: Pattern) -> &'static [&'static str] {
    match pattern {
        Pattern::Root => &[],
        Pattern::Schnorr => &["h"],
        Pattern::Okamoto | Pattern::Equality => &["h1", "h2"],
        Pattern::DiffieHellman => &["h", "B"],
        Pattern::Product => &["g", "h", "B"],
    }
}

/// The number of a pattern, which is given by its number, or by its name in the shipped file. A root sheet has its name with
/// every file.
pub fn number(word: &str, shipped: bool) -> Outcome<u32> {
    if let Ok(number) = word.parse() {
        return Ok(number);
    }
    let named = NAMES.iter().find(|(name, pattern)| {
        name.eq_ignore_ascii_case(word) && (shipped || *pattern == Pattern::Root)
    });
    let named = named.map(|(_, pattern)| pattern.number());
    named.ok_or_else(|| no_pattern(word, shipped))
}

/// Says that a pattern's name is none. The patterns of a file of one's own have numbers alone.
fn no_pattern(word: &str, shipped: bool) -> Failure {
    let names = NAMES.map(|(name, _)| name);
    Failure::words(if shipped {
        let meant = words::meant(&word.to_lowercase(), names.into_iter().chain(["linear"]));
        let all = format!("; write linear, {}", notation::enumerated(&names, "or"));
        format!("there is no pattern {word}{}", if meant.is_empty() { all } else { meant })
    } else {
        format!("there is no pattern {word}; the patterns of a file are named by their numbers")
    })
}

/// The patterns in a file, or the shipped ones.
pub fn load(path: Option<&Path>) -> Outcome<Patterns> {
    match path {
        Some(path) => of_bytes(path, &files::read(path)?),
        None => Ok(Patterns::shipped()),
    }
}

/// The patterns in these bytes, which were read from a path. Bad ones fail with what is wrong and where.
pub fn of_bytes(path: &Path, bytes: &[u8]) -> Outcome<Patterns> {
    let fault = |refusal: Refusal| {
        let (name, instead) = (files::name(path), faults::instead(bytes, b"PAT"));
        match faults::in_patterns(bytes) {
            Some(fault) => Failure::failed(fault.told(&name, instead)),
            None => Failure::cause(refusal, format!("{name} is not a pattern file{instead}")),
        }
    };
    Patterns::load(bytes).map_err(fault)
}
