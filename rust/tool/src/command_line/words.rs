//! The words of a command: names of files, values by their letters such as `c=3` or `x=1,2`, and options.

mod hints;

pub use hints::{deed, meant, twice};

use crate::command_line::failure::{Failure, Outcome};
use std::ffi::{OsStr, OsString};
use std::os::unix::ffi::OsStrExt;
use std::path::PathBuf;

/// What words a command takes.
pub struct Grammar {
    /// What the plain words are, in their order, as the help calls them.
    pub plain: &'static [&'static str],
    /// How many of them can be left out, from the last on. Where the last one ends in `...` it may come often.
    pub optional: usize,
    /// The letters of values.
    pub letters: &'static [&'static str],
    /// Options that stand alone.
    pub flags: &'static [&'static str],
    /// Options that take the next word.
    pub options: &'static [&'static str],
}

/// Numbers under a letter, as in `x=1,2`, or in rows, as in `table=1,2/2,3`.
#[derive(Clone, Debug, PartialEq)]
pub struct Value {
    /// The letter.
    pub letter: &'static str,
    /// The numbers, row by row. There is at least one row, and at least one number in each.
    pub rows: Vec<Vec<u32>>,
}

/// The letters behind which a formula stands, which the command itself reads.
const FORMULAS: [&str; 1] = ["row"];

/// The words of a command, sorted.
#[derive(Debug, Default)]
pub struct Words {
    plain: Vec<OsString>,
    values: Vec<Value>,
    formulas: Vec<(&'static str, String)>,
    flags: Vec<&'static str>,
    options: Vec<(&'static str, OsString)>,
}

impl Words {
    /// Sorts words, of which those behind `--` are plain.
    pub fn sort(words: Vec<OsString>, grammar: &Grammar) -> Outcome<Words> {
        let mut sorted = Words::default();
        let mut words = words.into_iter();
        while let Some(word) = words.next() {
            if word == "--" {
                sorted.plain.extend(words);
                break;
            }
            sorted.take(word, &mut words, grammar)?;
        }
        sorted.check_plain(grammar)?;
        Ok(sorted)
    }

    /// Takes a word, and the next one where it is an option that needs it.
    fn take(
        &mut self,
        word: OsString,
        rest: &mut impl Iterator<Item = OsString>,
        grammar: &Grammar,
    ) -> Outcome {
        let text = word.to_string_lossy().into_owned();
        if let Some((option, value)) = option_of(&word, grammar) {
            let value = value.or_else(|| rest.next()).filter(|value| !value.is_empty());
            let value = value.ok_or(Failure::words(format!("a word is missing after {option}")))?;
            hints::check_value(option, &value, grammar)?;
            if self.option(option).is_some() {
                return Err(twice(option));
            }
            self.options.push((option, value));
        } else if let Some(flag) = find(grammar.flags, &text) {
            self.flags.push(flag);
        } else if text.starts_with('-') && text != "-" {
            return Err(hints::no_option(&text, rest.next(), grammar));
        } else if let Some((letter, numbers)) = letter_of(&text) {
            let letter =
                find(grammar.letters, letter).ok_or_else(|| hints::no_letter(letter, grammar))?;
            if FORMULAS.contains(&letter) {
                self.formulas.push((letter, numbers.to_string()))
            } else {
                self.values.push(Value::read(letter, numbers)?)
            }
        } else if word.is_empty() {
            return Err(Failure::words("a word is empty"));
        } else {
            hints::check_typed(&text)?;
            self.plain.push(word);
        }
        Ok(())
    }

    /// There are as many plain words as the grammar says, and one of them at most is standard input.
    fn check_plain(&self, grammar: &Grammar) -> Outcome {
        let (most, count) = (grammar.plain.len(), self.plain.len());
        let repeats = grammar.plain.last().is_some_and(|last| last.ends_with("..."));
        if count > most && !repeats {
            return Err(hints::one_too_many(&self.plain[most..], grammar));
        }
        if count + grammar.optional < most {
            let name = grammar.plain[count].trim_end_matches("...");
            return Err(Failure::words(format!("the word {name} is missing")));
        }
        if self.plain.iter().filter(|word| *word == "-").count() > 1 {
            return Err(Failure::words("only one file can be -, standard input"));
        }
        Ok(())
    }

    /// The plain words.
    pub fn plain(&self) -> &[OsString] {
        &self.plain
    }

    /// A plain word that the grammar asks for or that is known to be there.
    pub fn path(&self, place: usize) -> PathBuf {
        self.plain.get(place).map(PathBuf::from).unwrap_or_default()
    }

    /// The number of a round in a plain word that is known to be there.
    pub fn round_number(&self, place: usize) -> Outcome<usize> {
        let word = self.plain[place].to_string_lossy();
        let number = word.parse().ok().filter(|_| word.bytes().all(|byte| byte.is_ascii_digit()));
        number.ok_or_else(|| {
            Failure::words(format!("{word} is not the number of a round; they are numbered from 0"))
        })
    }

    /// Whether a flag is there.
    pub fn flag(&self, name: &str) -> bool {
        self.flags.contains(&name)
    }

    /// What stands behind an option.
    pub fn option(&self, name: &str) -> Option<&OsStr> {
        let found = self.options.iter().find(|(option, _)| *option == name);
        found.map(|(_, value)| value.as_os_str())
    }

    /// All values, in their order.
    pub fn values(&self) -> &[Value] {
        &self.values
    }

    /// The values of a letter, in their order.
    pub fn all(&self, letter: &str) -> Vec<&Value> {
        self.values.iter().filter(|value| value.letter == letter).collect()
    }

    /// The formulas of a letter, in their order.
    pub fn formulas(&self, letter: &str) -> Vec<&str> {
        let of_letter = self.formulas.iter().filter(|(other, _)| *other == letter);
        of_letter.map(|(_, text)| text.as_str()).collect()
    }

    /// The value of a letter that may come once.
    pub fn once(&self, letter: &str) -> Outcome<Option<&Value>> {
        match self.all(letter)[..] {
            [] => Ok(None),
            [value] => Ok(Some(value)),
            _ => Err(twice(&format!("{letter}="))),
        }
    }

    /// The value of a letter that has to come once, and what it is called.
    pub fn needed(&self, letter: &str, what: &str) -> Outcome<&Value> {
        let missing = || Failure::words(format!("{letter}= is missing: {what}"));
        self.once(letter)?.ok_or_else(missing)
    }

    /// Fails where one of these letters is there, which have no meaning then.
    pub fn without(&self, letters: &[&str], when: &str) -> Outcome {
        match letters.iter().find(|letter| !self.all(letter).is_empty()) {
            Some(letter) => Err(Failure::words(format!("{letter}= has no meaning {when}"))),
            None => Ok(()),
        }
    }

    /// The one of two letters that is there, which is neither both nor none of them, and what they are.
    pub fn either(&self, letters: [&'static str; 2], what: &str) -> Outcome<&'static str> {
        let [first, second] = letters;
        match letters.map(|letter| !self.all(letter).is_empty()) {
            [true, false] => Ok(first),
            [false, true] => Ok(second),
            [true, true] => Err(Failure::words(format!(
                "{first}= and {second}= are both there; leave one out: {what}"
            ))),
            [false, false] => {
                Err(Failure::words(format!("{first}= or {second}= is missing: {what}")))
            }
        }
    }

    /// The number of a letter that may come once.
    pub fn number(&self, letter: &str) -> Outcome<Option<u32>> {
        self.once(letter)?.map(Value::number).transpose()
    }

    /// The numbers of a letter that may come once.
    pub fn numbers(&self, letter: &str) -> Outcome<Option<&[u32]>> {
        self.once(letter)?.map(Value::numbers).transpose()
    }

    /// The values in groups: a group ends where one of its letters comes again.
    pub fn groups(&self) -> Vec<Vec<Value>> {
        let mut groups: Vec<Vec<Value>> = Vec::new();
        for value in &self.values {
            match groups.last_mut() {
                Some(group) if group.iter().all(|other| other.letter != value.letter) => {
                    group.push(value.clone());
                }
                _ => groups.push(vec![value.clone()]),
            }
        }
        groups
    }
}

impl Value {
    /// What a word of this letter says.
    fn read(letter: &'static str, text: &str) -> Outcome<Value> {
        let row =
            |text: &str| text.split(',').map(hints::number).collect::<Result<Vec<u32>, String>>();
        let rows = text.split('/').map(row).collect::<Result<_, _>>();
        let rows = rows.map_err(|why| Failure::words(format!("{letter}={text}: {why}")))?;
        Ok(Value { letter, rows })
    }

    /// The one number.
    pub fn number(&self) -> Outcome<u32> {
        match self.numbers()? {
            [number] => Ok(*number),
            _ => Err(Failure::words(format!("{}= takes one number", self.letter))),
        }
    }

    /// The numbers of the one row.
    pub fn numbers(&self) -> Outcome<&[u32]> {
        match &self.rows[..] {
            [row] => Ok(row),
            _ => Err(Failure::words(format!("{}= takes no rows", self.letter))),
        }
    }
}

/// The letter and the rest of a word such as `c0=3`. A path with such a start is written `./c0=3`.
fn letter_of(word: &str) -> Option<(&str, &str)> {
    let (letter, rest) = word.split_once('=')?;
    let alone = letter.bytes().all(|byte| byte.is_ascii_alphanumeric());
    (alone && letter.starts_with(|first: char| first.is_ascii_alphabetic()))
        .then_some((letter, rest))
}

/// The option that a word is, with its value if that is in the word too, as in `--level=20`.
fn option_of(word: &OsStr, grammar: &Grammar) -> Option<(&'static str, Option<OsString>)> {
    let mut parts = word.as_bytes().splitn(2, |byte| *byte == b'=');
    let option = find(grammar.options, std::str::from_utf8(parts.next()?).ok()?)?;
    let value = parts.next().map(|value| OsStr::from_bytes(value).to_os_string());
    (value.is_none() || option.starts_with("--")).then_some((option, value))
}

/// The name in a list that a word is.
fn find(names: &'static [&'static str], word: &str) -> Option<&'static str> {
    names.iter().copied().find(|name| *name == word)
}
