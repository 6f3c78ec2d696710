//! The words of the command line.

use std::path::PathBuf;

use crate::faults::{FAULTS, Fault};
use crate::library::Library;

/// The seed of a run that names none.
pub const SEED: u64 = 1;

/// How many cases a run has that names no count.
pub const COUNT: u64 = 375_000;

/// What a run is to do.
#[derive(Debug, PartialEq, Eq)]
pub struct Options {
    pub seed: u64,
    pub count: u64,
    /// What the judge is compared with.
    pub other: Library,
    /// The folder to store cases of the marker in, in place of a comparison.
    pub store: Option<PathBuf>,
    /// The file of vectors to write anew, in place of a comparison.
    pub vectors: Option<PathBuf>,
}

const USAGE: &str = "usage: compare [--seed N] [--count N] [--self | --fault NAME] \
                     [--store FOLDER | --vectors FILE]";

/// Reads the words after the program's name. An error is the text to print.
pub fn options(mut words: impl Iterator<Item = String>) -> Result<Options, String> {
    let mut options =
        Options { seed: SEED, count: COUNT, other: Library::Proved, store: None, vectors: None };
    while let Some(word) = words.next() {
        match word.as_str() {
            "--seed" => options.seed = number(words.next())?,
            "--count" => options.count = number(words.next())?,
            "--self" => options.other = Library::Judge,
            "--fault" => options.other = Library::Faulty(fault(words.next())?),
            "--store" => options.store = Some(path(words.next())?),
            "--vectors" => options.vectors = Some(path(words.next())?),
            _ => return Err(USAGE.to_string()),
        }
    }
    Ok(options)
}

fn number(word: Option<String>) -> Result<u64, String> {
    let parsed = word.and_then(|word| word.parse().ok());
    parsed.ok_or_else(|| USAGE.to_string())
}

fn path(word: Option<String>) -> Result<PathBuf, String> {
    word.map(PathBuf::from).ok_or_else(|| USAGE.to_string())
}

fn fault(word: Option<String>) -> Result<Fault, String> {
    let found = FAULTS.iter().find(|planted| word.as_deref() == Some(planted.name));
    found.map(|planted| planted.fault).ok_or_else(|| {
        let lines = FAULTS.iter().map(|planted| {
            let (name, what) = (planted.name, planted.what);
            format!("  {name:<28}{what}")
        });
        format!("{USAGE}\nfaults:\n{}", lines.collect::<Vec<_>>().join("\n"))
    })
}

#[cfg(test)]
mod tests {
    use super::*;

    fn read(words: &str) -> Result<Options, String> {
        options(words.split_whitespace().map(str::to_string))
    }

    #[test]
    fn words_are_read() {
        let plain = read("").unwrap();
        assert_eq!((plain.seed, plain.count), (SEED, COUNT));
        assert_eq!((plain.other, plain.store), (Library::Proved, None));
        let named = read("--seed 9 --count 10 --self").unwrap();
        assert_eq!((named.seed, named.count), (9, 10));
        assert_eq!(named.other, Library::Judge);
        let stored = read("--store folder").unwrap();
        assert_eq!(stored.store, Some(PathBuf::from("folder")));
        let vectors = read("--vectors file").unwrap();
        assert_eq!(vectors.vectors, Some(PathBuf::from("file")));
        let name = FAULTS[0].name;
        let faulty = read(&format!("--fault {name}")).unwrap();
        assert_eq!(faulty.other, Library::Faulty(FAULTS[0].fault));
    }

    #[test]
    fn other_words_are_errors() {
        for words in
            ["--seed", "--seed x", "--count -1", "--other", "--fault none", "--store", "--vectors"]
        {
            assert!(read(words).is_err());
        }
    }
}
