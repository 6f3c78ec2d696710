//! Whatever bytes and words it is given, the program ends soon, with the status 0, 1 or 2, and writes what it was told to alone.

use crate::desk::Desk;
use crate::generator::Random;
use crate::lines::LINES;
use crate::material::{Material, handled};
use std::collections::BTreeMap;
use std::ffi::OsString;
use std::fs::{self, File};
use std::os::unix::ffi::OsStringExt;
use std::path::{Path, PathBuf};
use std::process::{Command, Output, Stdio};

/// How often each line is tried with other files, and with other words.
const TIMES: usize = 8;

/// Runs a command that may take 20 seconds and 400 megabytes.
const LIMITED: &str = "ulimit -v 400000; exec timeout 20 \"$0\" \"$@\"";

/// A line with its files in a folder.
struct Case {
    desk: Desk,
    words: Vec<OsString>,
    /// The file that is standard input.
    input: Option<PathBuf>,
    /// Names that may be written.
    targets: Vec<PathBuf>,
}

impl Case {
    /// Lays the files of a line out.
    fn lay_out(name: &str, line: &str, random: &mut Random) -> Case {
        let desk = Desk::new(name);
        let mut case = Case { desk, words: Vec::new(), input: None, targets: Vec::new() };
        let material = Material::any(random);
        for (number, word) in line.split(' ').enumerate() {
            let word = case.laid_out(number, word, &material, random);
            case.words.push(word);
        }
        case
    }

    /// A word of a line, with its file or its values.
    fn laid_out(
        &mut self,
        number: usize,
        word: &str,
        of: &Material,
        random: &mut Random,
    ) -> OsString {
        let name = format!("file{number}");
        let path = self.desk.folder.join(&name);
        let good = match word {
            "SHEET" => &of.sheet,
            "ROUNDS" | "GROWN" => &of.rounds,
            "PATTERNS" => &of.patterns,
            "LEDGER" => &of.ledger,
            "FOLDER" => {
                fill(&path, of, random);
                return name.into();
            }
            "OUT" => {
                self.targets.push(path);
                return name.into();
            }
            _ => return values(word, of, random).into(),
        };
        fs::write(&path, handled(good, random)).unwrap();
        if word == "GROWN" {
            self.targets.push(path);
        } else if self.input.is_none() && random.once_in(8) {
            self.input = Some(path);
            return "-".into();
        }
        name.into()
    }

    /// Runs the program, fails where it does what it must not do, and says whether it did what it was asked for.
    fn try_out(&self) -> bool {
        let before = self.files();
        let fresh: Vec<&PathBuf> = self.targets.iter().filter(|path| !path.exists()).collect();
        let output = self.run();
        let after = self.files();
        let (status, text) = (output.status.code(), String::from_utf8_lossy(&output.stderr));
        let told = format!(
            "{:?} in {} ends in {status:?}:\n{text}",
            self.words,
            self.desk.folder.display()
        );
        assert!(matches!(status, Some(0..=2)), "{told}");
        assert!(!text.contains("panicked"), "{told}");
        let goes_on = |line: &str| line.starts_with("dimkhoros:") || line.starts_with("    ");
        assert!(text.lines().all(goes_on), "{told}");
        assert!(status == Some(0) || !text.is_empty(), "{told}");
        let changed = before.iter().any(|(path, bytes)| after.get(path) != Some(bytes));
        assert!(!changed, "{told}\nchanges a file that it has to leave alone");
        assert_eq!(before.len(), after.len(), "{told}\nwrites another file");
        let written = fresh.iter().any(|path| path.exists());
        assert!(status == Some(0) || !written, "{told}\nwrites a file all the same");
        status == Some(0)
    }

    /// What the program answers, which is stopped where it does not end.
    fn run(&self) -> Output {
        let input = match &self.input {
            Some(path) => File::open(path).unwrap().into(),
            None => Stdio::null(),
        };
        let mut command = Command::new("sh");
        command.args(["-c", LIMITED, env!("CARGO_BIN_EXE_dimkhoros")]).args(&self.words);
        command.current_dir(&self.desk.folder).stdin(input).output().unwrap()
    }

    /// All files in the folder but those that may be written.
    fn files(&self) -> BTreeMap<PathBuf, Vec<u8>> {
        let mut files = BTreeMap::new();
        gather(&self.desk.folder, &mut files);
        files.retain(|path, _| !self.targets.contains(path));
        files
    }
}

/// Adds all files in a folder, and in those within it, with their bytes.
fn gather(folder: &Path, files: &mut BTreeMap<PathBuf, Vec<u8>>) {
    for entry in fs::read_dir(folder).unwrap() {
        let path = entry.unwrap().path();
        if path.is_dir() {
            gather(&path, files)
        } else {
            drop(files.insert(path.clone(), fs::read(path).unwrap()))
        }
    }
}

/// Makes a folder for the marker, in which a file may be missing.
fn fill(folder: &Path, of: &Material, random: &mut Random) {
    fs::create_dir(folder).unwrap();
    for (name, good) in
        [("sheet.bin", &of.sheet), ("rounds.bin", &of.rounds), ("level.bin", &of.level)]
    {
        if !random.once_in(8) {
            fs::write(folder.join(name), handled(good, random)).unwrap();
        }
    }
}

/// A word with numbers in the place of its capitals behind `=`.
fn values(word: &str, of: &Material, random: &mut Random) -> String {
    let Some((letter, value)) = word.split_once('=') else {
        return word.to_string();
    };
    let part = |part: &str| {
        let count = match part {
            "X" => of.columns,
            "T" => of.rows,
            "C" => 1,
            _ => return part.to_string(),
        };
        let bound = if part == "C" { 6 } else { 12 };
        let numbers: Vec<String> =
            (0..count).map(|_| (1 + random.number(bound) % 30).to_string()).collect();
        numbers.join(",")
    };
    let parts: Vec<String> = value.split('/').map(part).collect();
    format!("{letter}={}", parts.join("/"))
}

#[test]
fn any_bytes_as_files_are_answered() {
    let cases = TIMES * LINES.len();
    let try_out = |case: &usize| {
        let mut random = Random::of_case(1, *case);
        Case::lay_out("random files", LINES[case % LINES.len()], &mut random).try_out()
    };
    let done = (0..cases).filter(try_out).count();
    assert!(done > cases / 8, "only {done} of {cases} commands do what they are asked for");
}

/// Words that are wrong in most places.
const WORDS: [&str; 26] = [
    "",
    "-",
    "--",
    "-o",
    "--force",
    "--help",
    "--csv",
    "--patterns",
    "--version",
    "make",
    "judge",
    "=",
    "x=",
    "=1",
    "c=0",
    "c=4294967295",
    "c=4294967296",
    "t=1,2/3",
    "x=1,1,1,1,1,1,1,1,1",
    "z=1/1/1",
    "K=2",
    "row=h1^(x1+",
    "row=h9^x4294967295",
    "99999999999",
    "é",
    "\u{1b}[1m\n",
];

/// Leaves a word out, puts one in, doubles one, or changes one for bytes that are no text or for many numbers.
fn disorder(words: &mut Vec<OsString>, random: &mut Random) {
    let place = random.below(words.len() + 1);
    match random.below(7) {
        0 if place < words.len() => drop(words.remove(place)),
        1 if place < words.len() => words.insert(place, words[place].clone()),
        2 if place < words.len() => words[place] = OsString::from_vec(vec![b'x', 0xff, b'=']),
        3 if place < words.len() => words[place] = many(&words[place]),
        _ => words.insert(place, (*random.pick(&WORDS)).into()),
    }
}

/// A word with its letter, if it has one, and many numbers.
fn many(word: &OsString) -> OsString {
    let word = word.to_string_lossy();
    let letter = word.split_once('=').map_or("z", |(letter, _)| letter);
    format!("{letter}={}1", "1,".repeat(40_000)).into()
}

#[test]
fn any_words_are_answered() {
    for case in 0..TIMES * LINES.len() {
        let mut random = Random::of_case(2, case);
        let line = LINES[case % LINES.len()];
        let mut case = Case::lay_out("random words", line, &mut random);
        let times = 1 + random.below(3);
        (0..times).for_each(|_| disorder(&mut case.words, &mut random));
        let behind =
            case.words.windows(2).filter(|pair| pair[0] == "-o").map(|pair| pair[1].clone());
        let behind: Vec<PathBuf> = behind.map(|name| case.desk.folder.join(name)).collect();
        case.targets.extend(behind);
        case.try_out();
    }
}
