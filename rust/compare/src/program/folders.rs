//! Folders with a sheet, a round file and a level file: files that are missing,
//! empty, cut, as long as they can be, a byte shorter and longer, those of the
//! marker's, the reason's and the game's cases, and the game's largest sheets.

use std::fmt;
use std::fs;
use std::io;
use std::path::Path;

use crate::files;
use crate::games::largest;
use crate::groups::Group;
use crate::instance::Instance;
use crate::library::{LONGEST_FILE, LONGEST_FILE_2, LONGEST_SHEET, MOST_ROUNDS, Round};
use crate::making::{game_case, mark_case, mark_file, reason_case};
use crate::printing::hex;
use crate::random::Random;

/// How many of the marker's cases are run, and as many of the reason's and of the
/// game's.
const CASES: u64 = 60;

/// How many bytes the program `reason` reads at once of those that it only
/// counts.
const PIECE: usize = 4096;

/// 01's example, which the programs are also run on by `./run`.
const EXAMPLE_SHEET: &[u8] = include_bytes!("../../../../crates/marker/data/sheet.bin");
const EXAMPLE_ROUNDS: &[u8] = include_bytes!("../../../../crates/marker/data/rounds.bin");
const EXAMPLE_LEVEL: &[u8] = include_bytes!("../../../../crates/marker/data/level.bin");

/// What stands in the place of a file.
#[derive(Clone)]
pub enum Place {
    Nothing,
    Folder,
    File(Vec<u8>),
}

/// A folder to run a program in.
pub struct Folder {
    pub sheet: Place,
    pub rounds: Place,
    pub level: Place,
}

impl Place {
    /// The bytes that count: a file that is missing or cannot be read has none.
    pub fn bytes(&self) -> &[u8] {
        match self {
            Place::File(bytes) => bytes,
            Place::Nothing | Place::Folder => &[],
        }
    }

    fn make(&self, path: &Path) -> io::Result<()> {
        match self {
            Place::Nothing => Ok(()),
            Place::Folder => fs::create_dir(path),
            Place::File(bytes) => fs::write(path, bytes),
        }
    }
}

impl fmt::Display for Place {
    fn fmt(&self, out: &mut fmt::Formatter) -> fmt::Result {
        match self {
            Place::Nothing => write!(out, "nothing"),
            Place::Folder => write!(out, "a folder"),
            Place::File(bytes) => write!(out, "{} bytes {}", bytes.len(), hex(bytes)),
        }
    }
}

impl Folder {
    /// Makes the folder at this path.
    pub fn make(&self, path: &Path) -> io::Result<()> {
        fs::create_dir(path)?;
        self.sheet.make(&path.join("sheet.bin"))?;
        self.rounds.make(&path.join("rounds.bin"))?;
        self.level.make(&path.join("level.bin"))
    }
}

impl fmt::Display for Folder {
    fn fmt(&self, out: &mut fmt::Formatter) -> fmt::Result {
        writeln!(out, "    sheet.bin {}", self.sheet)?;
        writeln!(out, "    rounds.bin {}", self.rounds)?;
        write!(out, "    level.bin {}", self.level)
    }
}

/// Every folder, with the cases of this seed.
pub fn folders(seed: u64) -> Vec<Folder> {
    let mut folders = examples();
    folders.extend(levels());
    folders.extend(cut());
    folders.extend(longest(&mut Random::new(seed)));
    folders.extend(longest_narrow(&mut Random::new(seed)));
    folders.extend(long_and_wrong(&mut Random::new(seed)));
    for make in [mark_case, reason_case] {
        folders.extend((0..CASES).map(|number| {
            let case = make(&mut Random::of_case(seed, number));
            Folder {
                sheet: Place::File(case.sheet),
                rounds: Place::File(case.file),
                level: Place::File(case.level),
            }
        }));
    }
    folders.extend((0..CASES).map(|number| {
        let case = game_case(&mut Random::of_case(seed, number));
        without_level(case.sheet, case.file)
    }));
    folders.extend(played());
    folders
}

/// A sheet and a round file without a level.
fn without_level(sheet: Vec<u8>, rounds: Vec<u8>) -> Folder {
    Folder { sheet: Place::File(sheet), rounds: Place::File(rounds), level: Place::Nothing }
}

/// The game's largest sheets, with files of one round in both versions.
fn played() -> Vec<Folder> {
    let sheets = largest::sheets().into_iter().zip([1, 2].into_iter().cycle());
    let folders = sheets.map(|((sheet, commitments), version)| {
        let round = Round { commitment: commitments[0], ..Round::default() };
        let rounds = files::of_rounds(&sheet.header, version, &[round]);
        without_level(sheet.bytes(), rounds)
    });
    folders.collect()
}

/// 01's example, with each of its files, with none, and with an empty file or a
/// folder in its place.
fn examples() -> Vec<Folder> {
    let places = |example: &[u8]| {
        let file = Place::File(example.to_vec());
        [file, Place::Nothing, Place::Folder, Place::File(Vec::new())]
    };
    let mut folders = Vec::new();
    for sheet in places(EXAMPLE_SHEET) {
        for rounds in places(EXAMPLE_ROUNDS) {
            folders.extend(places(EXAMPLE_LEVEL).map(|level| Folder {
                sheet: sheet.clone(),
                rounds: rounds.clone(),
                level,
            }));
        }
    }
    folders
}

/// The example's sheet with two and with three accepted rounds, of which the
/// second is enough for the level 7, at levels that are taken and refused, and
/// with level files that are empty or longer.
fn levels() -> Vec<Folder> {
    let mut levels: Vec<Vec<u8>> = [1, 6, 7, 10, 11, 63, 64].map(|level| vec![level]).into();
    levels.extend([0, 65, 128, 255].map(|level| vec![level]));
    levels.extend([vec![], vec![7, 7], vec![7, 0], vec![0, 7], vec![7; 3], vec![7; 5000]]);
    let (head, round) = (&EXAMPLE_ROUNDS[..6], &EXAMPLE_ROUNDS[7..19]);
    let folders = [2, 3].into_iter().flat_map(|count: u8| {
        let rounds = [head, &[count], &round.repeat(count.into())].concat();
        levels.iter().map(move |level| Folder {
            sheet: Place::File(EXAMPLE_SHEET.to_vec()),
            rounds: Place::File(rounds.clone()),
            level: Place::File(level.clone()),
        })
    });
    folders.collect()
}

/// The example with its sheet cut, and with its round file cut: to one byte, to
/// the fixed fields and a byte less, and by one byte.
fn cut() -> Vec<Folder> {
    let whole = |bytes: &[u8]| Place::File(bytes.to_vec());
    let sheets = [1, 19, 20, EXAMPLE_SHEET.len() - 1].map(|length| Folder {
        sheet: whole(&EXAMPLE_SHEET[..length]),
        rounds: whole(EXAMPLE_ROUNDS),
        level: example_level(),
    });
    let files = [1, 6, 7, EXAMPLE_ROUNDS.len() - 1].map(|length| Folder {
        sheet: whole(EXAMPLE_SHEET),
        rounds: whole(&EXAMPLE_ROUNDS[..length]),
        level: example_level(),
    });
    sheets.into_iter().chain(files).collect()
}

/// The level of the example.
fn example_level() -> Place {
    Place::File(EXAMPLE_LEVEL.to_vec())
}

/// The longest sheet with the longest file of it, and each of them a byte
/// shorter and with more bytes after it: one and two more than it can have,
/// as many as end the first piece that is only counted, one fewer and one more,
/// and many.
fn longest(random: &mut Random) -> Vec<Folder> {
    let instance = longest_instance(random);
    let sheet = instance.sheet.bytes();
    let rounds = mark_file(random, &instance, 1, MOST_ROUNDS);
    let mut resized = |bytes: &[u8], length: usize| {
        let more = random.bytes(length.saturating_sub(bytes.len()));
        let kept = &bytes[..bytes.len().min(length)];
        Place::File([kept, &more].concat())
    };
    let mut folders = vec![Folder {
        sheet: Place::File(sheet.clone()),
        rounds: Place::File(rounds.clone()),
        level: example_level(),
    }];
    let file_lengths = lengths(LONGEST_FILE, &[100_000, 1_000_000]);
    folders.extend(file_lengths.into_iter().map(|length| Folder {
        sheet: Place::File(sheet.clone()),
        rounds: resized(&rounds, length),
        level: example_level(),
    }));
    let sheet_lengths = lengths(LONGEST_SHEET, &[5000]);
    folders.extend(sheet_lengths.into_iter().map(|length| Folder {
        sheet: resized(&sheet, length),
        rounds: Place::File(rounds.clone()),
        level: example_level(),
    }));
    folders
}

/// Lengths beside that of the longest: a byte less, one and two more, those at
/// the end of the first piece that is only counted, and these.
fn lengths(longest: usize, others: &[usize]) -> Vec<usize> {
    let piece = longest + 1 + PIECE;
    let bounds = [longest - 1, longest + 1, longest + 2, piece - 1, piece, piece + 1];
    [&bounds, others].concat()
}

/// The longest file of version 2, whole, with a byte too many, and so long that
/// its records would be those of version 1.
fn longest_narrow(random: &mut Random) -> Vec<Folder> {
    let instance = longest_instance(random);
    let rounds = mark_file(random, &instance, 2, MOST_ROUNDS);
    let lengths = [LONGEST_FILE_2, LONGEST_FILE_2 + 1, LONGEST_FILE];
    let folders = lengths.map(|length| {
        let more = random.bytes(length - rounds.len());
        Folder {
            sheet: Place::File(instance.sheet.bytes()),
            rounds: Place::File([&rounds[..], &more].concat()),
            level: example_level(),
        }
    });
    folders.into()
}

/// Files that are too long and have another fault, which is to be told: a sheet
/// of the wrong kind, and round files with another mark, another version and
/// too large a count.
fn long_and_wrong(random: &mut Random) -> Vec<Folder> {
    let instance = longest_instance(random);
    let sheet = instance.sheet.bytes();
    let rounds = mark_file(random, &instance, 1, MOST_ROUNDS);
    let spoiled = |bytes: &[u8], place: usize, value: u8, length: usize| {
        let mut bytes = bytes.to_vec();
        bytes[place] = value;
        bytes.resize(length, 1);
        Place::File(bytes)
    };
    let mut folders = vec![Folder {
        sheet: spoiled(&sheet, 5, 3, 400),
        rounds: Place::File(rounds.clone()),
        level: example_level(),
    }];
    folders.extend([(0, b'S'), (4, 3), (5, 3)].map(|(place, value)| Folder {
        sheet: Place::File(sheet.clone()),
        rounds: spoiled(&rounds, place, value, 100_000),
        level: example_level(),
    }));
    folders
}

/// An instance of eight rows and eight columns of entries.
fn longest_instance(random: &mut Random) -> Instance {
    loop {
        let group = Group::of_kind(random, 1);
        let instance = Instance::of_group(random, group);
        if (instance.rows(), instance.columns()) == (8, 8) {
            return instance;
        }
    }
}

#[cfg(test)]
mod tests {
    use super::*;
    use crate::options::SEED;
    use crate::search;

    fn text(folder: &Folder) -> String {
        let Folder { sheet, rounds, level } = folder;
        judge::marker(sheet.bytes(), rounds.bytes(), level.bytes())
    }

    fn reason(folder: &Folder) -> String {
        judge::reason(folder.sheet.bytes(), folder.rounds.bytes())
    }

    /// How many lines the game's text has, none where it is refused.
    fn answered(folder: &Folder) -> usize {
        let text = search::game(folder.sheet.bytes(), folder.rounds.bytes());
        let lines = text.lines().filter(|line| line.parse::<u32>().is_err());
        lines.filter(|line| !line.starts_with("refused")).count()
    }

    #[test]
    fn the_game_has_lines_of_few_and_of_all_challenges() {
        assert_eq!(answered(&examples()[0]), 11);
        let counts: Vec<usize> = played().iter().map(answered).collect();
        assert_eq!(counts.iter().filter(|count| **count == 65_536).count(), 8);
        assert!(counts.contains(&4093) && counts.contains(&1));
    }

    #[test]
    fn the_example_has_01s_lines() {
        let expected = "rounds 4\n0 accepted\n1 accepted\n2 rejected 0\n3 refused 14\nfail\n";
        assert_eq!(text(&examples()[0]), expected);
        assert_eq!(reason(&examples()[0]), "accepted\n");
    }

    #[test]
    fn the_first_refused_of_the_three_files_is_told() {
        let mut met = [0; 4];
        for folder in examples() {
            let sheet = folder.sheet.bytes().is_empty();
            let rounds = folder.rounds.bytes().is_empty();
            let level = folder.level.bytes().is_empty();
            let (place, start) = match (sheet, rounds, level) {
                (true, ..) => (0, "sheet 2\n"),
                (_, true, _) => (1, "file 12\n"),
                (.., true) => (2, "level 25\n"),
                _ => (3, "rounds 4\n"),
            };
            assert!(text(&folder).starts_with(start), "{folder}");
            met[place] += 1;
        }
        assert_eq!(met, [48, 12, 3, 1]);
    }

    #[test]
    fn two_rounds_fail_and_three_pass_at_the_level_7() {
        let lines: Vec<String> = levels().iter().map(text).collect();
        let (two, three) = lines.split_at(17);
        let last = |text: &String| text.lines().last().map(String::from);
        let last: Vec<_> = [two, three].map(|texts| last(&texts[2])).into();
        assert_eq!(last, ["fail", "pass"].map(|word| Some(word.to_string())));
        for texts in [two, three] {
            let refused = texts.iter().filter(|text| *text == "level 25\n");
            assert_eq!(refused.count(), 10);
        }
    }

    #[test]
    fn files_that_are_too_long_have_a_start_that_is_not() {
        let folders = longest(&mut Random::new(SEED));
        let (whole, others) = folders.split_first().unwrap();
        let (sheet, rounds) = (whole.sheet.bytes(), whole.rounds.bytes());
        assert_eq!((sheet.len(), rounds.len()), (308, 34_823));
        assert!(text(whole).starts_with("rounds 512\n"));
        let (files, sheets) = others.split_at(8);
        let bounds = [34_822, 34_824, 34_825, 38_919, 38_920, 38_921, 100_000, 1_000_000];
        for (folder, length) in files.iter().zip(bounds) {
            assert_eq!(folder.rounds.bytes().len(), length);
            assert!(folder.rounds.bytes().starts_with(&rounds[..34_822]));
            assert_eq!(text(folder), "file 12\n");
            assert_eq!(reason(folder), format!("refused 12 length {length}\n"));
        }
        let bounds = [307, 309, 310, 4404, 4405, 4406, 5000];
        assert_eq!(sheets.len(), bounds.len());
        for (folder, length) in sheets.iter().zip(bounds) {
            assert_eq!(folder.sheet.bytes().len(), length);
            assert!(folder.sheet.bytes().starts_with(&sheet[..307]));
            assert_eq!(text(folder), "sheet 9\n");
            assert_eq!(reason(folder), format!("refused 9 length {length}\n"));
        }
    }

    #[test]
    fn files_that_are_cut_are_told_by_their_length() {
        let lines: Vec<String> = cut().iter().map(reason).collect();
        let sheet = ["2 length 1", "2 length 19", "9 length 20", "9 length 27"];
        let rounds = ["12 length 1", "12 length 6", "12 length 7", "12 length 54"];
        assert_eq!(lines.len(), 8);
        for (line, words) in lines.iter().zip([sheet, rounds].concat()) {
            assert_eq!(line, &format!("refused {words}\n"));
        }
    }

    #[test]
    fn a_file_of_version_2_is_as_long_as_its_version_says() {
        let folders = longest_narrow(&mut Random::new(SEED));
        let lengths: Vec<usize> = folders.iter().map(|f| f.rounds.bytes().len()).collect();
        assert_eq!(lengths, [33_799, 33_800, 34_823]);
        assert!(text(&folders[0]).starts_with("rounds 512\n"));
        for (folder, length) in folders.iter().zip(lengths).skip(1) {
            assert_eq!(text(folder), "file 12\n");
            assert_eq!(reason(folder), format!("refused 12 length {length}\n"));
        }
    }

    #[test]
    fn a_long_file_with_another_fault_is_told_by_that() {
        let lines: Vec<String> =
            long_and_wrong(&mut Random::new(SEED)).iter().map(reason).collect();
        let words = ["4 5", "12 0", "12 3", "12 5"];
        assert_eq!(lines, words.map(|words| format!("refused {words}\n")));
    }
}
