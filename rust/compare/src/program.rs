//! The programs `marker`, `reason` and `game`, beside the judge.
//!
//! No contract of the system's calls says which bytes a program reads and
//! prints. So each is run in folders of its own, as `./run FOLDER`, `./run reason
//! FOLDER` and `./run game FOLDER` run them, and must print the judge's text on the
//! files there and nothing else, and exit with 0.

mod folders;
mod scratch;

use std::fs;
use std::io;
use std::path::Path;
use std::process::{Command, ExitStatus, Output, Stdio};

use crate::search;
use folders::{Folder, folders};
use scratch::Scratch;

/// Where the crates stand, in whose folders `out` `rt run` puts programs.
pub const BUILT: &str = concat!(env!("CARGO_MANIFEST_DIR"), "/../../crates");

/// A program, and the judge's text on a sheet, a round file and a level file.
pub struct Program {
    name: &'static str,
    text: fn(&[u8], &[u8], &[u8]) -> String,
}

/// All programs. The game's text is that of a table if the judge would take long.
pub const PROGRAMS: [Program; 3] = [
    Program { name: "marker", text: judge::marker },
    Program { name: "reason", text: |sheet, rounds, _| judge::reason(sheet, rounds) },
    Program { name: "game", text: |sheet, rounds, _| search::game(sheet, rounds) },
];

impl Program {
    /// Runs the program, whose crate stands in this folder, in folders made from the
    /// seed and answers the line to print. An error says that there is no
    /// program, or what differs.
    pub fn check(&self, seed: u64, built: &Path) -> Result<String, String> {
        let (name, path) = (self.name, built.join(self.name).join("out").join(self.name));
        let Ok(program) = fs::canonicalize(&path) else {
            return Err(format!(
                "compare: there is no program {}; `rt run` in crates/{name} builds it",
                path.display()
            ));
        };
        let runs = self.check_runs(seed, |folder| {
            Command::new(&program).current_dir(folder).stdin(Stdio::null()).output()
        })?;
        Ok(format!("the program {name}: {runs} folders"))
    }

    /// Compares each run with the judge and answers how many there were.
    fn check_runs(
        &self,
        seed: u64,
        run: impl Fn(&Path) -> io::Result<Output>,
    ) -> Result<usize, String> {
        let name = self.name;
        let failed = |error: io::Error| format!("compare: the program {name}: {error}");
        let scratch = Scratch::new().map_err(failed)?;
        let folders = folders(seed);
        for (number, folder) in folders.iter().enumerate() {
            let path = scratch.path().join(number.to_string());
            folder.make(&path).map_err(failed)?;
            let (judged, ran) = (self.judged(folder), run(&path).map_err(failed)?);
            if judged != ran {
                return Err(format!(
                    "the program {name} differs in this folder:\n{folder}\n  judge: {judged:?}\n  program: {ran:?}"
                ));
            }
        }
        Ok(folders.len())
    }

    /// What a right program's run in the folder comes to.
    fn judged(&self, folder: &Folder) -> Output {
        let Folder { sheet, rounds, level } = folder;
        let text = (self.text)(sheet.bytes(), rounds.bytes(), level.bytes());
        Output { status: ExitStatus::default(), stdout: text.into_bytes(), stderr: Vec::new() }
    }
}

#[cfg(test)]
mod tests {
    use std::os::unix::process::ExitStatusExt;

    use super::*;
    use crate::options::SEED;

    const MARKER: &Program = &PROGRAMS[0];
    const REASON: &Program = &PROGRAMS[1];
    const GAME: &Program = &PROGRAMS[2];

    /// The bytes of a file, none where it cannot be read.
    fn bytes(folder: &Path, name: &str) -> Vec<u8> {
        fs::read(folder.join(name)).unwrap_or_default()
    }

    /// How many bytes of each file a program keeps.
    #[derive(Clone, Copy)]
    struct Kept {
        sheet: usize,
        rounds: usize,
        level: usize,
    }

    /// One byte more than the longest of each.
    const ENOUGH: Kept = Kept { sheet: 309, rounds: 34_824, level: 2 };

    /// The run of a program that keeps so many bytes. Where it tells a length,
    /// it tells that of the whole file.
    fn ran(program: &Program, folder: &Path, kept: Kept) -> Output {
        let (sheet, rounds) = (bytes(folder, "sheet.bin"), bytes(folder, "rounds.bin"));
        let level = bytes(folder, "level.bin");
        let start = |bytes: &[u8], most: usize| bytes[..bytes.len().min(most)].to_vec();
        let mut text = (program.text)(
            &start(&sheet, kept.sheet),
            &start(&rounds, kept.rounds),
            &start(&level, kept.level),
        );
        if let Some((words, _)) = text.split_once("length ") {
            let of = if words == "refused 12 " { rounds } else { sheet };
            text = format!("{words}length {}\n", of.len());
        }
        Output { status: ExitStatus::default(), stdout: text.into_bytes(), stderr: Vec::new() }
    }

    /// Whether the check finds no difference in a program that keeps so many
    /// bytes of each file and whose run is then changed.
    fn passes(program: &Program, kept: Kept, change: impl Fn(&mut Output)) -> bool {
        let found = program.check_runs(SEED, |folder| {
            let mut ran = ran(program, folder, kept);
            change(&mut ran);
            Ok(ran)
        });
        found.is_ok()
    }

    #[test]
    fn one_byte_more_than_the_longest_is_enough() {
        for program in &PROGRAMS {
            assert!(passes(program, ENOUGH, |_| {}));
            for sheet in [308, 307, 64] {
                assert!(!passes(program, Kept { sheet, ..ENOUGH }, |_| {}));
            }
            for rounds in [34_823, 34_822, 32_768, 64] {
                assert!(!passes(program, Kept { rounds, ..ENOUGH }, |_| {}));
            }
        }
        for level in [0, 1] {
            assert!(!passes(MARKER, Kept { level, ..ENOUGH }, |_| {}));
            assert!(passes(REASON, Kept { level, ..ENOUGH }, |_| {}));
            assert!(passes(GAME, Kept { level, ..ENOUGH }, |_| {}));
        }
    }

    /// Whether the check finds no difference in a program that prints its text
    /// on these bytes of each file.
    fn passes_on(program: &Program, taken: impl Fn(&str, Vec<u8>) -> Vec<u8>) -> bool {
        let found = program.check_runs(SEED, |folder| {
            let bytes = |name: &str| taken(name, bytes(folder, name));
            let text =
                (program.text)(&bytes("sheet.bin"), &bytes("rounds.bin"), &bytes("level.bin"));
            Ok(Output {
                status: ExitStatus::default(),
                stdout: text.into_bytes(),
                stderr: Vec::new(),
            })
        });
        found.is_ok()
    }

    /// The length of what is kept, and that of what is kept and the first piece
    /// after it.
    #[test]
    fn a_length_that_is_not_the_files_is_found() {
        assert!(passes_on(REASON, |_, bytes| bytes));
        for more in [0, 1, 4095, 4096] {
            for (cut, kept) in [("sheet.bin", 309), ("rounds.bin", 34_824)] {
                let passes = passes_on(REASON, |name, mut bytes| {
                    if name == cut {
                        bytes.truncate(kept + more);
                    }
                    bytes
                });
                assert!(!passes, "{cut} {more}");
            }
        }
    }

    #[test]
    fn a_byte_that_is_dropped_is_found() {
        for (program, names) in [
            (MARKER, &["sheet.bin", "rounds.bin", "level.bin"][..]),
            (REASON, &["sheet.bin", "rounds.bin"]),
            (GAME, &["sheet.bin", "rounds.bin"]),
        ] {
            for cut in names {
                let passes = passes_on(program, |name, mut bytes| {
                    if name == *cut {
                        bytes.pop();
                    }
                    bytes
                });
                assert!(!passes, "{cut}");
            }
        }
    }

    #[test]
    fn another_text_or_status_is_found() {
        for program in &PROGRAMS {
            assert!(!passes(program, ENOUGH, |ran| ran.stdout.clear()));
            assert!(!passes(program, ENOUGH, |ran| ran.stdout.push(b'\n')));
            assert!(!passes(program, ENOUGH, |ran| ran.stderr.push(b'!')));
            let one = ExitStatus::from_raw(1 << 8);
            assert!(!passes(program, ENOUGH, |ran| ran.status = one));
        }
        assert!(!passes(MARKER, ENOUGH, |ran| ran.stdout.truncate(4096)));
        for length in [4096, 65_536, 600_000] {
            assert!(!passes(GAME, ENOUGH, |ran| ran.stdout.truncate(length)));
        }
    }

    /// A game that takes a level, as the marker does, or asks for one.
    #[test]
    fn a_game_that_reads_the_level_is_found() {
        for needed in [&[1..=64][..], &[0..=255]] {
            let reads = Program { name: "game", text: GAME.text };
            let found = reads.check_runs(SEED, |folder| {
                let level = bytes(folder, "level.bin");
                let mut ran = ran(GAME, folder, ENOUGH);
                let is_level = level.len() == 1 && needed[0].contains(&level[0]);
                if !is_level && !ran.stdout.starts_with(b"refused") {
                    ran.stdout = b"level 25\n".to_vec();
                }
                Ok(ran)
            });
            assert!(found.is_err(), "{needed:?}");
        }
    }

    #[test]
    fn another_program_is_found() {
        let scratch = Scratch::new().unwrap();
        for program in &PROGRAMS {
            let built = scratch.path().join(program.name).join("out");
            fs::create_dir_all(&built).unwrap();
            fs::copy("/bin/sh", built.join(program.name)).unwrap();
            let found = program.check(SEED, scratch.path()).unwrap_err();
            let start = format!("the program {} differs", program.name);
            assert!(found.starts_with(&start), "{found}");
        }
    }

    #[test]
    fn a_missing_program_is_named_in_one_line() {
        for program in &PROGRAMS {
            let found = program.check(SEED, Path::new("/no")).unwrap_err();
            let part = format!("no program /no/{}", program.name);
            assert!(found.contains(&part), "{found}");
            assert_eq!(found.lines().count(), 1);
        }
    }
}
