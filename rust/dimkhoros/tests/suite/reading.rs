//! The programs `marker`, `reason` and `game` on files that are read in pieces, and on files whose end cannot be read.

use crate::cc;
use crate::home::built;
use crate::run::{EXAMPLE, GAME};

use std::fs;
use std::path::{Path, PathBuf};
use std::process::Command;

/// A folder of a test's own with 01's example, and in it the library whose `read` gives a part.
fn laid_out(test: &str) -> PathBuf {
    let folder = cc::scratch("reading").join(test);
    fs::create_dir_all(&folder).unwrap();
    for file in ["sheet.bin", "rounds.bin", "level.bin"] {
        fs::write(folder.join(file), example(file)).unwrap();
    }
    let mut command = Command::new("cc");
    command.arg("-std=c99").args(cc::STRICT).args(["-shared", "-fPIC"]);
    command.arg(cc::source("partial_read.c")).arg("-o").arg(folder.join("partial_read.so"));
    cc::succeed(&mut command);
    folder
}

/// The bytes of a file of 01's example.
fn example(file: &str) -> Vec<u8> {
    fs::read(cc::root().join("crates/marker/data").join(file)).unwrap()
}

/// Puts a file of 01's example into the folder with other bytes after it, 60,000 in all.
fn lengthen(folder: &Path, file: &str) {
    let mut bytes = example(file);
    bytes.resize(60_000, 1);
    fs::write(folder.join(file), bytes).unwrap();
}

/// What the three programs print in the folder, if a variable bounds what their reads give.
fn printed(folder: &Path, variable: &str, number: usize) -> [String; 3] {
    ["marker", "reason", "game"].map(|program| {
        let mut command = Command::new(built(program));
        command.current_dir(folder).env("LD_PRELOAD", folder.join("partial_read.so"));
        cc::succeed(command.env(variable, number.to_string()))
    })
}

#[test]
fn a_file_that_is_read_in_pieces_is_read_whole() {
    let folder = laid_out("pieces");
    let pieces = [1, 7, 4096];
    for piece in pieces {
        assert_eq!(printed(&folder, "PIECE", piece), [EXAMPLE, "accepted\n", GAME]);
    }
    for (file, texts) in [
        ("level.bin", ["level 25\n", "accepted\n", GAME]),
        ("rounds.bin", ["file 12\n", "refused 12 length 60000\n", "refused 12\n"]),
        ("sheet.bin", ["sheet 9\n", "refused 9 length 60000\n", "refused 9\n"]),
    ] {
        lengthen(&folder, file);
        for piece in pieces {
            assert_eq!(printed(&folder, "PIECE", piece), texts);
        }
    }
}

/// A file is empty if a read fails before all is read that is kept of it. It ends at a later read that fails.
#[test]
fn the_programs_agree_on_a_file_whose_end_cannot_be_read() {
    let folder = laid_out("failing");
    for (file, readable, texts) in [
        ("rounds.bin", 100, ["file 12\n", "refused 12 length 0\n", "refused 12\n"]),
        ("rounds.bin", 34_823, ["file 12\n", "refused 12 length 0\n", "refused 12\n"]),
        ("rounds.bin", 34_824, ["file 12\n", "refused 12 length 34824\n", "refused 12\n"]),
        ("rounds.bin", 50_000, ["file 12\n", "refused 12 length 50000\n", "refused 12\n"]),
        ("sheet.bin", 100, ["sheet 2\n", "refused 2 length 0\n", "refused 2\n"]),
        ("sheet.bin", 308, ["sheet 2\n", "refused 2 length 0\n", "refused 2\n"]),
        ("sheet.bin", 309, ["sheet 9\n", "refused 9 length 309\n", "refused 9\n"]),
        ("sheet.bin", 50_000, ["sheet 9\n", "refused 9 length 50000\n", "refused 9\n"]),
    ] {
        lengthen(&folder, file);
        let said = printed(&folder, "READABLE", readable);
        assert_eq!(said, texts, "{readable} bytes of {file} can be read");
        fs::write(folder.join(file), example(file)).unwrap();
    }
}
