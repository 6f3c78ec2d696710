//! The archive is found by one rule, in C, in Rust and for the shared library: in the folder whose whole path is in DIMKHOROS_LIB,
//! and else in crates/dimkhoros/out of the repository. Where it is not found, one line says so.

use crate::cc;

use dimkhoros_sys::ARCHIVE;
use std::env;
use std::path::Path;
use std::process::Command;

/// The commands that look for the archive: the script of the C examples, that of the shared library, and the build of
/// `dimkhoros-sys`.
fn commands() -> [Command; 3] {
    let mut script = Command::new(cc::root().join("examples/c/build"));
    script.arg(cc::scratch("archive-c"));
    let library = Command::new(cc::root().join("scripts/shared_library"));
    let mut cargo = Command::new(env::var_os("CARGO").unwrap_or_else(|| "cargo".into()));
    cargo.args(["build", "--offline", "--quiet", "-p", "dimkhoros-sys", "--target-dir"]);
    cargo.arg(cc::scratch("archive-rust")).current_dir(cc::root().join("rust"));
    [script, library, cargo]
}

/// Each command fails under this DIMKHOROS_LIB and says why in this one line, to which cargo adds lines of its own.
fn assert_fails(folder: &str, expected: &str) {
    let said = commands().map(|mut command| {
        let output = command.env("DIMKHOROS_LIB", folder).output().unwrap();
        assert!(!output.status.success(), "{command:?} takes DIMKHOROS_LIB={folder}");
        String::from_utf8(output.stderr).unwrap()
    });
    assert_eq!(said[..2], [format!("{expected}\n"), format!("{expected}\n")]);
    assert!(said[2].lines().any(|line| line.trim() == expected), "cargo says:\n{}", said[2]);
}

#[test]
fn a_relative_folder_is_refused() {
    let expected = "DIMKHOROS_LIB must be the whole path of a folder, and is crates/dimkhoros/out.";
    assert_fails("crates/dimkhoros/out", expected);
}

#[test]
fn a_missing_archive_is_named() {
    let folder = cc::scratch("no such folder").display().to_string();
    let expected = format!(
        "There is no archive {folder}/libdimkhoros.a. Run `rt lib` in crates/dimkhoros of the repository, or set \
         DIMKHOROS_LIB to the whole path of the folder that has libdimkhoros.a."
    );
    assert_fails(&folder, &expected);
}

#[test]
fn a_whole_path_is_taken() {
    let folder = Path::new(ARCHIVE).parent().unwrap();
    assert!(folder.is_absolute());
    for mut command in commands() {
        cc::succeed(command.env("DIMKHOROS_LIB", folder));
    }
}
