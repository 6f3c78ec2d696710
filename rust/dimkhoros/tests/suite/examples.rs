//! The examples in C and in Rust print what the text beside them says.

use crate::cc;

use dimkhoros_sys::ARCHIVE;
use std::env;
use std::fs;
use std::path::{Path, PathBuf};
use std::process::Command;
use std::sync::OnceLock;

/// The names of the texts in the folder examples, each the name of an example.
fn names() -> Vec<String> {
    let mut names = Vec::new();
    for entry in fs::read_dir(cc::root().join("examples")).unwrap() {
        let path = entry.unwrap().path();
        if path.extension().is_some_and(|extension| extension == "txt") {
            names.push(path.file_stem().unwrap().to_str().unwrap().to_string());
        }
    }
    names.sort();
    names
}

/// Each example in a folder prints its text.
fn compare(folder: &Path) {
    for name in names() {
        let expected =
            fs::read_to_string(cc::root().join("examples").join(&name).with_extension("txt"))
                .unwrap();
        let printed = cc::succeed(&mut Command::new(folder.join(&name)));
        assert_eq!(printed, expected, "what {name} in {folder:?} prints is not its text");
    }
}

#[test]
fn every_example_has_a_text() {
    for (folder, extension) in [("examples/c", "c"), ("rust/dimkhoros/examples", "rs")] {
        let mut found = Vec::new();
        for entry in fs::read_dir(cc::root().join(folder)).unwrap() {
            let path = entry.unwrap().path();
            if path.extension().is_some_and(|found| found == extension) {
                found.push(path.file_stem().unwrap().to_str().unwrap().to_string());
            }
        }
        // The two boxes print what they draw at random.
        found.retain(|name| name != "peggy" && name != "vic");
        found.sort();
        assert_eq!(found, names(), "the examples in {folder} and the texts differ");
    }
}

/// The folder with the programs in C, which are built once.
pub fn in_c() -> &'static Path {
    static FOLDER: OnceLock<PathBuf> = OnceLock::new();
    FOLDER.get_or_init(|| {
        let folder = PathBuf::from(env!("CARGO_TARGET_TMPDIR")).join("examples");
        let archives = Path::new(ARCHIVE).parent().unwrap();
        let script = cc::root().join("examples/c/build");
        cc::succeed(Command::new(script).arg(&folder).env("DIMKHOROS_LIB", archives));
        folder
    })
}

/// The folder with the programs in Rust: cargo builds them before it runs a test, and puts them beside the folder of the tests.
pub fn in_rust() -> PathBuf {
    let test = env::current_exe().unwrap();
    test.parent().unwrap().parent().unwrap().join("examples")
}

#[test]
fn examples_in_c_print_their_texts() {
    compare(in_c());
}

#[test]
fn examples_in_rust_print_their_texts() {
    compare(&in_rust());
}
