//! Compiles programs in C and C++ against the header and the archive, and runs programs. The tests of the crate `dimkhoros`
//! have this file too.

#![allow(dead_code, reason = "each of the two crates uses a part")]

use dimkhoros_sys::ARCHIVE;
use std::fs::{self, File};
use std::path::{Path, PathBuf};
use std::process::Command;
use std::sync::atomic::{AtomicUsize, Ordering};

/// What the header and the programs are compiled with: every warning is an error.
pub const STRICT: [&str; 7] =
    ["-Wall", "-Wextra", "-Wpedantic", "-Wconversion", "-Wshadow", "-Werror", "-O2"];

/// The root of the repository.
pub fn root() -> PathBuf {
    Path::new(env!("CARGO_MANIFEST_DIR")).join("../..")
}

/// A program of the crate's folder tests/c.
pub fn source(name: &str) -> PathBuf {
    Path::new(env!("CARGO_MANIFEST_DIR")).join("tests/c").join(name)
}

/// A file of this name in the tests' own folder.
pub fn scratch(name: &str) -> PathBuf {
    Path::new(env!("CARGO_TARGET_TMPDIR")).join(name)
}

/// Compiles and runs a program of the crate's folder tests/c, and answers what it printed. A missing compiler is a failure.
pub fn run(name: &str) -> String {
    succeed(&mut Command::new(build(name)))
}

/// The same for a program that reads this text from its standard input.
pub fn run_on(name: &str, input: &str) -> String {
    let program = build(name);
    let file = program.with_extension("input");
    fs::write(&file, input).unwrap();
    succeed(Command::new(program).stdin(File::open(file).unwrap()))
}

/// How many programs were compiled: tests run side by side, so each has a file of its own.
static BUILT: AtomicUsize = AtomicUsize::new(0);

/// Compiles a program of the crate's folder tests/c, and answers where it stands.
pub fn build(name: &str) -> PathBuf {
    let number = BUILT.fetch_add(1, Ordering::Relaxed);
    let program = scratch(&format!("{number}-{name}")).with_extension("program");
    let standard = if name.ends_with(".cpp") { "-std=c++11" } else { "-std=c99" };
    let mut command = Command::new("cc");
    command.arg(standard).args(STRICT).arg("-I").arg(root().join("include"));
    succeed(command.arg(source(name)).arg(ARCHIVE).arg("-o").arg(&program));
    program
}

/// Runs a command, which has to end well, and answers what it printed.
pub fn succeed(command: &mut Command) -> String {
    let output = match command.output() {
        Ok(output) => output,
        Err(error) => panic!("{command:?} cannot be run: {error}"),
    };
    let errors = String::from_utf8_lossy(&output.stderr);
    assert!(output.status.success(), "{command:?} failed:\n{errors}");
    String::from_utf8(output.stdout).expect("programs print text")
}
