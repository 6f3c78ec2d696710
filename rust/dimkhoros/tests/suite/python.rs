//! The Python module passes its own tests over the shared library that is made of the archive, a type checker finds nothing in it,
//! and pip installs it with that library. This is tried if there is a Python of a version that the module is for, mypy and pip; if
//! one is missing, a line on standard error says so.

use crate::cc;
use crate::home::on_path;
use crate::tree::untried;

use dimkhoros_sys::ARCHIVE;
use std::fs;
use std::path::PathBuf;
use std::process::Command;

/// Answers 0 for a Python that the module is for.
const IS_KNOWN: &str = "import sys; sys.exit(sys.version_info < (3, 9))";

/// The archive's folder, in which the shared library is made.
fn folder() -> PathBuf {
    fs::canonicalize(ARCHIVE).unwrap().parent().unwrap().to_path_buf()
}

/// Why the module's tests cannot be run here, if they cannot.
fn missing() -> Option<&'static str> {
    match Command::new("python3").args(["-c", IS_KNOWN]).status() {
        Err(_) => Some("python3 is not on PATH"),
        Ok(status) if !status.success() => Some("python3 is older than 3.9"),
        Ok(_) => None,
    }
}

/// Makes the shared library.
fn make_library() {
    let script = cc::root().join("scripts/shared_library");
    cc::succeed(Command::new(script).env("DIMKHOROS_LIB", folder()));
}

/// Whether Python has pip.
fn has_pip() -> bool {
    Command::new("python3").args(["-m", "pip", "--version"]).output().unwrap().status.success()
}

#[test]
fn the_python_module_passes_its_tests() {
    make_library();
    if let Some(why) = missing() {
        return untried(why, "the tests of the Python module");
    }
    let mut python = Command::new("python3");
    python.args(["-m", "unittest", "discover"]).current_dir(cc::root().join("python"));
    python.env("DIMKHOROS_LIB", folder()).env("PYTHONDONTWRITEBYTECODE", "1");
    cc::succeed(&mut python);
}

/// What mypy says of these, in the module's folder. It says nothing if it finds nothing.
fn checked(words: &[&str]) -> String {
    let mut mypy = Command::new("mypy");
    mypy.args(["--strict", "--no-error-summary", "--cache-dir=/dev/null"]).args(words);
    let said = mypy.current_dir(cc::root().join("python")).output().unwrap();
    String::from_utf8_lossy(&[said.stdout, said.stderr].concat()).into_owned()
}

#[test]
fn a_type_checker_finds_nothing() {
    if on_path("mypy").is_none() {
        return untried("mypy is not on PATH", "mypy --strict on the Python module and its tests");
    }
    assert_eq!(checked(&["dimkhoros", "tests", "wheel_backend.py"]), "");
    let wrong = checked(&["-c", "import dimkhoros\ndimkhoros.Prover().commit(b'HOM', [5])"]);
    assert!(wrong.contains("expected \"Instance\"  [arg-type]"), "{wrong}");
}

/// pip is given the folder python alone and may look nowhere else. The installed module is imported away from the repository, and
/// loads the library of its own folder.
#[test]
fn pip_installs_the_module_with_its_library() {
    make_library();
    let what = "python3 -m pip install ./python";
    if let Some(why) = missing() {
        return untried(why, what);
    }
    if !has_pip() {
        return untried("python3 has no pip", what);
    }
    let installed = cc::scratch("pip");
    let _ = fs::remove_dir_all(&installed);
    let mut pip = Command::new("python3");
    pip.args(["-m", "pip", "--isolated", "install", "--no-index", "--no-compile", "--target"]);
    pip.arg(&installed).arg(cc::root().join("python"));
    cc::succeed(pip.env("DIMKHOROS_LIB", folder()).env("PYTHONDONTWRITEBYTECODE", "1"));
    let installed = fs::canonicalize(installed).unwrap();
    let program = "import dimkhoros; print(dimkhoros.__file__); print(dimkhoros._library._PATH)";
    let mut python = Command::new("python3");
    python.args(["-B", "-c", program]).current_dir(&installed).env_remove("DIMKHOROS_LIB");
    let said = cc::succeed(python.env_remove("PYTHONPATH"));
    let module = installed.join("dimkhoros");
    let expected = ["__init__.py", "libdimkhoros.so"].map(|name| module.join(name));
    assert_eq!(said.lines().map(PathBuf::from).collect::<Vec<_>>(), expected);
}
