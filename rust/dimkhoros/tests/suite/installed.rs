//! What `./install` puts under a folder with a space in its name is used from there: the programs, the header with both libraries from C,
//! pkg-config and the Python module. The tool is built by cargo and the shared library by cc, as an install builds them.

use crate::cc;
use crate::home::{self, Home, built, ended};
use crate::run::{EXAMPLE, GAME};
use crate::tree::{tree, untried};

use dimkhoros_sys::ARCHIVE;
use std::env;
use std::fs;
use std::os::unix::fs::symlink;
use std::path::{Path, PathBuf};
use std::process::Command;
use std::sync::OnceLock;

/// A folder in which all that is built is installed, which is done once, and the line that makes a shell use it.
fn installed() -> &'static (PathBuf, String) {
    static INSTALLED: OnceLock<(PathBuf, String)> = OnceLock::new();
    INSTALLED.get_or_init(|| {
        let home = laid_out();
        let tools = home.0.join("tools");
        let path = env::var_os("PATH").unwrap();
        let path = env::join_paths([tools].into_iter().chain(env::split_paths(&path))).unwrap();
        let run = ended(home.command(&["pre fix"]).env("PATH", path));
        assert_eq!(run.status, Some(0), "{}", run.stderr);
        (home.0.join("pre fix"), run.stdout.lines().last().unwrap().to_string())
    })
}

/// A folder with what is built in the repository, which is up to date there, and a command rt before all others on PATH that
/// proves nothing. Cargo builds in the repository.
fn laid_out() -> Home {
    let home = Home::new("install", "whole", &[], "marker:\nreason:\ndimkhoros:\n");
    home.put_tool("rt", "echo 'A test has started the prover.' >&2; exit 1");
    for file in [
        "scripts/program",
        "scripts/shared_library",
        "include/dimkhoros.h",
        "include/dimkhoros_box.h",
        "share/patterns.bin",
        "share/ledger.txt",
    ] {
        home.put(file);
    }
    cc::succeed(Command::new("cp").arg("-R").arg(cc::root().join("python")).arg(&home.0));
    symlink(cc::root().join("rust"), home.0.join("rust")).unwrap();
    home::copy(Path::new(ARCHIVE), &home.0.join("crates/dimkhoros/out/libdimkhoros.a"));
    home.put_programs();
    home
}

/// The folder in which a test works.
fn own_folder(test: &str) -> PathBuf {
    installed().0.with_file_name("used").join(test)
}

/// Runs a line of the shell in a folder of this test's own, behind the line that an install ends in.
fn shell(test: &str, line: &str) -> String {
    let (prefix, using) = installed();
    let folder = own_folder(test);
    fs::create_dir_all(&folder).unwrap();
    let mut shell = Command::new("/bin/sh");
    shell.arg("-c").arg(format!("{using}\n{line}")).current_dir(folder);
    shell.env("root", cc::root()).env("prefix", prefix).env_remove("DIMKHOROS_LIB");
    cc::succeed(shell.env_remove("PKG_CONFIG_PATH").env_remove("PYTHONPATH"))
}

/// The text of the example `session`.
fn session() -> String {
    fs::read_to_string(cc::root().join("examples/session.txt")).unwrap()
}

/// Whether a program asks for the shared library when it is started.
fn asks_for_library(program: &Path) -> bool {
    let name = b"\0libdimkhoros.so.1\0";
    fs::read(program).unwrap().windows(name.len()).any(|bytes| bytes == name)
}

/// Compiles the example `session` in C with the words that this line of the shell sets, runs it, and answers whether it asks for the
/// shared library.
fn run_session(test: &str, set: &str) -> bool {
    let compile =
        "cc -std=c99 -Wall -Wextra -Werror \"$root/examples/c/session.c\" \"$@\" -o session";
    assert_eq!(shell(test, &format!("{set}\n{compile} && ./session")), session());
    asks_for_library(&own_folder(test).join("session"))
}

/// All that stands there is what was built, and the Python module is there without its tests.
#[test]
fn what_is_installed_is_what_is_built() {
    let prefix = &installed().0;
    for (place, source) in [
        ("libexec/dimkhoros/marker", built("marker")),
        ("libexec/dimkhoros/reason", built("reason")),
        ("libexec/dimkhoros/game", built("game")),
        ("include/dimkhoros.h", cc::root().join("include/dimkhoros.h")),
        ("include/dimkhoros_box.h", cc::root().join("include/dimkhoros_box.h")),
        ("lib/libdimkhoros.a", PathBuf::from(ARCHIVE)),
        ("share/dimkhoros/patterns.bin", cc::root().join("share/patterns.bin")),
        ("share/dimkhoros/ledger.txt", cc::root().join("share/ledger.txt")),
    ] {
        let [put, source] = [prefix.join(place), source].map(fs::read);
        assert!(put.unwrap() == source.unwrap(), "{place} is not what was built");
    }
    assert!(asks_for_library(&prefix.join("lib/libdimkhoros.so")), "its name in it is another one");
    let python: Vec<String> = tree(&prefix.join("lib/python"));
    assert!(python.iter().any(|line| line.starts_with("dimkhoros")), "{python:?}");
    assert!(!python.iter().any(|line| line.contains("test")), "{python:?}");
}

#[test]
fn the_programs_are_found_on_path() {
    let example = "cd \"$root/crates/marker/data\" &&";
    assert_eq!(shell("programs", &format!("{example} marker")), EXAMPLE);
    assert_eq!(shell("programs", &format!("{example} reason")), "accepted\n");
    assert_eq!(shell("programs", &format!("{example} game")), GAME);
    assert!(shell("programs", "dimkhoros --help").contains("dimkhoros"));
    let found =
        shell("programs", "for name in marker reason game dimkhoros; do command -v $name; done");
    assert!(found.lines().all(|line| Path::new(line).starts_with(installed().0.join("bin"))));
    assert_eq!(found.lines().count(), 4);
}

#[test]
fn c_is_compiled_with_either_library() {
    let header = "set -- -I \"$prefix/include\"";
    assert!(!run_session("static", &format!("{header} \"$prefix/lib/libdimkhoros.a\"")));
    assert!(run_session("shared", &format!("{header} -L \"$prefix/lib\" -ldimkhoros")));
}

/// The boxes in C need nothing else of the repository than their own folder.
#[test]
fn the_boxes_are_compiled_with_what_is_installed() {
    let compile = |name| {
        format!(
            "cc -std=c99 -Wall -Wextra -Werror -I \"$prefix/include\" \"$root/examples/c/boxes/{name}.c\" \
             \"$prefix/lib/libdimkhoros.a\" -o {name}"
        )
    };
    let run = "\"$root/examples/boxes/run\" ./peggy ./vic 2";
    shell("boxes", &format!("{} && {} && {run}", compile("peggy"), compile("vic")));
}

#[test]
fn c_is_compiled_by_pkg_config() {
    if home::on_path("pkg-config").is_none() {
        return untried(
            "pkg-config is not on PATH",
            "to compile in C by what ./install has put there for it",
        );
    }
    let version = shell("package", "pkg-config --modversion dimkhoros");
    assert_eq!(version, concat!(env!("CARGO_PKG_VERSION"), "\n"));
    let shared = "eval \"set -- $(pkg-config --cflags --libs dimkhoros)\"";
    assert!(run_session("package-shared", shared));
    let folder = "$(pkg-config --variable=libdir dimkhoros)";
    let with_static =
        format!("eval \"set -- $(pkg-config --cflags dimkhoros) {folder}/libdimkhoros.a\"");
    assert!(!run_session("package-static", &with_static));
}

/// The module loads the library of the folder that it stands in.
#[test]
fn python_finds_the_module_and_its_library() {
    if home::on_path("python3").is_none() {
        return untried(
            "python3 is not on PATH",
            "to import the module that ./install has put there",
        );
    }
    let program = "import dimkhoros; print(dimkhoros.__file__); \
                   print(*{line[line.index(\"/\"):] for line in open(\"/proc/self/maps\") if \"libdimkhoros\" in line})";
    let said = shell("python", &format!("python3 -B -c '{program}'"));
    let lines: Vec<&str> = said.split_terminator('\n').filter(|line| !line.is_empty()).collect();
    let prefix = installed().0.canonicalize().unwrap();
    assert_eq!(lines.len(), 2, "{said}");
    assert!(Path::new(lines[0]).starts_with(prefix.join("lib/python")), "{said}");
    assert!(Path::new(lines[1]).starts_with(prefix.join("lib")), "{said}");
}
