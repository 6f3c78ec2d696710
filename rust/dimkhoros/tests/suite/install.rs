//! The script `./install`: what it puts where, what it builds before, and how it fails. The archive, the shared library and the
//! Python module are files of a few bytes here, which the script copies, and the tool is a script that writes pages; `installed.rs` uses those that are built.

use crate::cc;
use crate::home::{Ended, Home, built, ended};
use crate::tree::{tree, untried};

use std::fs::{self, File, OpenOptions, Permissions};
use std::io;
use std::os::unix::fs::{MetadataExt, PermissionsExt, symlink};
use std::path::Path;
use std::process::Command;

/// What the script needs beside the shell.
const TOOLS: [&str; 17] = [
    "awk", "cat", "chmod", "cp", "cut", "dirname", "find", "grep", "ln", "mkdir", "mv", "rm",
    "rmdir", "sed", "sort", "tail", "touch",
];

/// A list of crates in which the archive and the three programs are made of seven.
const CRATES: &str = "laws:\nothers: laws\ncode: io laws\ndimkhoros: code\nmarker: io code\nreason: io code others\n\
                      game: io code\ntrials: laws\n";

/// Files of a Python module, then such as are not installed.
const MODULE: [&str; 2] = ["python/README.md", "python/dimkhoros/__init__.py"];
const NO_MODULE: [&str; 7] = [
    "python/pyproject.toml",
    "python/wheel_backend.py",
    "python/tests/test_calls.py",
    "python/tests/calls.py",
    "python/dimkhoros/test_calls.py",
    "python/dimkhoros/.kept",
    "python/dimkhoros/__pycache__/__init__.cpython-311.pyc",
];

/// What an install puts under PREFIX, with the modes.
const TREE: [&str; 56] = [
    "bin/ 755",
    "bin/dimkhoros 755",
    "bin/game 755",
    "bin/marker 755",
    "bin/reason 755",
    "include/ 755",
    "include/dimkhoros.h 644",
    "include/dimkhoros_box.h 644",
    "lib/ 755",
    "lib/libdimkhoros.a 644",
    "lib/libdimkhoros.so -> libdimkhoros.so.1",
    "lib/libdimkhoros.so.1 755",
    "lib/pkgconfig/ 755",
    "lib/pkgconfig/dimkhoros.pc 644",
    "lib/python/ 755",
    "lib/python/README.md 644",
    "lib/python/dimkhoros/ 755",
    "lib/python/dimkhoros/__init__.py 644",
    "lib/python/dimkhoros/verbs.py 644",
    "libexec/ 755",
    "libexec/dimkhoros/ 755",
    "libexec/dimkhoros/game 755",
    "libexec/dimkhoros/marker 755",
    "libexec/dimkhoros/reason 755",
    "share/ 755",
    "share/bash-completion/ 755",
    "share/bash-completion/completions/ 755",
    "share/bash-completion/completions/dimkhoros 644",
    "share/dimkhoros/ 755",
    "share/dimkhoros/installed.txt 644",
    "share/dimkhoros/ledger.txt 644",
    "share/dimkhoros/patterns.bin 644",
    "share/doc/ 755",
    "share/doc/dimkhoros/ 755",
    "share/doc/dimkhoros/README.md 644",
    "share/doc/dimkhoros/docs/ 755",
    "share/doc/dimkhoros/docs/AUTHORS.md 644",
    "share/doc/dimkhoros/examples/ 755",
    "share/doc/dimkhoros/examples/boxes/ 755",
    "share/doc/dimkhoros/examples/boxes/run 755",
    "share/doc/dimkhoros/examples/team.c 644",
    "share/doc/dimkhoros/python/ 755",
    "share/doc/dimkhoros/python/README.md 644",
    "share/doc/dimkhoros/rust/ 755",
    "share/doc/dimkhoros/rust/tool/ 755",
    "share/doc/dimkhoros/rust/tool/README.md 644",
    "share/fish/ 755",
    "share/fish/vendor_completions.d/ 755",
    "share/fish/vendor_completions.d/dimkhoros.fish 644",
    "share/man/ 755",
    "share/man/man1/ 755",
    "share/man/man1/dimkhoros-make.1 644",
    "share/man/man1/dimkhoros.1 644",
    "share/zsh/ 755",
    "share/zsh/site-functions/ 755",
    "share/zsh/site-functions/_dimkhoros 644",
];

/// What the tool's pages leave out where there is no tool.
const OF_TOOL: [&str; 5] =
    ["bin/dimkhoros", "share/bash-completion", "share/fish", "share/man", "share/zsh"];

/// A tool that writes pages.
const TOOL: &str = "#!/bin/sh
mkdir -p \"$2\" && cd \"$2\" || exit 1
for page in dimkhoros.1 dimkhoros-make.1 dimkhoros.bash _dimkhoros dimkhoros.fish; do echo $page >$page; done
";

/// What is said where the tool is old or missing, and cargo is not there.
const NO_CARGO: &str =
    "install: bin/dimkhoros is not installed: the command cargo, which builds it, is not on PATH\n";

/// The folder of a test, in which all is built and up to date.
fn laid_out(test: &str) -> Home {
    let home = Home::new("install", test, &TOOLS, CRATES);
    home.put("scripts/shared_library");
    home.put("scripts/program");
    home.put("examples/boxes/run");
    home.put("include/dimkhoros.h");
    home.put("include/dimkhoros_box.h");
    home.put("share/patterns.bin");
    home.put("share/ledger.txt");
    home.put("rust/dimkhoros/Cargo.toml");
    for file in MODULE.iter().chain(&NO_MODULE).chain(&["python/dimkhoros/verbs.py"]) {
        write(&home, file);
    }
    fs::create_dir_all(home.0.join("rust/target/release")).unwrap();
    home.put_programs();
    write(&home, "crates/dimkhoros/out/libdimkhoros.a");
    write(&home, "crates/dimkhoros/out/libdimkhoros.so");
    for file in ["README.md", "docs/AUTHORS.md", "examples/team.c", "rust/tool/README.md"] {
        write(&home, file);
    }
    let tool = home.0.join("rust/target/release/dimkhoros");
    fs::write(&tool, TOOL).unwrap();
    fs::set_permissions(&tool, Permissions::from_mode(0o755)).unwrap();
    home
}

/// Writes a file that has its own name in it.
fn write(home: &Home, file: &str) {
    let place = home.0.join(file);
    fs::create_dir_all(place.parent().unwrap()).unwrap();
    fs::write(place, file).unwrap();
}

/// What an install comes to that fails before anything is said on standard output.
fn failed(status: i32, line: &str) -> Ended {
    Ended { status: Some(status), stdout: String::new(), stderr: format!("install: {line}\n") }
}

/// The lines of TREE but for those that begin with one of these.
fn without(left_out: &[&str]) -> Vec<String> {
    let kept = |line: &&&str| !left_out.iter().any(|name| line.starts_with(name));
    TREE.iter().filter(kept).map(|line| line.to_string()).collect()
}

/// The whole path of a file of the folder, as the script writes it.
fn path(home: &Home, file: &str) -> String {
    home.0.join(file).to_str().unwrap().to_string()
}

/// Installs in this folder of the test's, which has to end well with nothing on standard error, and answers what it printed.
fn install(home: &Home, prefix: &str) -> String {
    let Ended { status, stdout, stderr } = home.run(&[prefix]);
    assert_eq!((status, stderr.as_str()), (Some(0), ""));
    stdout
}

/// The modes do not depend on the mask of whoever installs.
#[test]
fn all_files_stand_in_their_places() {
    let home = laid_out("files");
    let mut shell = Command::new("/bin/sh");
    shell.args(["-c", "umask 077; exec ./install 'one two/prefix'"]);
    assert_eq!(ended(home.prepared(&mut shell)).status, Some(0));
    assert_eq!(tree(&home.0.join("one two/prefix")), without(&[]));
    let prefix = home.0.join("one two/prefix");
    for (place, source) in [
        ("bin/dimkhoros", "rust/target/release/dimkhoros"),
        ("bin/marker", "scripts/program"),
        ("bin/reason", "scripts/program"),
        ("bin/game", "scripts/program"),
        ("libexec/dimkhoros/marker", "crates/marker/out/marker"),
        ("libexec/dimkhoros/reason", "crates/reason/out/reason"),
        ("libexec/dimkhoros/game", "crates/game/out/game"),
        ("include/dimkhoros.h", "include/dimkhoros.h"),
        ("include/dimkhoros_box.h", "include/dimkhoros_box.h"),
        ("lib/libdimkhoros.a", "crates/dimkhoros/out/libdimkhoros.a"),
        ("lib/libdimkhoros.so", "crates/dimkhoros/out/libdimkhoros.so"),
        ("share/dimkhoros/patterns.bin", "share/patterns.bin"),
        ("share/dimkhoros/ledger.txt", "share/ledger.txt"),
        ("lib/python/dimkhoros/verbs.py", "python/dimkhoros/verbs.py"),
    ] {
        let [put, source] = [prefix.join(place), home.0.join(source)].map(fs::read);
        assert!(put.unwrap() == source.unwrap(), "{place} is not what was built");
    }
}

#[test]
fn the_end_says_what_is_where_and_how_to_use_it() {
    let home = laid_out("says");
    let said = install(&home, "it's");
    let prefix = path(&home, "it's");
    let mut lines = said.lines();
    assert_eq!(lines.next(), Some(format!("In {prefix}:").as_str()));
    let named: Vec<&str> = lines.by_ref().take_while(|line| line.starts_with("  ")).collect();
    for name in named.iter().flat_map(|line| line[2..34].split(", ")).map(str::trim) {
        assert!(home.0.join("it's").join(name).exists(), "{name} is said to be there");
    }
    assert_eq!(named.len(), 13);
    let used = format!(
        "{}\necho \"$PATH\n$PKG_CONFIG_PATH\n$LD_LIBRARY_PATH\n$PYTHONPATH\"",
        lines.next().unwrap()
    );
    let mut shell = Command::new("/bin/sh");
    shell.args(["-c", &used]).env("PATH", "/bin").env("PYTHONPATH", "/own");
    let shell = ended(shell.env_remove("PKG_CONFIG_PATH").env("LD_LIBRARY_PATH", ""));
    let expected = format!(
        "{prefix}/bin:/bin\n{prefix}/lib/pkgconfig\n{prefix}/lib\n{prefix}/lib/python:/own\n"
    );
    assert_eq!((shell.stdout, shell.stderr.as_str()), (expected, ""));
    assert_eq!(lines.next(), None);
}

/// What a program under bin/ comes to with these words, in a folder beside PREFIX.
fn program(home: &Home, name: &str, words: &[&str]) -> Ended {
    let mut command = Command::new(home.0.join("prefix/bin").join(name));
    command.args(words).current_dir(cc::root().join("crates/marker/data"));
    ended(&mut command)
}

/// The programs read no words, so that a text on this folder would be taken for one on the folder that is named.
#[test]
fn the_programs_refuse_words() {
    let home = laid_out("program");
    install(&home, "prefix");
    let wants = [
        ("marker", "marks", "dimkhoros mark a/b"),
        ("reason", "tells about", "dimkhoros reason a/b"),
        ("game", "plays in", "(cd a/b && game)"),
    ];
    for (name, does, other) in wants {
        let mut itself = Command::new(built(name));
        let itself = ended(itself.current_dir(cc::root().join("crates/marker/data")));
        assert_eq!(program(&home, name, &[]), itself);
        let begins = format!("{name} takes no words: it {does} the folder that it is run in; ");
        let refused = |hint: &str| {
            let stderr = format!("{begins}{hint}\n");
            Ended { status: Some(2), stdout: String::new(), stderr }
        };
        let hint = format!("`{other}` {does} that one");
        assert_eq!(program(&home, name, &["a/b"]), refused(&hint));
        for word in ["--version", "", "-"] {
            assert_eq!(program(&home, name, &[word]), refused(&format!("{name} --help says more")));
        }
        let help = program(&home, name, &["--help"]);
        assert_eq!((help.status, help.stderr.as_str()), (Some(0), ""));
        assert!(help.stdout.starts_with(&format!("usage: {name}\n\n")), "{}", help.stdout);
    }
}

/// Also by a link from elsewhere, and after the folder is moved.
#[test]
fn the_programs_are_found_from_their_scripts() {
    let home = laid_out("moved");
    install(&home, "here");
    fs::rename(home.0.join("here"), home.0.join("prefix")).unwrap();
    symlink("prefix/bin/marker", home.0.join("link")).unwrap();
    let text = program(&home, "marker", &[]);
    assert!(text.stdout.starts_with("rounds "), "{text:?}");
    let mut link = Command::new(home.0.join("link"));
    assert_eq!(ended(link.current_dir(cc::root().join("crates/marker/data"))), text);
}

/// The file for pkg-config has the version of this crate, and no path of the folder in which it was written.
#[test]
fn the_pkg_config_file_fits_wherever_the_folder_is() {
    let home = laid_out("package");
    install(&home, "prefix");
    let text = home.text("prefix/lib/pkgconfig/dimkhoros.pc");
    let lines: Vec<&str> = text.lines().collect();
    assert_eq!(lines[0], "prefix=${pcfiledir}/../..");
    assert!(lines.contains(&concat!("Version: ", env!("CARGO_PKG_VERSION"))), "{text}");
    assert!(!text.contains(home.0.to_str().unwrap()));
}

#[test]
fn a_prefix_may_be_relative() {
    let home = laid_out("relative");
    let elsewhere = home.0.join("else where");
    fs::create_dir(&elsewhere).unwrap();
    for (word, place) in [("in/side", "in/side"), ("./a/.", "a"), ("b//", "b"), ("../c", "../c")] {
        let run = ended(home.command(&[word]).current_dir(&elsewhere));
        assert_eq!((run.status, run.stderr.as_str()), (Some(0), ""));
        assert!(run.stdout.starts_with(&format!("In {}/{place}:\n", elsewhere.to_str().unwrap())));
        assert_eq!(tree(&elsewhere.join(place)), without(&[]));
    }
}

#[test]
fn two_hyphens_end_the_options() {
    let home = laid_out("hyphens");
    for name in ["--remove", "--help", "-"] {
        assert_eq!(home.run(&["--", name]).status, Some(0));
        assert_eq!(tree(&home.0.join(name)), without(&[]));
        assert_eq!(home.run(&["--remove", "--", name]).status, Some(0));
        assert!(!home.0.join(name).exists());
    }
}

/// Under DESTDIR all is for PREFIX, which is not written to.
#[test]
fn destdir_stands_before_the_prefix() {
    let home = laid_out("destdir");
    let (stage, prefix) = (path(&home, "sta ge"), path(&home, "prefix"));
    for destdir in [stage.as_str(), "sta ge/"] {
        let run = ended(home.command(&[&prefix]).env("DESTDIR", destdir));
        assert_eq!((run.status, run.stderr.as_str()), (Some(0), ""));
        assert!(run.stdout.starts_with(&format!("In {stage}{prefix}:\n")), "{}", run.stdout);
        assert!(run.stdout.contains(&format!("  d='{prefix}'; export PATH=")), "{}", run.stdout);
        assert_eq!(tree(Path::new(&format!("{stage}{prefix}"))), without(&[]));
        assert!(!Path::new(&prefix).exists());
        let run = ended(home.command(&["--remove", &prefix]).env("DESTDIR", destdir));
        assert_eq!(run.status, Some(0));
        assert!(!Path::new(&format!("{stage}{prefix}")).exists());
    }
}

#[test]
fn unknown_options_install_nothing() {
    let home = laid_out("words");
    let before = tree(&home.0);
    for option in ["-", "-x", "--mark", "--help=yes", "--prefix=a"] {
        let line = format!("there is no option {option}; ./install --help says what there is");
        assert_eq!(home.run(&[option]), failed(2, &line));
        assert_eq!(home.run(&["a", option]), failed(2, &line));
    }
    assert_eq!(tree(&home.0), before);
}

#[test]
fn one_folder_is_named() {
    let home = laid_out("count");
    let before = tree(&home.0);
    for (words, count) in
        [(&[][..], 0), (&["--remove"], 0), (&["a", "b"], 2), (&["--", "a", "--remove", ""], 3)]
    {
        let line =
            format!("name one folder PREFIX, and not {count}; ./install --help says what there is");
        assert_eq!(home.run(words), failed(2, &line));
    }
    assert_eq!(home.run(&[""]), failed(2, "the name of PREFIX is empty"));
    assert_eq!(home.run(&["--remove", ""]), failed(2, "the name of PREFIX is empty"));
    assert_eq!(tree(&home.0), before);
}

#[test]
fn help_is_printed_and_installs_nothing() {
    let home = laid_out("help");
    let before = tree(&home.0);
    let help = home.run(&["a", "--help"]);
    assert_eq!((help.status, help.stderr.as_str()), (Some(0), ""));
    assert_eq!(home.run(&["-h"]), help);
    assert!(help.stdout.lines().all(|line| line.chars().count() <= 80), "{}", help.stdout);
    let usage = "usage: ./install [--] PREFIX\n       ./install --remove [--] PREFIX\n";
    assert!(help.stdout.starts_with(usage));
    for line in TREE.iter().filter(|line| line.starts_with("bin/") || line.starts_with("lib/")) {
        let name = line.split(' ').next().unwrap().trim_end_matches(".1");
        let name = if name.starts_with("lib/python/") { "lib/python" } else { name };
        assert!(name.ends_with('/') || help.stdout.contains(name), "the help does not name {name}");
    }
    assert_eq!(tree(&home.0), before);
}

#[test]
fn a_prefix_that_cannot_be_written_is_named() {
    let home = laid_out("unwritten");
    write(&home, "file");
    let file = path(&home, "file");
    for word in ["file", "file/in/side"] {
        let line =
            format!("the folder {} cannot be written: {file} is not a folder", path(&home, word));
        assert_eq!(home.run(&[word]), failed(1, &line));
    }
    write(&home, "part/lib");
    let line = format!("the folder {} cannot be made: File exists", path(&home, "part/lib"));
    assert_eq!(home.run(&["part"]), failed(1, &line));
    assert_eq!(tree(&home.0.join("part")).len(), 1);
    fs::create_dir_all(home.0.join("whole/bin/marker")).unwrap();
    let line = format!("{} cannot be written: it is a folder", path(&home, "whole/bin/marker"));
    assert_eq!(home.run(&["whole"]), failed(1, &line));
    home.put_tool(
        "cp",
        "echo \"cp: error writing 'x': No space left on device\" >&2; >\"$2\"; exit 1",
    );
    let line =
        format!("{} cannot be written: No space left on device", path(&home, "full/bin/marker"));
    assert_eq!(home.run(&["full"]), failed(1, &line));
    assert!(!tree(&home.0.join("full")).iter().any(|line| line.starts_with("bin/.")));
}

/// Whoever may write everywhere is not kept from a folder by its mode.
#[test]
fn a_folder_that_does_not_allow_it_is_named() {
    let home = laid_out("closed");
    let closed = home.0.join("closed");
    fs::create_dir(&closed).unwrap();
    fs::set_permissions(&closed, Permissions::from_mode(0o555)).unwrap();
    let name = path(&home, "closed");
    if File::create(closed.join("file")).is_ok() {
        untried("the mode 555 keeps this user from nothing", "./install PREFIX in such a folder");
    } else {
        for word in ["closed", "closed/in"] {
            let line = format!(
                "the folder {} cannot be written: {name} does not allow it",
                path(&home, word)
            );
            assert_eq!(home.run(&[word]), failed(1, &line));
        }
    }
    fs::set_permissions(&closed, Permissions::from_mode(0o755)).unwrap();
}

#[test]
fn the_repository_itself_is_no_prefix() {
    let home = laid_out("itself");
    let before = tree(&home.0);
    for words in [&["."][..], &["scripts/.."], &["--remove", "."]] {
        let run = home.run(words);
        assert_eq!((run.status, run.stdout.as_str()), (Some(1), ""));
        assert!(run.stderr.contains(" is the repository itself, "), "{}", run.stderr);
    }
    assert_eq!(tree(&home.0), before);
}

#[test]
fn a_list_that_cannot_be_written_is_told_of() {
    let home = laid_out("full");
    let full = OpenOptions::new().write(true).open("/dev/full").unwrap();
    let run = ended(home.command(&["prefix"]).stdout(full));
    assert_eq!(run, failed(1, "the list of what is where cannot be written"));
    assert_eq!(tree(&home.0.join("prefix")), without(&[]));
}

/// A file is replaced as a whole: whoever has the old one open keeps it.
#[test]
fn an_install_replaces_an_earlier_one() {
    let home = laid_out("again");
    install(&home, "prefix");
    let program = home.0.join("prefix/bin/dimkhoros");
    let open = File::open(&program).unwrap();
    let another = format!("{TOOL}# another\n");
    fs::write(home.0.join("rust/target/release/dimkhoros"), &another).unwrap();
    fs::remove_file(home.0.join("python/dimkhoros/verbs.py")).unwrap();
    install(&home, "prefix");
    assert_eq!(fs::read_to_string(&program).unwrap(), another);
    assert_eq!(open.metadata().unwrap().nlink(), 0);
    assert_eq!(io::read_to_string(open).unwrap(), TOOL);
    let gone = ["lib/python/dimkhoros/verbs.py"];
    assert_eq!(tree(&home.0.join("prefix")), without(&gone));
}

#[test]
fn remove_takes_out_what_was_put_there() {
    let home = laid_out("remove");
    for folder in ["prefix/lib", "prefix/share/dimkhoros/empty", "prefix/own"] {
        fs::create_dir_all(home.0.join(folder)).unwrap();
    }
    write(&home, "prefix/bin/own");
    write(&home, "prefix/lib/python/dimkhoros/__pycache__/own.pyc");
    let before = tree(&home.0.join("prefix"));
    install(&home, "prefix");
    install(&home, "prefix");
    write(&home, "prefix/lib/python/dimkhoros/__pycache__/verbs.cpython-311.pyc");
    let removed = home.run(&["--remove", "prefix"]);
    let line = format!("Taken out of {}.\n", path(&home, "prefix"));
    assert_eq!(removed, Ended { status: Some(0), stdout: line, stderr: String::new() });
    assert_eq!(tree(&home.0.join("prefix")), before);
    let list = path(&home, "prefix/share/dimkhoros/installed.txt");
    let line = format!("the list {list} is missing, which says what to take out");
    assert_eq!(home.run(&["--remove", "prefix"]), failed(1, &line));
}

/// The list stays until all else is gone.
#[test]
fn a_file_that_cannot_be_removed_is_named() {
    let home = laid_out("kept");
    install(&home, "prefix");
    let marker = home.0.join("prefix/bin/marker");
    fs::remove_file(&marker).unwrap();
    fs::create_dir(&marker).unwrap();
    let line = format!("{} cannot be removed: Is a directory", marker.to_str().unwrap());
    assert_eq!(home.run(&["--remove", "prefix"]), failed(1, &line));
    fs::remove_dir(&marker).unwrap();
    assert_eq!(home.run(&["--remove", "prefix"]).status, Some(0));
    assert!(!home.0.join("prefix").exists());
}

/// What an earlier install put there and this one leaves out does not stay beside newer files.
#[test]
fn without_cargo_the_tool_is_left_out() {
    let home = laid_out("cargo");
    install(&home, "prefix");
    fs::remove_file(home.0.join("rust/target/release/dimkhoros")).unwrap();
    for prefix in ["prefix", "fresh"] {
        let run = home.run(&[prefix]);
        assert_eq!((run.status, run.stderr.as_str()), (Some(1), NO_CARGO));
        assert!(!run.stdout.contains("bin/dimkhoros"));
        assert_eq!(tree(&home.0.join(prefix)), without(&OF_TOOL));
    }
}

/// By time, as the programs are.
#[test]
fn without_cargo_an_old_tool_is_left_out() {
    let home = laid_out("old");
    for changed in
        ["rust/dimkhoros/Cargo.toml", "rust/dimkhoros", "crates/dimkhoros/out/libdimkhoros.a"]
    {
        install(&home, "prefix");
        home.date(changed, true);
        home.date("crates/dimkhoros/out/libdimkhoros.so", true);
        assert_eq!(home.run(&["prefix"]).stderr, NO_CARGO, "{changed} has changed");
        home.date(changed, false);
    }
}

#[test]
fn the_tool_is_built_by_cargo() {
    let home = laid_out("builds");
    home.date("rust/target/release/dimkhoros", false);
    home.put_tool(
        "cargo",
        "pwd >>../asked; echo \"$@\" >>../asked; echo '# built' >>target/release/dimkhoros",
    );
    let run = home.run(&["prefix"]);
    assert_eq!(run.status, Some(0));
    assert!(run.stderr.starts_with("install: building the tool; "), "{}", run.stderr);
    assert_eq!(run.stderr.lines().count(), 1);
    let words = "build --offline --release -p dimkhoros-tool --target-dir target";
    assert_eq!(home.text("asked"), format!("{}\n{words}\n", path(&home, "rust")));
    assert_eq!(home.text("prefix/bin/dimkhoros"), format!("{TOOL}# built\n"));
    install(&home, "prefix");
}

#[test]
fn a_tool_that_cannot_be_built_is_left_out() {
    let home = laid_out("unbuilt");
    fs::remove_file(home.0.join("rust/target/release/dimkhoros")).unwrap();
    for does in ["for line in 1 2 3 4 5 6; do echo \"error $line\" >&2; done\nexit 1", "echo done"]
    {
        home.put_tool("cargo", does);
        let run = home.run(&["prefix"]);
        let log = path(&home, "target/install.log");
        let last = format!(
            "install: bin/dimkhoros is not installed: cargo cannot build it; its whole output is in {log}"
        );
        assert_eq!((run.status, run.stderr.lines().last()), (Some(1), Some(last.as_str())));
        assert_eq!(tree(&home.0.join("prefix")), without(&OF_TOOL));
        assert!(matches!(home.text("target/install.log").lines().count(), 1 | 6));
    }
}

#[test]
fn without_a_compiler_the_shared_library_is_left_out() {
    let home = laid_out("cc");
    install(&home, "prefix");
    fs::remove_file(home.0.join("crates/dimkhoros/out/libdimkhoros.so")).unwrap();
    let run = home.run(&["prefix"]);
    let begins = "install: lib/libdimkhoros.so is not installed: ";
    assert_eq!(run.status, Some(1));
    assert!(run.stderr.starts_with(begins) && run.stderr.contains("cc"), "{}", run.stderr);
    assert_eq!(run.stderr.lines().count(), 1);
    assert!(!run.stdout.contains("lib/libdimkhoros.so"));
    assert_eq!(tree(&home.0.join("prefix")), without(&["lib/libdimkhoros.so"]));
}

#[test]
fn without_rt_nothing_old_is_installed() {
    let home = laid_out("rt");
    let before = tree(&home.0);
    for name in [
        "crates/dimkhoros/out/libdimkhoros.a",
        "crates/marker/out/marker",
        "crates/reason/out/reason",
        "crates/game/out/game",
    ] {
        home.date(name, false);
        let line = format!(
            "{} is missing or older than its sources, and the command rt, which builds it, is not on PATH",
            path(&home, name)
        );
        assert_eq!(home.run(&["prefix"]), failed(1, &line));
        home.date(name, true);
    }
    assert_eq!(tree(&home.0), before);
}

/// The crates are proved in one call, which does it side by side, and the programs and the archive are built by others.
#[test]
fn what_is_old_is_built_once() {
    let home = laid_out("build");
    home.date("crates/reason/out/reason", false);
    home.date("crates/dimkhoros/out/libdimkhoros.so", true);
    home.date("rust/target/release/dimkhoros", true);
    home.put_tool("rt", "echo \"${PWD##*/} $*\" >>\"$ASKED\"\necho 'rt: ok'");
    let run = home.run(&["prefix"]);
    let begins = "install: proving 7 crates and building libdimkhoros.a with marker, reason and game, unless they are proved \
                  already; about 5 minutes on two processors\ninstall: proving the crate of the exports and building \
                  libdimkhoros.a; about 30 seconds on two processors\n";
    assert_eq!(run.stderr, begins);
    let asked = "build all check\nmarker run\nreason run\ngame run\ndimkhoros lib\n";
    assert_eq!((run.status, home.text("asked").as_str()), (Some(0), asked));
    install(&home, "prefix");
    assert_eq!(home.text("asked"), asked);
    assert!(
        fs::read(home.0.join("prefix/libexec/dimkhoros/reason")).unwrap()
            == fs::read(built("reason")).unwrap()
    );
}

#[test]
fn a_failed_proof_names_its_log_and_installs_nothing() {
    let home = laid_out("failed");
    home.date("crates/marker/out/marker", false);
    home.put_tool("rt", "echo 'rt: no proof' >&2; exit 1");
    let run = home.run(&["prefix"]);
    let lines: Vec<&str> = run.stderr.lines().collect();
    let log = path(&home, "target/install.log");
    let last = format!(
        "install: libdimkhoros.a with marker, reason and game is not built; the prover's whole output is in {log}"
    );
    assert_eq!((run.status, &lines[1..]), (Some(1), &["rt: no proof", last.as_str()][..]));
    assert!(!home.0.join("prefix").exists());
}
