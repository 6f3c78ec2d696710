//! The script `./run`, which marks folders, says the reason on them or plays the game on them.

use crate::cc;
use crate::home::{Ended, Home, built, copy, ended};

use std::fs::{self, OpenOptions};
use std::os::unix::fs::symlink;
use std::process::{Command, Stdio};

/// The marker's text on 01's example.
pub const EXAMPLE: &str = "rounds 4\n0 accepted\n1 accepted\n2 rejected 0\n3 refused 14\nfail\n";

/// The game's text on 01's example.
pub const GAME: &str = "0 5\n1 1\n2 8\n3 4\n4 0\n5 7\n6 3\n7 10\n8 6\n9 2\n10 9\n";

/// What the script needs beside the shell.
const TOOLS: [&str; 7] = ["awk", "cat", "dirname", "find", "mkdir", "tail", "touch"];

/// A list of crates in which the programs `marker` and `game` are made of three and the program `reason` of four.
const CRATES: &str = "# Ours.\nlaws:\nothers: laws\ncode: io laws\n\nmarker: io code\nreason: io code others\ngame: io code\n";

/// What a program says where its text cannot be written.
fn unwritten(program: &str) -> String {
    format!("{program}: the text cannot be written whole")
}

/// The folder of a test, with 01's example, a folder without files and the three programs, which are up to date.
fn laid_out(test: &str) -> Home {
    let home = Home::new("run", test, &TOOLS, CRATES);
    for file in ["sheet.bin", "rounds.bin", "level.bin"] {
        home.put(&format!("crates/marker/data/{file}"));
    }
    fs::create_dir(home.0.join("no files")).unwrap();
    home.put_programs();
    home
}

/// What a run comes to that prints this text and says nothing else.
fn marked(stdout: &str) -> Ended {
    Ended { status: Some(0), stdout: stdout.to_string(), stderr: String::new() }
}

/// What a run comes to that prints these lines of the program `reason`, of which one at least is `accepted`.
fn accepted(stdout: &str) -> Ended {
    let stderr = "run: `accepted` is about round 0 alone; ./run FOLDER says whether the whole file passes, \
                  and `dimkhoros reason FOLDER` why not\n";
    Ended { stderr: stderr.to_string(), ..marked(stdout) }
}

/// What a run comes to that prints nothing and says this line.
fn failed(status: i32, line: &str) -> Ended {
    Ended { status: Some(status), stdout: String::new(), stderr: format!("run: {line}\n") }
}

#[test]
fn without_a_folder_the_example_is_marked() {
    let home = laid_out("example");
    assert_eq!(home.run(&[]), marked(EXAMPLE));
    assert_eq!(home.run(&["--"]), marked(EXAMPLE));
}

#[test]
fn one_folder_gives_the_markers_text_alone() {
    let home = laid_out("one");
    assert_eq!(home.run(&["crates/marker/data"]), marked(EXAMPLE));
    assert_eq!(home.run(&["no files"]), marked("sheet 2\n"));
    let whole = home.0.join("crates/marker/data");
    assert_eq!(home.run(&[whole.to_str().unwrap()]), marked(EXAMPLE));
}

#[test]
fn several_folders_are_marked_under_their_names() {
    let home = laid_out("several");
    let expected = format!("crates/marker/data:\n{EXAMPLE}no files:\nsheet 2\n");
    assert_eq!(home.run(&["crates/marker/data", "no files"]), marked(&expected));
}

#[test]
fn a_missing_folder_is_named_and_the_others_are_marked() {
    let home = laid_out("missing");
    let alone = failed(1, "the folder nobody cannot be entered");
    assert_eq!(home.run(&["nobody"]), alone);
    let stdout = format!("crates/marker/data:\n{EXAMPLE}no files:\nsheet 2\n");
    let expected = Ended { stdout, ..alone };
    assert_eq!(home.run(&["crates/marker/data", "nobody", "no files"]), expected);
}

#[test]
fn wrong_words_mark_nothing() {
    let home = laid_out("words");
    let empty = failed(2, "a folder's name is empty");
    assert_eq!(home.run(&[""]), empty);
    assert_eq!(home.run(&["--", ""]), empty);
    assert_eq!(home.run(&["no files", ""]), empty);
    for option in ["-", "-x", "--mark", "--help=yes"] {
        let line = format!("there is no option {option}; ./run --help says what there is");
        assert_eq!(home.run(&[option]), failed(2, &line));
        assert_eq!(home.run(&["no files", option]), failed(2, &line));
    }
}

#[test]
fn help_is_printed_and_marks_nothing() {
    let help = laid_out("help").run(&["--help"]);
    assert_eq!((help.status, help.stderr.as_str()), (Some(0), ""));
    assert_eq!(laid_out("short help").run(&["-h"]), help);
    assert!(help.stdout.lines().all(|line| line.chars().count() <= 80), "{}", help.stdout);
    let usage = "usage: ./run [--] [FOLDER...]\n       ./run reason [--] [FOLDER...]\n       ./run game [--] [FOLDER...]\n";
    assert!(help.stdout.starts_with(usage));
    assert!(!help.stdout.contains("rounds 4"));
}

#[test]
fn behind_the_word_reason_each_folder_gets_its_line() {
    let home = laid_out("reason");
    assert_eq!(home.run(&["reason"]), accepted("accepted\n"));
    assert_eq!(home.run(&["reason", "--", "crates/marker/data"]), accepted("accepted\n"));
    assert_eq!(home.run(&["reason", "no files"]), marked("refused 2 length 0\n"));
    let several = "no files:\nrefused 2 length 0\ncrates/marker/data:\naccepted\n";
    assert_eq!(home.run(&["reason", "no files", "crates/marker/data"]), accepted(several));
    let missing = failed(1, "the folder nobody cannot be entered");
    assert_eq!(home.run(&["reason", "nobody"]), missing);
    assert_eq!(home.run(&["reason", ""]), failed(2, "a folder's name is empty"));
    assert_eq!(home.run(&["reason", "--help"]), home.run(&["--help"]));
}

#[test]
fn behind_the_word_game_each_folder_gets_its_text() {
    let home = laid_out("game");
    assert_eq!(home.run(&["game"]), marked(GAME));
    assert_eq!(home.run(&["game", "--", "crates/marker/data"]), marked(GAME));
    assert_eq!(home.run(&["game", "no files"]), marked("refused 2\n"));
    let several = format!("no files:\nrefused 2\ncrates/marker/data:\n{GAME}");
    assert_eq!(home.run(&["game", "no files", "crates/marker/data"]), marked(&several));
    let missing = failed(1, "the folder nobody cannot be entered");
    assert_eq!(home.run(&["game", "nobody"]), missing);
    assert_eq!(home.run(&["game", ""]), failed(2, "a folder's name is empty"));
    assert_eq!(home.run(&["game", "--help"]), home.run(&["--help"]));
}

/// The example's round 0 is accepted and its file fails, so the line is not said alone. It is said once of all folders, and of no
/// folder that is only marked.
#[test]
fn accepted_is_said_to_be_on_round_0() {
    let home = laid_out("round-0");
    let example = "crates/marker/data";
    assert!(home.run(&[example]).stdout.ends_with("\nfail\n"));
    let twice = format!("{example}:\naccepted\n").repeat(2);
    assert_eq!(home.run(&["reason", example, example]), accepted(&twice));
    assert_eq!(home.run(&[example]), marked(EXAMPLE));
    let Ended { status, stdout, stderr } = home.run(&["reason", example, "nobody"]);
    assert_eq!((status, stdout), (Some(1), format!("{example}:\naccepted\n")));
    let missing = failed(1, "the folder nobody cannot be entered").stderr;
    assert_eq!(stderr, missing + &accepted("").stderr);
}

/// The word is one only where it stands first.
#[test]
fn a_folder_called_reason_or_game_is_marked() {
    let home = laid_out("called");
    let sheet = fs::read(home.0.join("crates/marker/data/sheet.bin")).unwrap();
    for (word, line) in [("reason", "refused 9 length 27\n"), ("game", "refused 9\n")] {
        fs::create_dir(home.0.join(word)).unwrap();
        fs::write(home.0.join(word).join("sheet.bin"), &sheet[..27]).unwrap();
        assert_eq!(home.run(&[&format!("./{word}")]), marked("sheet 9\n"));
        assert_eq!(home.run(&["--", word]), marked("sheet 9\n"));
        let both = format!("no files:\nsheet 2\n{word}:\nsheet 9\n");
        assert_eq!(home.run(&["no files", word]), marked(&both));
        assert_eq!(home.run(&[word, word]), marked(line));
    }
}

/// The level stands beside the other two files, and the programs `reason` and `game` do not read it.
#[test]
fn a_folder_without_a_level_is_not_marked_by_rounds() {
    let home = laid_out("level");
    fs::remove_file(home.0.join("crates/marker/data/level.bin")).unwrap();
    home.date("crates/marker/data", false);
    assert_eq!(home.run(&[]), marked("level 25\n"));
    assert_eq!(home.run(&["reason"]), accepted("accepted\n"));
    assert_eq!(home.run(&["game"]), marked(GAME));
}

/// The script on the page for authors is told a pass by the last line. With K = 11 one round passes at the level 3.
#[test]
fn a_script_tells_a_pass() {
    let home = laid_out("script");
    let passing = home.0.join("passing");
    fs::create_dir(&passing).unwrap();
    copy(&cc::root().join("crates/marker/data/sheet.bin"), &passing.join("sheet.bin"));
    let rounds = b"RND\0\x01\0\x01\0\0\0\x09\0\0\0\x03\0\0\0\x04";
    fs::write(passing.join("rounds.bin"), rounds).unwrap();
    fs::write(passing.join("level.bin"), [3]).unwrap();
    let page = fs::read_to_string(cc::root().join("docs/AUTHORS.md")).unwrap();
    let script = page.lines().find(|line| line.contains("= pass ]")).unwrap();
    for (folder, said) in [("passing", "passing passes\n"), ("crates/marker/data", "")] {
        let mut shell = Command::new("/bin/sh");
        shell.arg("-c").arg(script.replace("FOLDER", folder));
        assert_eq!(ended(home.prepared(&mut shell)), marked(said));
    }
}

#[test]
fn a_copy_of_the_marker_is_used_alone() {
    let home = laid_out("alone");
    let copied = home.0.join("crates/marker/data/copy");
    copy(&built("marker"), &copied);
    let mut alone = Command::new(&copied);
    assert_eq!(ended(alone.current_dir(copied.parent().unwrap()).env_clear()), marked(EXAMPLE));
}

#[test]
fn two_hyphens_end_the_options() {
    let home = laid_out("hyphens");
    for name in ["-", "--help"] {
        fs::create_dir(home.0.join(name)).unwrap();
    }
    assert_eq!(home.run(&["--", "-", "--help"]), marked("-:\nsheet 2\n--help:\nsheet 2\n"));
}

#[test]
fn a_text_that_cannot_be_written_is_told_of() {
    let home = laid_out("full");
    let full = || OpenOptions::new().write(true).open("/dev/full").unwrap();
    for (program, words) in [
        ("marker", &["no files"][..]),
        ("reason", &["reason", "no files"]),
        ("game", &["game", "no files"]),
    ] {
        let line = unwritten(program);
        let mut alone = Command::new(built(program));
        let alone = ended(alone.current_dir(home.0.join("no files")).stdout(full()));
        assert_eq!(alone, Ended { stderr: format!("{line}\n"), ..marked("") });
        assert_eq!(ended(home.command(words).stdout(full())), failed(1, &line));
    }
    let several = ended(home.command(&["no files", "no files"]).stdout(full()));
    assert_eq!(several, failed(1, "the text cannot be written"));
}

/// The reader has ended before the script begins. For one folder the program meets that, for several the script itself.
#[test]
fn nothing_is_said_of_a_reader_that_has_gone_away() {
    let home = laid_out("pipe");
    for (words, status) in [
        (&["no files"][..], Some(1)),
        (&["reason", "no files"], Some(1)),
        (&["game", "no files"], Some(1)),
        (&["no files", "no files"], None),
    ] {
        let mut reader = Command::new("true").stdin(Stdio::piped()).spawn().unwrap();
        let pipe = reader.stdin.take().unwrap();
        assert!(reader.wait().unwrap().success());
        let run = ended(home.command(words).stdout(pipe));
        assert_eq!(run, Ended { status, ..marked("") }, "{words:?}");
    }
}

#[test]
fn a_closed_output_is_told_of() {
    let home = laid_out("closed");
    for words in ["'no files'", "'no files' 'no files'", "reason", "game"] {
        let mut shell = Command::new("/bin/sh");
        shell.arg("-c").arg(format!("./run {words} >&-"));
        let line = "the text cannot be written: standard output is closed";
        assert_eq!(ended(home.prepared(&mut shell)), failed(1, line), "{words}");
    }
    let mut shell = Command::new("/bin/sh");
    let help = ended(home.prepared(shell.arg("-c").arg("./run --help >&-")));
    assert!(help.status == Some(1) && !help.stderr.is_empty(), "{help:?}");
}

/// A pipe that nobody writes to, a device that has no end and a folder, each in the place of each file, by itself and by a link.
#[test]
fn what_is_no_regular_file_is_named_and_the_others_are_marked() {
    let home = laid_out("irregular");
    cc::succeed(Command::new("mkfifo").arg(home.0.join("pipe")));
    symlink("/dev/zero", home.0.join("zero")).unwrap();
    for file in ["sheet.bin", "rounds.bin", "level.bin"] {
        for other in ["pipe", "zero", "no files"] {
            let folder = home.0.join("odd");
            fs::create_dir(&folder).unwrap();
            symlink(home.0.join(other), folder.join(file)).unwrap();
            let line = format!("{file} in the folder odd is not a regular file");
            assert_eq!(home.run(&["odd"]), failed(1, &line), "{other}");
            let stdout = format!("no files:\nsheet 2\ncrates/marker/data:\n{EXAMPLE}");
            let several = Ended { stdout, ..failed(1, &line) };
            assert_eq!(home.run(&["no files", "odd", "crates/marker/data"]), several, "{other}");
            // The programs `reason` and `game` do not read the level.
            for (word, text) in [("reason", "refused 2 length 0\n"), ("game", "refused 2\n")] {
                let said = if file == "level.bin" { marked(text) } else { failed(1, &line) };
                assert_eq!(home.run(&[word, "odd"]), said, "{other}");
            }
            fs::remove_dir_all(folder).unwrap();
        }
    }
}

/// A link to nothing is a file that is missing, and one to a file is that file.
#[test]
fn links_are_followed() {
    let home = laid_out("links");
    let folder = home.0.join("links");
    fs::create_dir(&folder).unwrap();
    symlink(home.0.join("crates/marker/data/sheet.bin"), folder.join("sheet.bin")).unwrap();
    symlink("nothing", folder.join("rounds.bin")).unwrap();
    assert_eq!(home.run(&["links"]), marked("file 12\n"));
}

/// A name cannot make a line of its own, on either output.
#[test]
fn a_folders_name_stays_in_its_line() {
    let home = laid_out("names");
    let names = [
        ("a\npass\nb", "a\\npass\\nb"),
        ("pass\n", "pass\\n"),
        ("\r\t\u{1b}[2K\u{7f}", "\\r\\t\\u{1b}[2K\\u{7f}"),
        ("\u{85}\u{9b}1A\u{2028}\u{2029}", "\\u{85}\\u{9b}1A\\u{2028}\\u{2029}"),
        ("Ægir & \\n %s", "Ægir & \\n %s"),
    ];
    for (name, shown) in names {
        let missing = format!("the folder {shown} cannot be entered");
        assert_eq!(home.run(&[name]), failed(1, &missing));
        fs::create_dir(home.0.join(name)).unwrap();
        let text = format!("no files:\nsheet 2\n{shown}:\nsheet 2\n");
        assert_eq!(home.run(&["no files", name]), marked(&text));
        fs::create_dir(home.0.join(name).join("sheet.bin")).unwrap();
        let odd = format!("sheet.bin in the folder {shown} is not a regular file");
        assert_eq!(home.run(&[name]), failed(1, &odd));
    }
    let option = r"there is no option -a\npass; ./run --help says what there is";
    assert_eq!(home.run(&["-a\npass"]), failed(2, option));
}

#[test]
fn an_old_marker_is_not_run_without_rt() {
    let home = laid_out("old");
    let marker = home.0.join("crates/marker/out/marker");
    let line = format!(
        "{} is missing or older than its sources, and the command rt, which builds it, is not on PATH",
        marker.to_str().unwrap()
    );
    for changed in ["crates/marker/data/sheet.bin", "crates/marker", "crates.txt"] {
        assert_eq!(home.run(&[]), marked(EXAMPLE));
        home.date(changed, true);
        assert_eq!(home.run(&[]), failed(1, &line), "{changed} has changed");
        home.date(changed, false);
    }
    fs::remove_file(marker).unwrap();
    assert_eq!(home.run(&[]), failed(1, &line));
}

#[test]
fn an_old_marker_is_built_once() {
    let home = laid_out("build");
    home.date("crates/marker/out/marker", false);
    home.put_tool("rt", "echo \"${PWD##*/} $*\" >>\"$ASKED\"\necho 'rt: ok'");
    let built = home.run(&[]);
    assert_eq!((built.status, built.stdout.as_str()), (Some(0), EXAMPLE));
    assert!(
        built.stderr.starts_with("run: proving 3 crates and building marker, unless "),
        "{}",
        built.stderr
    );
    assert_eq!(built.stderr.lines().count(), 1);
    assert_eq!(home.run(&[]), marked(EXAMPLE));
    assert_eq!(home.text("asked"), "marker run\n");
    assert_eq!(home.text("target/run.log"), "rt: ok\n");
}

/// Each program is built where it is asked for and old, whatever the others are.
#[test]
fn an_old_program_is_built_for_itself() {
    let home = laid_out("reason-build");
    home.date("crates/reason/out/reason", false);
    home.put_tool("rt", "echo \"${PWD##*/} $*\" >>\"$ASKED\"\necho 'rt: ok'");
    assert_eq!(home.run(&[]), marked(EXAMPLE));
    let built = home.run(&["reason"]);
    assert_eq!((built.status, built.stdout.as_str()), (Some(0), "accepted\n"));
    assert!(
        built.stderr.starts_with("run: proving 4 crates and building reason, unless "),
        "{}",
        built.stderr
    );
    assert_eq!(home.run(&["reason"]), accepted("accepted\n"));
    assert_eq!(home.text("asked"), "reason run\n");
    home.date("crates/game/out/game", false);
    assert_eq!(home.run(&["reason"]), accepted("accepted\n"));
    let built = home.run(&["game"]);
    assert_eq!((built.status, built.stdout.as_str()), (Some(0), GAME));
    assert!(
        built.stderr.starts_with("run: proving 3 crates and building game, unless "),
        "{}",
        built.stderr
    );
    assert_eq!(home.text("asked"), "reason run\ngame run\n");
}

#[test]
fn what_changes_during_a_build_is_built_again() {
    let home = laid_out("during");
    home.date("crates/marker/out/marker", false);
    home.put_tool(
        "rt",
        "echo \"${PWD##*/} $*\" >>\"$ASKED\"\nPATH=/usr/bin:/bin\nsleep 0.1; touch ../../crates.txt; sleep 0.1",
    );
    assert_eq!(home.run(&[]).stdout, EXAMPLE);
    assert_eq!(home.run(&[]).stdout, EXAMPLE);
    assert_eq!(home.text("asked"), "marker run\n".repeat(2));
}

#[test]
fn a_failed_build_names_its_log() {
    let home = laid_out("failed");
    home.date("crates/marker/out/marker", false);
    home.put_tool("rt", "for line in 1 2 3 4 5 6; do echo \"error $line\" >&2; done\nexit 1");
    let run = home.run(&[]);
    assert_eq!((run.status, run.stdout.as_str()), (Some(1), ""));
    let lines: Vec<&str> = run.stderr.lines().collect();
    assert_eq!(lines[1..6], ["error 2", "error 3", "error 4", "error 5", "error 6"]);
    let log = home.0.join("target/run.log");
    let last = format!(
        "run: marker is not built; the prover's whole output is in {}",
        log.to_str().unwrap()
    );
    assert_eq!(lines[6..], [last]);
    assert_eq!(fs::read_to_string(log).unwrap().lines().count(), 6);
}
