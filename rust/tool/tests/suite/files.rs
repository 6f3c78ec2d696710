//! What holds of the files of all commands: standard input, files that are there, and files that cannot be read or written.

use crate::desk::Desk;
use crate::lines::LINES;
use std::fs::{self, File};
use std::net::Shutdown;
use std::os::fd::OwnedFd;
use std::os::unix::net::UnixStream;
use std::process::{Command, Stdio};

/// The files that are read, with the bytes of page A's sheet, of two of its rounds, of a pattern file and of a ledger's text.
const FILES: [(&str, &[u8]); 4] = [
    ("SHEET", b"HOM\0\x01\x01\0\0\0\x17\0\0\0\x0b\0\0\0\x0b\x01\x01\0\0\0\x02\0\0\0\x0d"),
    ("ROUNDS", b"RND\0\x01\0\x02\0\0\0\x09\0\0\0\x03\0\0\0\x04\0\0\0\x09\0\0\0\x01\0\0\0\x01"),
    ("PATTERNS", b"PAT\0\x01\x05\x01\x01\x01\x01\x01\x02\x02\x01\x02\x02\x01\x02\x01\x02\x02\x01\x02\x01\x02\x02\x03\x03\x01\x02\0\x03\0\x02"),
    ("LEDGER", b"g=2 h=3 m=23 q=11 K=11\ncommitment v=2 b=1\ncommitment v=3 b=0\nsum 0 1\nproduct 0 1 b=4 k=1,2,3 c=5\n"),
];

/// A folder with the files under their names, and with a folder of a student.
fn desk(name: &str) -> Desk {
    let desk = Desk::new(name);
    for (name, bytes) in FILES {
        fs::write(desk.folder.join(name), bytes).unwrap();
    }
    desk.print("mkdir FOLDER; cp SHEET FOLDER/sheet.bin; cp ROUNDS FOLDER/rounds.bin");
    fs::write(desk.folder.join("FOLDER/level.bin"), [7]).unwrap();
    desk
}

/// A line with values that fit: those of page A, which is a witness of both sides.
fn fitted(line: &str) -> String {
    let values = [
        ("=X/X", "=2/3"),
        ("x=X", "x=7"),
        ("0=X", "0=7"),
        ("1=X", "1=7"),
        ("=X", "=4"),
        ("=T", "=9"),
        ("=C", "=3"),
    ];
    let fitted = values.iter().fold(line.to_string(), |line, (from, to)| line.replace(from, to));
    format!("dimkhoros {fitted}")
}

/// The lines in which a word stands, fitted.
fn lines_with(word: &str) -> Vec<String> {
    let lines: Vec<String> = LINES
        .iter()
        .filter(|line| line.split(' ').any(|other| other == word))
        .map(|line| fitted(line))
        .collect();
    assert!(lines.len() > 2, "{word} stands in few lines");
    lines
}

/// The line with its first such word changed for another.
fn with(line: &str, word: &str, other: &str) -> String {
    line.replacen(&format!(" {word}"), &format!(" {other}"), 1)
}

/// The files that are read, each with the lines in which it stands.
fn reading() -> impl Iterator<Item = (&'static str, String)> {
    FILES.iter().flat_map(|(file, _)| lines_with(file).into_iter().map(|line| (*file, line)))
}

/// What is printed is the same as of a file that is called as standard input is.
#[test]
fn every_file_can_be_standard_input() {
    let desk = desk("standard input");
    for (name, line) in reading() {
        let line = with(&line, "-o OUT", "-o -");
        desk.print(&format!("cp {name} 'standard input'"));
        let printed = desk.print(&with(&line, name, "'standard input'"));
        let piped = desk.print(&format!("{} < {name}", with(&line, name, "-")));
        assert_eq!(piped, printed, "{line}");
    }
}

/// The lines that write a file, without those that refuse what page A has.
fn writing(desk: &Desk) -> Vec<String> {
    let writes = |line: &String| {
        let printed = desk.print(line);
        let written = fs::remove_file(desk.folder.join("OUT")).is_ok();
        assert!(written || printed.ends_with("[1]\n"), "{line} prints\n{printed}");
        written
    };
    let lines: Vec<String> = lines_with("OUT").into_iter().filter(writes).collect();
    assert!(lines.len() > 2, "few lines write a file");
    lines
}

#[test]
fn nothing_is_overwritten_without_force() {
    let desk = desk("overwritten");
    let out = desk.folder.join("OUT");
    for line in writing(&desk) {
        fs::write(&out, "kept").unwrap();
        let printed = desk.print(&line);
        assert_eq!(
            printed, "dimkhoros: OUT is there already; --force writes over it\n[1]\n",
            "{line}"
        );
        assert_eq!(fs::read(&out).unwrap(), b"kept", "{line}");
        let printed = desk.print(&format!("{line} --force"));
        assert!(!printed.ends_with("]\n"), "{line} prints\n{printed}");
        assert_ne!(fs::read(&out).unwrap(), b"kept", "{line}");
        fs::remove_file(&out).unwrap();
    }
}

#[test]
fn a_file_that_cannot_be_written_is_named() {
    let desk = desk("cannot be written");
    fs::create_dir(desk.folder.join("folder")).unwrap();
    let targets = [
        ("nowhere/file", "there is no such folder"),
        ("SHEET/file", "there is no such folder"),
        ("folder --force", "it is a folder"),
        ("/dev/full --force", "No space left on device (os error 28)"),
    ];
    let lines = writing(&desk);
    for (line, (target, why)) in lines.iter().flat_map(|line| targets.map(|told| (line, told))) {
        let line = with(line, "-o OUT", &format!("-o {target}"));
        let name = target.split(' ').next().unwrap();
        let told = format!("dimkhoros: {name} cannot be written: {why}\n[1]\n");
        assert_eq!(desk.print(&line), told, "{line}");
    }
}

/// Files that cannot be read, each with why. Root may read the one that is closed.
fn unreadable(desk: &Desk) -> Vec<(&'static str, &'static str)> {
    fs::create_dir(desk.folder.join("folder")).unwrap();
    fs::write(desk.folder.join("closed"), b"").unwrap();
    desk.print("chmod 000 closed");
    let closed = File::open(desk.folder.join("closed")).is_err();
    let mut targets = vec![
        ("nowhere", "there is no such file"),
        ("folder", "it is a folder"),
        ("/proc/self/mem", "Input/output error (os error 5)"),
    ];
    targets.extend(closed.then_some(("closed", "that is not permitted")));
    targets
}

#[test]
fn a_file_that_cannot_be_read_is_named() {
    let desk = desk("cannot be read");
    let targets = unreadable(&desk);
    let lines: Vec<_> = reading().collect();
    let cases = lines.iter().flat_map(|line| targets.iter().map(move |target| (line, target)));
    for ((file, line), (target, why)) in cases {
        let line = with(line, file, target);
        // The first word of `reason` may be a folder, and the one word of `show`.
        if line.starts_with("dimkhoros reason folder ") || line == "dimkhoros show folder" {
            continue;
        }
        let told = format!("dimkhoros: {target} cannot be read: {why}\n[1]\n");
        assert_eq!(desk.print(&line), told, "{line}");
    }
}

#[test]
fn a_text_that_cannot_be_written_ends_in_one() {
    let desk = desk("full output");
    for line in LINES.map(fitted) {
        let whole = desk.print(&line);
        let _ = fs::remove_file(desk.folder.join("OUT"));
        if whole.ends_with("[1]\n") {
            continue;
        }
        let printed = desk.print(&format!("{line} > /dev/full"));
        let _ = fs::remove_file(desk.folder.join("OUT"));
        let why = "the text cannot be written: No space left on device (os error 28)";
        assert_eq!(printed, format!("dimkhoros: {why}\n[1]\n"), "{line}");
    }
}

/// An output that nobody reads.
fn closed_output() -> Stdio {
    let (output, reader) = UnixStream::pair().unwrap();
    reader.shutdown(Shutdown::Both).unwrap();
    OwnedFd::from(output).into()
}

#[test]
fn nothing_is_said_of_a_reader_that_has_gone_away() {
    let desk = desk("reader gone");
    for line in LINES.map(fitted) {
        let whole = desk.print(&line);
        let _ = fs::remove_file(desk.folder.join("OUT"));
        if whole.ends_with("[1]\n") {
            continue;
        }
        let words = line.strip_prefix("dimkhoros ").unwrap().replace("-o OUT", "-o -");
        let ended = Command::new(env!("CARGO_BIN_EXE_dimkhoros"))
            .args(words.split(' '))
            .current_dir(&desk.folder)
            .stdout(closed_output())
            .output()
            .unwrap();
        let told = String::from_utf8(ended.stderr).unwrap();
        assert_eq!((told.as_str(), ended.status.code()), ("", Some(1)), "{words}");
    }
}

/// An output that is closed, and one that is open for reading alone. Nothing is lost that was written to a file.
#[test]
fn a_closed_output_ends_in_one() {
    let desk = desk("closed output");
    let told = "dimkhoros: the text cannot be written: standard output is closed\n[1]\n";
    for line in LINES.map(fitted) {
        let whole = desk.print(&line);
        let written = fs::read(desk.folder.join("OUT")).ok();
        let _ = fs::remove_file(desk.folder.join("OUT"));
        if whole.ends_with("[1]\n") {
            continue;
        }
        for closed in [">&-", "1< SHEET", "<&- >&-"] {
            assert_eq!(desk.print(&format!("{line} {closed}")), told, "{line} {closed}");
            assert_eq!(fs::read(desk.folder.join("OUT")).ok(), written, "{line} {closed}");
            let _ = fs::remove_file(desk.folder.join("OUT"));
        }
    }
    assert_eq!(desk.print("dimkhoros check SHEET x=7 2>&- >&-"), "[1]\n");
}

/// What somebody throws away on purpose is no failure, whether it is open for writing alone or for both.
#[test]
fn an_output_to_nowhere_is_open() {
    let desk = desk("output to nowhere");
    for nowhere in ["> /dev/null", "1<> /dev/null", ">> /dev/null"] {
        assert_eq!(desk.print(&format!("dimkhoros check SHEET x=7 {nowhere}")), "", "{nowhere}");
    }
}
