//! What include/dimkhoros_box.h adds for a box: random numbers without bias, the lines of the wire, and a store that is whole
//! wherever it ends.

use crate::cc;
use crate::pages::page_a;

use dimkhoros::{Header, Instance, ROOT, Values, places};
use std::fs::{self, Permissions};
use std::os::unix::fs::PermissionsExt;
use std::path::{Path, PathBuf};
use std::process::Command;

#[test]
fn every_number_below_a_bound_is_as_likely_as_any_other() {
    // A word from the last whole run of the bound on is drawn again.
    let expected = "below 11: 0 of 1\nbelow 11: 10 of 1\nbelow 11: 4 of 3\n\
                    below 3221225472: 3221225471 of 1\nbelow 3221225472: 7 of 3\n\
                    below 2147483649: 2147483648 of 2\nbelow 65536: 65535 of 1\nbelow 1: 0 of 1\n\
                    below 0: 4294967295 of 1\nbelow 11: 1 of 1\n";
    assert_eq!(cc::run("box_random.c"), expected);
}

#[test]
fn a_system_without_random_numbers_ends_the_box() {
    let ended = Command::new(cc::build("box_random.c")).arg("broken").output().unwrap();
    assert_eq!(ended.status.code(), Some(1));
    assert_eq!(String::from_utf8_lossy(&ended.stdout), "");
    let said = String::from_utf8_lossy(&ended.stderr);
    assert_eq!(said, "The system gives no random numbers. The box ends.\n");
}

/// What the program that draws nonces prints of a sheet.
fn nonces(bytes: &[u8]) -> String {
    let hex: String = bytes.iter().map(|byte| format!("{byte:02x}")).collect();
    cc::run_on("box_nonce.c", &hex)
}

#[test]
fn a_nonce_takes_every_value_of_its_sheet_and_no_other() {
    let zeros = "1 from 0 to 0\n";
    let expected = "11 from 0 to 10\n".to_string() + &zeros.repeat(7);
    assert_eq!(nonces(page_a().bytes()), expected);
    // 24 numbers below 35 have no factor in common with it.
    let header = Header { kind: ROOT, modulus: 35, order: 5, challenges: 5, rows: 3, columns: 3 };
    let values = Values { header, statement: places([1, 1, 1]), ..Values::default() };
    let roots = Instance::encode(&values).unwrap();
    let expected = "24 from 1 to 34\n".repeat(3) + &zeros.repeat(5);
    assert_eq!(nonces(roots.bytes()), expected);
    assert_eq!(nonces(b"HAM"), "refused 2, and the nonce is as it was\n");
}

/// What is heard of a line that is none.
fn no_line(read: usize, length: usize) -> String {
    format!("{read}: word 0 length {length}")
}

#[test]
fn lines_are_heard_one_by_one_and_sent_whole() {
    let long = format!("challenge {}", "1".repeat(300));
    let many = format!("response{}", " 4294967295".repeat(16));
    let lines = [
        "ready",
        "challenge 9 3",
        &many,
        &format!("{many} 1"),
        "Ready",
        "ready ",
        &long,
        "",
        "ready\0",
        "ready",
    ];
    let input = lines.join("\n") + "\ncut of";
    let printed = cc::run_on("box_wire.c", &input);
    let printed: Vec<&str> = printed.lines().collect();
    let zeros = |count| " 0".repeat(count);
    let expected = [
        format!("6: word 5 length 5 count 0{}", zeros(16)),
        "sent ready".to_string(),
        format!("20: word 9 length 13 count 2 9 3{}", zeros(14)),
        "sent challenge 9 3".to_string(),
        format!("205: word 8 length 184 count 16{}", " 4294967295".repeat(16)),
        format!("sent {many}"),
        no_line(392, 186),
        no_line(398, 5),
        no_line(405, 6),
        no_line(716, 255),
        no_line(717, 0),
        no_line(724, 6),
        format!("730: word 5 length 5 count 0{}", zeros(16)),
        "sent ready".to_string(),
        "end: word 0, ready 0".to_string(),
        "17 numbers are not sent".to_string(),
        "9 and 8 are not sent".to_string(),
        "closed is told".to_string(),
    ];
    assert_eq!(printed.len(), expected.len(), "{printed:?}");
    for (line, expected) in printed.iter().zip(&expected) {
        assert!(line.starts_with(expected), "{line:?} is not {expected:?}");
    }
}

/// The calls of the system that a store makes, in their order.
const CALLS: [&str; 6] = [
    "open session.new new 600",
    "write",
    "fsync",
    "close",
    "rename session.new to session.bin",
    "fsync",
];

/// A folder of this name with a store that holds `first`, and with a file that is left over.
fn folder(name: &str) -> PathBuf {
    let folder = cc::scratch(name);
    let _ = fs::remove_dir_all(&folder);
    fs::create_dir_all(&folder).unwrap();
    fs::write(folder.join("session.bin"), "first").unwrap();
    let left_over = folder.join("session.new");
    fs::write(&left_over, "left over, and longer than what is written").unwrap();
    fs::set_permissions(left_over, Permissions::from_mode(0o666)).unwrap();
    folder
}

/// Stores in a folder, the call of this number failing, with a mask that allows everything.
fn store(program: &Path, folder: &Path, failing: usize) -> String {
    let mut shell = Command::new("/bin/sh");
    shell.args(["-c", "umask 0; exec \"$0\" \"$@\""]).arg(program).arg(folder);
    cc::succeed(shell.arg(failing.to_string()))
}

#[test]
fn a_session_is_stored_whole_and_for_its_owner_alone() {
    let program = cc::build("box_store.c");
    let folder = folder("box-store");
    let calls = CALLS.join("\n");
    assert_eq!(store(&program, &folder, 0), format!("{calls}\nanswers 0\nstored second\n"));
    let mode = fs::metadata(folder.join("session.bin")).unwrap().permissions().mode();
    assert_eq!(mode & 0o777, 0o600);
    assert!(!folder.join("session.new").exists());
}

/// Whichever call fails, an error is answered, and the store has all of the old bytes or all of the new ones.
#[test]
fn a_store_that_fails_says_so_and_cuts_nothing() {
    let program = cc::build("box_store.c");
    for failing in 1..=CALLS.len() {
        let folder = folder(&format!("box-store-{failing}"));
        let printed = store(&program, &folder, failing);
        let stored = if failing < CALLS.len() { "first" } else { "second" };
        assert!(printed.ends_with(&format!("answers an error\nstored {stored}\n")), "{printed}");
        assert_eq!(printed.matches(" fails\n").count(), 1);
        let renamed = printed.contains("rename");
        assert_eq!(renamed, failing >= 5, "a file that is not whole takes the name: {printed}");
    }
}

#[test]
fn a_store_without_a_folder_is_an_error() {
    let program = cc::build("box_store.c");
    let printed = store(&program, &cc::scratch("no-such-folder"), 0);
    assert!(printed.ends_with("answers another error\nstored nothing\n"), "{printed}");
}

#[test]
fn a_program_without_posix_is_told_what_to_define() {
    let source = cc::scratch("no_posix.c");
    fs::write(&source, "#include \"dimkhoros_box.h\"\n").unwrap();
    let mut command = Command::new("cc");
    command.args(["-std=c99", "-fsyntax-only", "-I"]).arg(cc::root().join("include")).arg(source);
    let ended = command.output().unwrap();
    assert!(!ended.status.success());
    assert!(String::from_utf8_lossy(&ended.stderr).contains("define _POSIX_C_SOURCE as 200809L"));
}
