//! Colours are for a terminal, and none is there if NO_COLOR is set, in a pipe, or in what programs read.

use crate::desk::Desk;
use std::io::{self, Write};

/// The sign with which a colour begins.
const ESCAPE: char = '\u{1b}';

/// A folder `b` with a sheet and an accepted, a rejected and a refused round.
fn desk(name: &str) -> Desk {
    let desk = Desk::new(name);
    desk.print("mkdir b; dimkhoros make schnorr m=23 q=11 h=2 x=7 -o b/sheet.bin; dimkhoros level 3 b/level.bin");
    desk.print("dimkhoros rounds make b/sheet.bin t=9 c=3 r=4 t=9 c=1 r=2 t=5 c=0 r=0 t=9 c=1 r=1 -o b/rounds.bin");
    desk
}

/// The commands that give verdicts, each with a part of what it prints, in which a word has < and > for its colour.
const VERDICTS: [(&str, &[&str]); 8] = [
    (
        "rounds list b/sheet.bin b/rounds.bin",
        &["  4  <32:accepted>\n", "  2  <31:rejected> in row 0\n", "  0  <33:refused> 14, by"],
    ),
    ("show b/sheet.bin b/rounds.bin", &["  4  <32:accepted>\n", "<31:rejected> in row 0\n"]),
    ("show b", &["  4  <32:accepted>\n"]),
    ("mark b", &["b  <31:fail>  round 1 rejected", "0 passed, 1 <31:failed>, 0 refused\n"]),
    (
        "reason b",
        &["<32:accepted>\n\n", "Vic <32:accepts> it", "file <31:fails>:", "  <31:rejected> in"],
    ),
    ("reason b 1", &["<31:rejected> 0 4 2\n", "Vic <31:rejects> it"]),
    (
        "watch b/sheet.bin b/rounds.bin",
        &["2 <32:accepted>, 1 <31:rejected>, 1 <33:refused>; 1 <31:reuse>\n"],
    ),
    ("check b/sheet.bin x=7", &["7 is a <32:witness>\n"]),
];

/// A text in which < and > stand for a colour, as a terminal gets it.
fn coloured(text: &str) -> String {
    let begins = ["31", "32", "33"];
    let text = begins.iter().fold(text.to_string(), |text, colour| {
        text.replace(&format!("<{colour}:"), &format!("{ESCAPE}[{colour}m"))
    });
    text.replace('>', &format!("{ESCAPE}[0m"))
}

/// What a command prints on a terminal, which `script` makes, with NO_COLOR set to a text. If there is no `script`, a line on
/// standard error names what is not tried.
fn on_terminal(desk: &Desk, no_color: &str, command: &str) -> Option<String> {
    if !desk.print("script --version").contains("util-linux") {
        // The harness keeps back what a macro prints.
        let line = "script is not installed: not tried: colours on a terminal\n";
        io::stderr().write_all(line.as_bytes()).unwrap();
        return None;
    }
    let line = format!("NO_COLOR={no_color} script -qec 'dimkhoros {command}' /dev/null");
    Some(desk.print(&line).replace("\r\n", "\n"))
}

#[test]
fn verdicts_have_colours_on_a_terminal() {
    let desk = desk("colours of verdicts");
    for (command, parts) in VERDICTS {
        let plain = desk.print(&format!("dimkhoros {command} 2>/dev/null"));
        assert!(!plain.contains(ESCAPE), "{command}: {plain:?}");
        let Some(printed) = on_terminal(&desk, "", command) else { return };
        for part in parts {
            assert!(printed.contains(&coloured(part)), "{command}: {part}: {printed:?}");
        }
        // Nothing else differs: a colour stands beside its word and takes no columns.
        let without = ["[31m", "[32m", "[33m", "[0m"]
            .iter()
            .fold(printed, |text, code| text.replace(&format!("{ESCAPE}{code}"), ""));
        assert!(without.starts_with(&plain), "{command}: {without}");
        let no_colour = on_terminal(&desk, "1", command).unwrap();
        assert_eq!(no_colour, without, "{command}");
    }
}

#[test]
fn what_programs_read_has_no_colours() {
    let desk = desk("colours for programs");
    for command in [
        "rounds list b/sheet.bin b/rounds.bin --json",
        "show b --json",
        "mark b --json",
        "mark b --csv",
        "reason b --json",
    ] {
        let Some(printed) = on_terminal(&desk, "", &format!("{command} 2>/dev/null")) else {
            return;
        };
        assert!(!printed.contains(ESCAPE), "{command}: {printed:?}");
        assert!(printed.contains("accepted"), "{command}: {printed:?}");
    }
}

#[test]
fn errors_have_colours_on_a_terminal() {
    let desk = desk("colours of errors");
    assert!(!desk.print("dimkhoros xyzzy").contains(ESCAPE));
    let Some(printed) = on_terminal(&desk, "", "xyzzy") else { return };
    assert!(printed.starts_with(&coloured("<31:dimkhoros:> there is no command")), "{printed:?}");
    assert!(!on_terminal(&desk, "1", "xyzzy").unwrap().contains(ESCAPE));
}
