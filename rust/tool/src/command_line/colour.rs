//! Colours on a terminal. They come with the words that they stand for, and are never the only sign.

use std::env;
use std::ffi::OsString;
use std::io::{self, IsTerminal};
use std::sync::atomic::{AtomicBool, Ordering};

/// Whether what is printed on standard output has colours.
static WANTED: AtomicBool = AtomicBool::new(false);

/// The options that ask for a text that programs read.
const FOR_PROGRAMS: [&str; 2] = ["--json", "--csv"];

const RED: u8 = 31;
const GREEN: u8 = 32;
const YELLOW: u8 = 33;

/// Chooses whether standard output gets colours: on a terminal, if they are not turned off and the words ask for nothing that
/// programs read.
pub fn choose(words: &[OsString]) {
    let mut options = words.iter().take_while(|word| *word != "--");
    let for_programs = options.any(|word| FOR_PROGRAMS.iter().any(|option| word == option));
    WANTED.store(io::stdout().is_terminal() && !is_off() && !for_programs, Ordering::Relaxed);
}

/// Whether the variable NO_COLOR turns colours off.
fn is_off() -> bool {
    env::var_os("NO_COLOR").is_some_and(|no| !no.is_empty())
}

/// A verdict or a result for standard output, of which the first word has its colour if colours are wanted.
pub fn verdict(text: &str) -> String {
    let wanted = WANTED.load(Ordering::Relaxed);
    let (word, rest) = text.split_at(text.find([' ', '\n']).unwrap_or(text.len()));
    match colour(word).filter(|_| wanted) {
        Some(colour) => painted(word, colour) + rest,
        None => text.to_string(),
    }
}

/// How many there are of a result for standard output, such as `2 failed`: in colour if colours are wanted and there are any.
pub fn count(count: usize, word: &str) -> String {
    match count {
        0 => format!("0 {word}"),
        _ => format!("{count} {}", verdict(word)),
    }
}

/// The name of the tool before a line on standard error.
pub fn name(name: &str) -> String {
    if io::stderr().is_terminal() && !is_off() { painted(name, RED) } else { name.to_string() }
}

/// The colour of a word.
fn colour(word: &str) -> Option<u8> {
    match word {
        "accepted" | "accepts" | "pass" | "passes" | "passed" | "witness" => Some(GREEN),
        "rejected" | "rejects" | "fail" | "fails" | "failed" | "reuse" | "reuses" => Some(RED),
        "refused" | "sheet" | "file" | "level" | "unread" | "not" | "no" => Some(YELLOW),
        _ => None,
    }
}

/// A text in a colour.
fn painted(text: &str, colour: u8) -> String {
    format!("\u{1b}[{colour}m{text}\u{1b}[0m")
}

/// How many columns a text takes, in which a colour takes none.
pub fn columns(text: &str) -> usize {
    let shown = |part: &str| part.split_once('m').map_or(0, |(_, shown)| shown.chars().count());
    let mut parts = text.split('\u{1b}');
    let first = parts.next().map_or(0, |part| part.chars().count());
    first + parts.map(shown).sum::<usize>()
}

#[cfg(test)]
mod tests {
    use super::{RED, columns, painted, verdict};

    #[test]
    fn a_colour_takes_no_columns() {
        let text = painted("rejected", RED) + " in row 0";
        assert_eq!(text, "\u{1b}[31mrejected\u{1b}[0m in row 0");
        assert_eq!(columns(&text), "rejected in row 0".len());
        assert_eq!(columns("2 · 3"), 5);
    }

    #[test]
    fn nothing_has_a_colour_unless_it_is_chosen() {
        assert_eq!(verdict("accepted"), "accepted");
    }
}
