//! The program `dimkhoros`: sheets, rounds and lecture pages from the command line.
//!
//! What it says of sheets and rounds it has from the proved library; it reads and writes files, and lays out what it was told.

mod by_hand;
mod command_line;
mod commands;
mod pages;
mod sheets;

use command_line::colour;
use command_line::failure::{Failure, Outcome};
use command_line::files;
use command_line::help::Help;
use command_line::output::{self, Output};
use command_line::words;
use command_line::wrap::{HELP, NARROWEST};
use commands::Command;
use std::env;
use std::ffi::OsString;
use std::io::{self, BufWriter, Write};
use std::process::ExitCode;

/// Runs the command that the words name, and answers its exit status.
fn main() -> ExitCode {
    let mut words = env::args_os().skip(1);
    let name = words.next().unwrap_or_default();
    let mut out = BufWriter::new(Output::new());
    let words: Vec<OsString> = words.collect();
    colour::choose(&words);
    let ended = run(&name, words, &mut out);
    let ended = ended.and_then(|()| Ok(out.flush()?));
    match ended {
        Ok(()) => ExitCode::SUCCESS,
        Err(failure) => {
            // What was printed before the failure belongs before its line.
            let _ = out.flush();
            match failure {
                Failure::ReaderGone => {}
                Failure::Failed(_) => files::note(&failure),
                Failure::Words(_) => {
                    files::note(&failure);
                    files::note(&whose_help(&name));
                }
            }
            ExitCode::from(failure.status())
        }
    }
}

/// Runs the command of a name, or prints a help.
fn run(name: &OsString, words: Vec<OsString>, out: &mut dyn Write) -> Outcome {
    if name.is_empty() {
        return Err(Failure::words("no command is named"));
    }
    if is_help(name) || name == "help" && words.is_empty() {
        return print_help(&commands::overview(), out);
    }
    if name == "--version" || name == "-V" {
        writeln!(out, "dimkhoros {}", env!("CARGO_PKG_VERSION"))?;
        return Ok(());
    }
    if name == "--pages" {
        return pages::write(&words, out);
    }
    if name == "help" {
        return print_help(found(&words[0])?.help, out);
    }
    let command = found(name)?;
    if words.iter().take_while(|word| *word != "--").any(is_help) {
        return print_help(command.help, out);
    }
    (command.run)(words, out)
}

/// Prints a help in the columns of the terminal, and in 80 at most.
fn print_help(help: &str, out: &mut dyn Write) -> Outcome {
    let width = output::columns(io::stdout()).unwrap_or(HELP).clamp(NARROWEST, HELP);
    Ok(out.write_all(Help::read(help).print(width).as_bytes())?)
}

/// Whether a word asks for a help.
fn is_help(word: &OsString) -> bool {
    word == "--help" || word == "-h"
}

/// The command of a name.
fn found(name: &OsString) -> Outcome<&'static Command> {
    commands::find(name).ok_or_else(|| {
        let name = name.to_string_lossy();
        let names = commands::all().map(|command| command.name);
        let meant = words::meant(&name, names.chain(["help", "--help", "--version"]));
        Failure::words(format!("there is no command {name}{meant}"))
    })
}

/// Which help has the words that are right.
fn whose_help(name: &OsString) -> String {
    match found(name) {
        Ok(command) => format!("`dimkhoros {} --help` says which words it takes", command.name),
        Err(_) => "`dimkhoros --help` lists the commands".to_string(),
    }
}
