//! The man pages and completions, which `dimkhoros --pages FOLDER` writes for ./install.

use crate::command_line::completions::{self, Offered};
use crate::command_line::failure::{Failure, Outcome};
use crate::command_line::files;
use crate::command_line::help::Help;
use crate::command_line::man;
use crate::commands;
use std::ffi::OsString;
use std::fs;
use std::io::{self, Write};
use std::path::Path;

/// What the whole tool is, for its man page.
const SUMMARY: &str = "sheets, rounds and lecture pages of proofs of knowledge, for teaching";

/// Writes all pages to the folder that is the one word, which is made if it is not there, and prints their names.
pub fn write(words: &[OsString], out: &mut dyn Write) -> Outcome {
    let [folder] = words else {
        return Err(Failure::words("--pages takes one word, the folder to write to"));
    };
    let folder = Path::new(folder);
    let failed = |error: io::Error| {
        Failure::failed(format!("{} cannot be written: {error}", files::name(folder)))
    };
    fs::create_dir_all(folder).map_err(failed)?;
    for (name, text) in all() {
        fs::write(folder.join(&name), text).map_err(failed)?;
        writeln!(out, "{name}")?;
    }
    Ok(())
}

/// The names of all pages, each with its text.
fn all() -> Vec<(String, String)> {
    let offered = |command: &'static commands::Command| -> Offered {
        completions::offered(command.name, command.summary, &Help::read(command.help))
    };
    let offered: Vec<Offered> = commands::all().map(offered).collect();
    let others: Vec<String> =
        commands::all().map(|command| format!("dimkhoros-{}", command.name)).collect();
    let whole = man::page("dimkhoros", SUMMARY, &Help::read(&commands::overview()), &others);
    let tool = ["dimkhoros".to_string()];
    let page = |command: &commands::Command| {
        let name = format!("dimkhoros-{}", command.name);
        let text = man::page(&name, command.summary, &Help::read(command.help), &tool);
        (format!("{name}.1"), text)
    };
    let mut pages = vec![("dimkhoros.1".to_string(), whole)];
    pages.extend(commands::all().map(page));
    pages.push(("dimkhoros.bash".to_string(), completions::bash(&offered)));
    pages.push(("_dimkhoros".to_string(), completions::zsh(&offered)));
    pages.push(("dimkhoros.fish".to_string(), completions::fish(&offered)));
    pages
}
