//! What is in a folder and below it, and the line on what a test could not try.

use std::fs;
use std::io::{self, Write};
use std::os::unix::fs::PermissionsExt;
use std::path::Path;

/// The names of all that is in a folder, sorted, each with its mode, or with what it points to where it is a link.
pub fn tree(folder: &Path) -> Vec<String> {
    let mut lines = Vec::new();
    walk(folder, "", &mut lines);
    lines.sort();
    lines
}

/// Appends the lines of what is in a folder, whose name from the first one on stands before each.
fn walk(folder: &Path, under: &str, lines: &mut Vec<String>) {
    for entry in fs::read_dir(folder).unwrap() {
        let entry = entry.unwrap();
        let (path, data) = (entry.path(), entry.metadata().unwrap());
        let name = format!("{under}{}", entry.file_name().to_str().unwrap());
        let mode = data.permissions().mode() & 0o7777;
        if data.is_symlink() {
            lines.push(format!("{name} -> {}", fs::read_link(&path).unwrap().display()));
        } else if data.is_dir() {
            lines.push(format!("{name}/ {mode:o}"));
            walk(&path, &format!("{name}/"), lines);
        } else {
            lines.push(format!("{name} {mode:o}"));
        }
    }
}

/// Says on standard error, where the tests' own lines stand, what is missing and what was therefore not tried.
pub fn untried(missing: &str, what: &str) {
    io::stderr().write_all(format!("{missing}: not tried: {what}\n").as_bytes()).unwrap();
}
