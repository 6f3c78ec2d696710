//! The names of a course, one in each line of a text.

use super::SECRETS;
use crate::command_line::failure::{Failure, Outcome};
use crate::command_line::files;
use std::path::Path;

/// The most bytes of a name.
const LONGEST: usize = 64;

/// The names in a file.
pub fn read(path: &Path) -> Outcome<Vec<String>> {
    let (bytes, file) = (files::read(path)?, files::name(path));
    let text = String::from_utf8(bytes)
        .map_err(|_| Failure::failed(format!("{file} is not a text in UTF-8")))?;
    // Some editors put a byte order mark first.
    let text = text.trim_start_matches('\u{feff}');
    let mut names: Vec<String> = Vec::new();
    for (number, line) in text.lines().enumerate().filter(|(_, line)| !line.trim().is_empty()) {
        let name = line.trim();
        let wrong = wrong(name).or_else(|| {
            let same = names.iter().any(|other| other.to_lowercase() == name.to_lowercase());
            same.then(|| "the name is there twice; capital letters do not count".to_string())
        });
        if let Some(why) = wrong {
            return Err(Failure::failed(format!("{file}:{}: {name}: {why}", number + 1)));
        }
        names.push(name.to_string());
    }
    if names.is_empty() { Err(Failure::failed(format!("{file} has no names"))) } else { Ok(names) }
}

/// Why a name is no safe name of a folder, if it is none.
fn wrong(name: &str) -> Option<String> {
    let letter = |letter: char| letter.is_alphanumeric() || "._-".contains(letter);
    if let Some(sign) = name.chars().find(|sign| !letter(*sign)) {
        let sign = sign.escape_debug();
        return Some(format!("a name has only letters, digits, . _ and -, and not `{sign}`"));
    }
    if !name.starts_with(char::is_alphanumeric) {
        return Some("a name begins with a letter or a digit".to_string());
    }
    if name.len() > LONGEST {
        return Some(format!("a name has at most {LONGEST} bytes"));
    }
    (name.to_lowercase() == SECRETS).then(|| "this is the name of the file of secrets".to_string())
}

#[cfg(test)]
mod tests {
    use super::wrong;

    #[test]
    fn names_that_are_no_safe_folder_names_are_wrong() {
        for name in ["anna", "ben.b", "7", "Zoë", "a-b_c"] {
            assert_eq!(wrong(name), None, "{name}");
        }
        let long = "a".repeat(65);
        let unsafe_names = [
            "",
            ".",
            "..",
            ".x",
            "-o",
            "a/b",
            "../a",
            "a b",
            "a\\b",
            "a\u{0}",
            "Secrets.csv",
            &long,
        ];
        for name in unsafe_names {
            assert!(wrong(name).is_some(), "{name:?}");
        }
    }
}
