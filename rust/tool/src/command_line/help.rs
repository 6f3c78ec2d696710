//! A help in its parts, which are printed, and of which the man pages and the completions are made.

use super::wrap;

/// A help.
pub struct Help {
    /// The ways in which the command is called.
    pub usage: Vec<String>,
    /// What stands between these and the example.
    pub parts: Vec<Part>,
    /// The lines of the example.
    pub example: Vec<String>,
}

/// A part of a help.
#[derive(Debug, PartialEq)]
pub enum Part {
    /// A paragraph.
    Text(String),
    /// Lines that stand as they are.
    Lines(Vec<String>),
    /// Words, each with what it means.
    Words(Vec<(String, String)>),
    /// An empty line.
    Empty,
}

impl Help {
    /// The parts of a help's text.
    pub fn read(text: &str) -> Help {
        let (before, example) = text.split_once("\nExample:\n").unwrap_or((text, ""));
        let (usage, rest) = before.split_once("\n\n").unwrap_or((before, ""));
        let mut parts = Vec::new();
        rest.lines().for_each(|line| add(&mut parts, line));
        let example = example.lines().map(str::to_string).collect();
        Help { usage: calls(usage), parts, example }
    }

    /// The help as it is printed in so many columns.
    pub fn print(&self, width: usize) -> String {
        let call = |(place, call): (usize, &String)| {
            let before = if place == 0 { "usage: " } else { "       " };
            format!("{before}{}\n", wrap::lines(call, 10, width - 7).replace('\n', "\n       "))
        };
        let usage: String = self.usage.iter().enumerate().map(call).collect();
        let widest = self.words().map(|(word, _)| word.chars().count()).max().unwrap_or(0);
        let parts: String = self.parts.iter().map(|part| part.print(widest, width)).collect();
        let example: String = self.example.iter().map(|line| format!("{line}\n")).collect();
        format!("{usage}\n{}\n\nExample:\n{example}", parts.trim_end_matches('\n'))
    }

    /// The words that the help explains.
    pub fn words(&self) -> impl Iterator<Item = &(String, String)> {
        self.parts.iter().flat_map(|part| match part {
            Part::Words(words) => &words[..],
            _ => &[],
        })
    }
}

/// The ways to call a command, of which a line that is further in goes on with the one before it.
fn calls(usage: &str) -> Vec<String> {
    let mut calls: Vec<String> = Vec::new();
    for line in usage.lines() {
        let words = line.trim_start_matches("usage:").trim();
        match calls.last_mut() {
            Some(call) if !words.starts_with("dimkhoros") => *call += &format!(" {words}"),
            _ => calls.push(words.to_string()),
        }
    }
    calls
}

/// Adds a line to the parts of a help.
fn add(parts: &mut Vec<Part>, line: &str) {
    let (words, indent) = (line.trim_start(), line.len() - line.trim_start().len());
    match (parts.last_mut(), indent) {
        _ if words.is_empty() => parts.push(Part::Empty),
        (Some(Part::Words(all)), 4) => all.push(entry(words)),
        (_, 4) => parts.push(Part::Words(vec![entry(words)])),
        (Some(Part::Words(all)), 5..) => {
            let last = all.last_mut().map(|(_, text)| text);
            last.into_iter().for_each(|text| *text += &format!(" {words}"));
        }
        (Some(Part::Lines(lines)), 5..) => lines.push(line.to_string()),
        (_, 5..) => parts.push(Part::Lines(vec![line.to_string()])),
        (Some(Part::Text(text)), _) => *text += &format!(" {words}"),
        _ => parts.push(Part::Text(words.to_string())),
    }
}

/// A word and what it means.
fn entry(line: &str) -> (String, String) {
    let (word, text) = line.split_once("  ").unwrap_or((line, ""));
    (word.to_string(), text.trim_start().to_string())
}

impl Part {
    /// The part in so many columns, where the widest word has so many.
    fn print(&self, widest: usize, width: usize) -> String {
        match self {
            Part::Text(text) => wrap::lines(text, 0, width) + "\n",
            Part::Lines(lines) => lines.iter().map(|line| format!("{line}\n")).collect(),
            Part::Words(words) => {
                let entry = |(word, text): &(String, String)| {
                    let before = " ".repeat(4 + widest + 2);
                    let text = wrap::lines(text, 0, width.saturating_sub(before.len()));
                    format!("    {word:<widest$}  {}\n", text.replace('\n', &format!("\n{before}")))
                };
                words.iter().map(entry).collect()
            }
            Part::Empty => "\n".to_string(),
        }
    }
}

#[cfg(test)]
mod tests {
    use super::{Help, Part};

    const TEXT: &str = "\
usage: dimkhoros do FILE
       dimkhoros do FILE [--all] [--again]
                 [-o FILE]

Does what it is told, and
says so.

    FILE   a file that is
           read
    --all  all of it

Example:
    $ dimkhoros do a
";

    #[test]
    fn a_help_is_read_in_its_parts() {
        let help = Help::read(TEXT);
        assert_eq!(
            help.usage,
            ["dimkhoros do FILE", "dimkhoros do FILE [--all] [--again] [-o FILE]"]
        );
        assert_eq!(help.parts[0], Part::Text("Does what it is told, and says so.".to_string()));
        let words: Vec<&str> = help.words().map(|(_, text)| text.as_str()).collect();
        assert_eq!(words, ["a file that is read", "all of it"]);
        assert_eq!(help.example, ["    $ dimkhoros do a"]);
    }

    #[test]
    fn a_help_fits_its_columns() {
        let printed = Help::read(TEXT).print(30);
        assert!(printed.lines().all(|line| line.chars().count() <= 30), "{printed}");
        assert!(printed.contains("    FILE   a file that is read\n    --all  all"), "{printed}");
        assert!(printed.ends_with("\n\nExample:\n    $ dimkhoros do a\n"), "{printed}");
    }
}
