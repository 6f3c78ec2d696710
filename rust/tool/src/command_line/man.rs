//! Man pages, made of the helps.

use super::help::{Help, Part};

/// The man page of a command, or of the whole tool, with a name, a summary and the names of other pages to see.
pub fn page(name: &str, summary: &str, help: &Help, others: &[String]) -> String {
    let title = name.to_uppercase();
    let version = env!("CARGO_PKG_VERSION");
    let usage: Vec<String> = help.usage.iter().map(|call| escaped(call)).collect();
    let parts: String = help.parts.iter().map(part).collect();
    let example: String =
        help.example.iter().map(|line| escaped(&line[line.len().min(4)..]) + "\n").collect();
    let others: Vec<String> =
        others.iter().map(|other| format!("\\fB{}\\fR(1)", escaped(other))).collect();
    format!(
        ".TH \"{title}\" \"1\" \"\" \"dimkhoros {version}\"\n.SH NAME\n{} \\- {}\n.SH SYNOPSIS\n.nf\n{}\n.fi\n\
         .SH DESCRIPTION\n{parts}.SH EXAMPLE\n.nf\n{example}.fi\n.SH SEE ALSO\n{}\n",
        escaped(name),
        escaped(summary),
        usage.join("\n"),
        others.join(",\n")
    )
}

/// A part of a help in the page.
fn part(part: &Part) -> String {
    match part {
        Part::Text(text) => format!(".PP\n{}\n", escaped(text)),
        Part::Lines(lines) => {
            let lines: Vec<String> = lines.iter().map(|line| escaped(line)).collect();
            format!(".PP\n.nf\n{}\n.fi\n", lines.join("\n"))
        }
        Part::Words(words) => {
            let word = |(word, text): &(String, String)| {
                format!(".TP\n\\fB{}\\fR\n{}\n", escaped(word), escaped(text))
            };
            words.iter().map(word).collect()
        }
        Part::Empty => String::new(),
    }
}

/// A line that troff prints as it stands.
fn escaped(line: &str) -> String {
    let line = line.replace('\\', "\\e").replace('-', "\\-");
    if line.starts_with(['.', '\'']) { format!("\\&{line}") } else { line }
}

#[cfg(test)]
mod tests {
    use super::escaped;

    #[test]
    fn no_line_is_taken_for_a_request() {
        assert_eq!(escaped(".TH"), "\\&.TH");
        assert_eq!(escaped("'x"), "\\&'x");
        assert_eq!(escaped("-o r\\c"), "\\-o r\\ec");
    }
}
