//! Which rows are measured.

use std::fmt;

/// Words that all have to stand in a row's first two columns. Without words every
/// row is measured.
pub struct Filter {
    words: Vec<String>,
}

impl Filter {
    pub fn new(words: &[String]) -> Filter {
        Filter { words: words.to_vec() }
    }

    /// Whether the row of a call on these inputs is measured.
    pub fn takes(&self, on: &str, call: &str) -> bool {
        self.words.iter().all(|word| on.contains(word.as_str()) || call.contains(word.as_str()))
    }
}

/// The words, with a space between them.
impl fmt::Display for Filter {
    fn fmt(&self, f: &mut fmt::Formatter<'_>) -> fmt::Result {
        f.write_str(&self.words.join(" "))
    }
}
