//! The rule that a value in a file breaks: of a refusal with several causes, the one that applies.

use crate::command_line::failure::rule;
use dimkhoros::{MOST_PATTERNS, MOST_ROUNDS, PLACES, Refusal};

/// The rule that the value at an offset breaks.
pub fn of(refusal: Refusal, offset: usize, value: &str) -> String {
    match (refusal, offset) {
        (Refusal::SheetMark, _) => "a sheet begins with HOM".to_string(),
        (Refusal::SheetVersion, _) => "a sheet has version 1".to_string(),
        (Refusal::RoundNumber, _) => "the file has no round 0".to_string(),
        (Refusal::File, 0) => "a round file begins with RND".to_string(),
        (Refusal::File, 3) => "a round file has version 1 or 2".to_string(),
        (Refusal::File, _) => format!("a round file has at most {MOST_ROUNDS} rounds"),
        (Refusal::Challenge, _) if value.starts_with("c = ") => rule(refusal).to_string(),
        (Refusal::PatternFile, 0) => "a pattern file begins with PAT".to_string(),
        (Refusal::PatternFile, 3) => "a pattern file has version 1".to_string(),
        (Refusal::PatternFile, 5) => format!("a pattern file has 1 to {MOST_PATTERNS} patterns"),
        (Refusal::PatternFile, _) => format!("a pattern has 1 to {PLACES} of each"),
        (Refusal::PatternDigits, _) if value.starts_with("digit") => {
            "the pattern has fewer values".to_string()
        }
        (Refusal::PatternDigits, _) => "each value must be named by a digit".to_string(),
        _ => rule(refusal).to_string(),
    }
}
