//! The sizes on docs/FORMATS.md are those of the library.

use crate::cc;
use crate::repeats::with_commas;

use dimkhoros::{STORED_OR_PROVER, STORED_PROVER, STORED_VERIFIER};
use dimkhoros_sys::*;
use std::fs;

/// Each size with the words before and after it on the page.
const SIZES: [(&str, usize, &str); 15] = [
    ("in kind 2: at least 24, at most ", LONGEST_SHEET, "."),
    ("| count of rounds: 0 to ", MOST_ROUNDS, " |"),
    ("A file has at least 7 bytes and at most ", LONGEST_FILE, " in version 1 or "),
    (" in version 1 or ", LONGEST_FILE_2, " in version 2."),
    ("A pattern file has 1 to ", MOST_PATTERNS, " patterns."),
    ("at least 10 bytes and at most 6 + 32·67 = ", LONGEST_PATTERNS, "."),
    ("(#patterns) to the buffer's start and answers ", SHIPPED_PATTERNS, " |"),
    ("The longest line has eight rows and ", LONGEST_REASON, " bytes."),
    ("So ", LONGEST_GAME, " bytes hold every text."),
    ("In the C interface a watch has ", size_of::<Watch>(), " bytes:"),
    ("In the C interface a line has ", size_of::<Line>(), " bytes:"),
    ("A ledger has ", size_of::<Ledger>(), " bytes:"),
    ("| length of the whole, ", STORED_PROVER, " |"),
    ("| length of the whole, ", STORED_VERIFIER, " |"),
    ("| length of the whole, ", STORED_OR_PROVER, " |"),
];

#[test]
fn the_page_has_the_sizes_of_the_library() {
    let page = fs::read_to_string(cc::root().join("docs/FORMATS.md")).unwrap();
    for (before, size, after) in SIZES {
        let told = format!("{before}{}{after}", with_commas(size as u64));
        assert!(page.contains(&told), "docs/FORMATS.md does not say \"{told}\"");
    }
}
