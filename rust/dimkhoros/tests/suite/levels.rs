//! The table of docs/FORMATS.md on how many rounds a level needs is what the formula above it gives, and what the marker says.

use crate::cc;

use dimkhoros::{LONGEST_TEXT, mark};
use std::fs;

/// The challenge counts K of the table's rows, with their names, and the levels of its columns.
const ROWS: [(&str, u32); 7] =
    [("2", 2), ("3", 3), ("5", 5), ("11", 11), ("101", 101), ("256", 256), ("65,536", 65_536)];
const LEVELS: [u8; 4] = [7, 16, 32, 64];

/// The least count with K^count ≥ 2^w. The product stays below 2^80, since it is below 2^64 before the last factor.
fn needed(challenges: u32, level: u8) -> u16 {
    let (mut count, mut product) = (0, 1u128);
    while product < 1 << level {
        count += 1;
        product *= u128::from(challenges);
    }
    count
}

/// Whether the marker passes a file of so many accepted rounds at a level, on a root sheet with m = 3, e = 65,537, z = 1 and this K.
fn passes(challenges: u32, count: u16, level: u8) -> bool {
    let mut sheet = b"HOM\0\x01\x02\0\0\0\x03\0\x01\0\x01".to_vec();
    sheet.extend(challenges.to_be_bytes());
    sheet.extend(b"\x01\x01\0\0\0\x01");
    let mut file = b"RND\0\x01".to_vec();
    file.extend(count.to_be_bytes());
    file.extend(b"\0\0\0\x01\0\0\0\0\0\0\0\x01".repeat(count.into()));
    let mut text = [0; LONGEST_TEXT];
    let text = mark(&sheet, &file, &[level], &mut text);
    assert_eq!(text.matches(" accepted\n").count(), count.into(), "{text}");
    text.ends_with("\npass\n")
}

#[test]
fn the_table_of_rounds_is_computed() {
    let page = fs::read_to_string(cc::root().join("docs/FORMATS.md")).unwrap();
    let mut table = "| K | w = 7 | w = 16 | w = 32 | w = 64 |\n|--:|--:|--:|--:|--:|\n".to_string();
    for (name, challenges) in ROWS {
        let cells = LEVELS.map(|level| needed(challenges, level).to_string());
        table += &format!("| {name} | {} |\n", cells.join(" | "));
    }
    assert!(
        page.contains(&(table.clone() + "\n")),
        "docs/FORMATS.md does not have the table\n{table}"
    );
}

#[test]
fn so_many_rounds_pass_and_one_fewer_does_not() {
    for (_, challenges) in ROWS {
        for level in 1..=64 {
            let count = needed(challenges, level);
            assert!(passes(challenges, count, level), "K {challenges}, w {level}");
            assert!(!passes(challenges, count - 1, level), "K {challenges}, w {level}");
        }
        assert!(passes(challenges, 512, 64));
    }
}
