//! The reason's line: what it says of sheets, files and round 0.

use judge::*;

use crate::tools::*;

/// The rounds of the paper's example for the marker.
const EXAMPLE: [u32; 12] = [9, 3, 4, 9, 1, 1, 9, 1, 2, 5, 0, 0];

/// The sheet of page F: two rows, three columns, 52 bytes.
fn page_f() -> Raw {
    let table: [&[u32]; 2] = [&[2, 3, 1], &[3, 1, 3]];
    exponent(23, 11, 11, &table, &[12, 9])
}

/// The line on page A's sheet and a file with this one round.
fn on_page_a(t: u32, c: u32, r: u32) -> String {
    reason(&page_a(), &file(1, &[t, c, r]))
}

/// The line on page G's sheet and a file with this one round.
fn on_page_g(t: u32, c: u32, r: u32) -> String {
    reason(&page_g(), &file(1, &[t, c, r]))
}

#[test]
fn the_papers_example() {
    let (sheet, rounds) = (page_a(), file(4, &EXAMPLE));
    assert_eq!(reason(&sheet, &rounds), "accepted\n");
    // Each of its rounds as round 0. 2^2 is 4, and 9 · 13 mod 23 is 2.
    assert_eq!(on_page_a(9, 3, 4), "accepted\n");
    assert_eq!(on_page_a(9, 1, 1), "accepted\n");
    assert_eq!(on_page_a(9, 1, 2), "rejected 0 4 2\n");
    assert_eq!(on_page_a(5, 0, 0), "refused 14 7\n");
}

#[test]
fn only_round_0_is_looked_at() {
    let words = [9, 3, 4, u32::MAX, u32::MAX, u32::MAX];
    assert_eq!(reason(&page_a(), &file(2, &words)), "accepted\n");
    let words = [9, 1, 2, 9, 3, 4];
    assert_eq!(reason(&page_a(), &file(2, &words)), "rejected 0 4 2\n");
}

#[test]
fn the_calculator_pages() {
    assert_eq!(on_page_g(33, 1, 6), "accepted\n");
    assert_eq!(on_page_g(33, 3, 24), "accepted\n");
    // 3^5 mod 35 is 33, and 33 · 32 mod 35 is 6.
    assert_eq!(on_page_g(33, 1, 3), "rejected 0 33 6\n");
    let round = file(1, &[9, 3, 4]);
    let line = |raw: Raw| reason(&raw.bytes(), &round);
    assert_eq!(line(exponent(23, 11, 12, &[&[2]], &[13])), "refused 8 14\n");
    assert_eq!(line(exponent(31, 15, 4, &[&[1]], &[1])), "refused 8 14\n");
    // Page J. 2^10 mod 23 is 12.
    assert_eq!(on_page_a(9, 0, 10), "rejected 0 12 9\n");
    assert_eq!(on_page_a(9, 0, 11), "refused 16 15\n");
    // Page K.
    let nine: [&[u32]; 9] = [&[2]; 9];
    assert_eq!(line(exponent(23, 11, 11, &nine, &[13; 9])), "refused 7 18\n");
    assert_eq!(line(root(35, 5, 5, &[32; 9])), "refused 7 18\n");
    let words = |rounds| [9, 3, 4].repeat(rounds);
    let most = reason(&page_a(), &file(512, &words(512)));
    assert_eq!(most, "accepted\n");
    let more = reason(&page_a(), &file(513, &words(513)));
    assert_eq!(more, "refused 12 5\n");
}

#[test]
fn the_differing_rows_and_their_two_sides() {
    // Page E: t (9, 6), c 3, r 4. 16^4 mod 23 is 9 and 18^3 mod 23 is 13.
    let sheet = exponent(23, 11, 11, &[&[2], &[16]], &[13, 18]).bytes();
    let line = |t: [u32; 2]| reason(&sheet, &file(1, &[t[0], t[1], 3, 4]));
    assert_eq!(line([9, 6]), "accepted\n");
    assert_eq!(line([9, 1]), "rejected 1 9 13\n");
    // 2^4 is 16 and 1 · 13^3 mod 23 is 12, in row 0 and before row 1.
    assert_eq!(line([1, 6]), "rejected 0 16 12\n");
    assert_eq!(line([1, 1]), "rejected 0 16 12 1 9 13\n");
    // The last of eight rows of kind 2.
    let sheet = root(35, 5, 5, &[32; 8]).bytes();
    let mut words = [33; 17];
    words[8] = 1;
    words[9..].fill(6);
    assert_eq!(reason(&sheet, &file(1, &words)), "accepted\n");
    words[16] = 3;
    assert_eq!(reason(&sheet, &file(1, &words)), "rejected 7 33 6\n");
}

#[test]
fn sides_of_wide_numbers() {
    // m is prime and e is odd, so −1 goes to −1. (m − 2) · 2 is −4.
    let m = 4_294_967_291;
    let sheet = root(m, 65_537, 2, &[2]).bytes();
    let line = reason(&sheet, &file(1, &[m - 2, 1, m - 1]));
    assert_eq!(line, "rejected 0 4294967290 4294967287\n");
    let line = reason(&sheet, &file(1, &[m, 1, m - 1]));
    assert_eq!(line, "refused 14 7\n");
}

#[test]
fn refusals_2_to_11_show_the_value_in_the_sheet() {
    let line = |change: fn(&mut Raw)| {
        [page_f(), root(35, 5, 5, &[32])].map(|mut raw| {
            change(&mut raw);
            reason(&raw.bytes(), &[])
        })
    };
    let both = |text: &str| [text.to_string(), text.to_string()];
    assert_eq!(line(|raw| raw.mark = *b"HON"), both("refused 2 0\n"));
    assert_eq!(line(|raw| raw.version = 2), both("refused 3 3\n"));
    assert_eq!(line(|raw| raw.version = 257), both("refused 3 3\n"));
    assert_eq!(line(|raw| raw.kind = 3), both("refused 4 5\n"));
    assert_eq!(line(|raw| raw.kind = 0), both("refused 4 5\n"));
    assert_eq!(line(|raw| raw.modulus = 2), both("refused 5 6\n"));
    assert_eq!(line(|raw| raw.order = 1), both("refused 6 10\n"));
    assert_eq!(line(|raw| raw.rows = 0), both("refused 7 18\n"));
    assert_eq!(line(|raw| raw.rows = 9), both("refused 7 18\n"));
    assert_eq!(line(|raw| raw.columns = 0), both("refused 7 19\n"));
    assert_eq!(line(|raw| raw.columns = 9), both("refused 7 19\n"));
    assert_eq!(line(|raw| raw.challenges = 1), both("refused 8 14\n"));
    assert_eq!(line(|raw| raw.challenges = 12), both("refused 8 14\n"));
    assert_eq!(line(|raw| raw.challenges = 65_537), both("refused 8 14\n"));
    let [exponent, root] = line(|raw| raw.words.push(1));
    assert_eq!(exponent, "refused 9 length 56\n");
    assert_eq!(root, "refused 9 length 28\n");
    let [exponent, root] = line(|raw| raw.words[0] = 0);
    assert_eq!(exponent, "refused 10 20\n");
    assert_eq!(root, "refused 11 20\n");
}

#[test]
fn unequal_rows_and_columns_of_kind_2() {
    for rows in 0..=10_u8 {
        for columns in 0..=10_u8 {
            let mut raw = root(35, 5, 5, &vec![32; rows.into()]);
            raw.columns = columns;
            let line = reason(&raw.bytes(), &file(0, &[]));
            let expected = match (rows, columns) {
                (0 | 9 | 10, _) => "refused 7 18\n",
                _ if rows != columns => "refused 7 19\n",
                _ => "refused 13 5\n",
            };
            assert_eq!(line, expected);
        }
    }
}

#[test]
fn each_entry_and_statement_value_has_its_offset() {
    for place in 0..8 {
        let mut raw = page_f();
        raw.words[place] = 5;
        let number = if place < 6 { 10 } else { 11 };
        let line = format!("refused {number} {}\n", 20 + 4 * place);
        assert_eq!(reason(&raw.bytes(), &[]), line);
        let mut raw = root(35, 5, 5, &[32; 8]);
        raw.words[place] = 7;
        let line = format!("refused 11 {}\n", 20 + 4 * place);
        assert_eq!(reason(&raw.bytes(), &[]), line);
    }
    let full: Vec<&[u32]> = vec![&[2, 3, 4, 6, 8, 9, 12, 13]; 8];
    let mut raw = exponent(23, 11, 11, &full, &[2; 8]);
    raw.words[71] = 23;
    assert_eq!(reason(&raw.bytes(), &[]), "refused 11 304\n");
    raw.words[63] = 0;
    assert_eq!(reason(&raw.bytes(), &[]), "refused 10 272\n");
}

#[test]
fn each_value_of_round_0_has_its_offset() {
    // Page F's records are t of two, c, r of three: 7, 11, 15, 19, 23, 27.
    let sheet = page_f().bytes();
    let good = [12, 9, 0, 2, 1, 0];
    assert_eq!(reason(&sheet, &file(1, &good)), "accepted\n");
    for (place, number) in [14, 14, 15, 16, 16, 16].into_iter().enumerate() {
        let mut words = good;
        words[place] = 23;
        let line = format!("refused {number} {}\n", 7 + 4 * place);
        assert_eq!(reason(&sheet, &file(1, &words)), line);
    }
    // Three rows of kind 2: t at 7, 11, 15, c at 19, r at 23, 27, 31.
    let sheet = root(35, 5, 5, &[32; 3]).bytes();
    let good = [33, 33, 33, 1, 6, 6, 6];
    assert_eq!(reason(&sheet, &file(1, &good)), "accepted\n");
    for (place, number) in [14, 14, 14, 15, 16, 16, 16].into_iter().enumerate() {
        for bad in [35, 7 + 35, u32::MAX] {
            let mut words = good;
            words[place] = bad;
            let line = format!("refused {number} {}\n", 7 + 4 * place);
            assert_eq!(reason(&sheet, &file(1, &words)), line);
        }
    }
}

#[test]
fn lengths_of_sheets() {
    for sheet in [page_a(), page_g(), page_f().bytes()] {
        for length in 0..sheet.len() {
            let number = if length < 20 { 2 } else { 9 };
            let line = format!("refused {number} length {length}\n");
            assert_eq!(reason(&sheet[..length], &[]), line);
        }
        for extra in 1..9 {
            let longer = [sheet.clone(), vec![0; extra]].concat();
            let line = format!("refused 9 length {}\n", longer.len());
            assert_eq!(reason(&longer, &[]), line);
        }
    }
}

#[test]
fn lengths_of_files() {
    let good = file(2, &[9, 3, 4, 9, 1, 1]);
    for length in 0..good.len() {
        let line = format!("refused 12 length {length}\n");
        assert_eq!(reason(&page_a(), &good[..length]), line);
    }
    for extra in 1..14 {
        let longer = [good.clone(), vec![0; extra]].concat();
        let line = format!("refused 12 length {}\n", 31 + extra);
        assert_eq!(reason(&page_a(), &longer), line);
    }
    // A file of another sheet's records.
    let line = reason(&page_f().bytes(), &good);
    assert_eq!(line, "refused 12 length 31\n");
}

#[test]
fn refusals_12_and_13_show_the_value_in_the_file() {
    let line = |place: usize, value: u8| {
        let mut bytes = file(1, &[9, 3, 4]);
        bytes[place] = value;
        reason(&page_a(), &bytes)
    };
    for place in 0..3 {
        assert_eq!(line(place, b'X'), "refused 12 0\n");
    }
    assert_eq!(line(3, 1), "refused 12 3\n");
    assert_eq!(line(4, 0), "refused 12 3\n");
    assert_eq!(line(4, 3), "refused 12 3\n");
    // In version 2 the one record is two bytes too long.
    assert_eq!(line(4, 2), "refused 12 length 19\n");
    assert_eq!(line(5, 3), "refused 12 5\n");
    assert_eq!(line(6, 2), "refused 12 length 19\n");
    assert_eq!(line(6, 0), "refused 12 length 19\n");
    // A count of 512 is allowed, so its length is what does not fit.
    assert_eq!(reason(&page_a(), &file(512, &[])), "refused 12 length 7\n");
    assert_eq!(reason(&page_a(), &file(513, &[])), "refused 12 5\n");
    assert_eq!(reason(&page_a(), &file(0, &[])), "refused 13 5\n");
    assert_eq!(reason(&page_g(), &file(0, &[])), "refused 13 5\n");
}
