//! The reason's line.

use crate::pages::{PLANS, made, page_a, round};
use dimkhoros::{
    Instance, LONGEST_FILE, LONGEST_REASON, LONGEST_TEXT, Places, Refusal, Round, RoundWriter,
    mark, places, reason,
};

/// The line on these bytes.
fn line(sheet: &[u8], file: &[u8]) -> String {
    reason(sheet, file, &mut [0; LONGEST_REASON]).to_string()
}

/// The bytes of a file of these rounds.
fn file(instance: &Instance, rounds: &[Round]) -> Vec<u8> {
    let mut buffer = vec![0; LONGEST_FILE];
    let mut writer = RoundWriter::start(instance, 1, &mut buffer).unwrap();
    for round in rounds {
        writer.append(round).unwrap();
    }
    writer.file().bytes().to_vec()
}

#[test]
fn round_0_is_accepted_rejected_or_refused() {
    let page = page_a();
    let of = |rounds: &[Round]| line(page.bytes(), &file(&page, rounds));
    assert_eq!(of(&[round(9, 3, 4), round(5, 0, 0)]), "accepted\n");
    // 2^2 is 4, and 9 · 13 leaves 2 modulo 23.
    assert_eq!(of(&[round(9, 1, 2), round(9, 3, 4)]), "rejected 0 4 2\n");
    assert_eq!(of(&[round(5, 0, 0)]), "refused 14 7\n");
    assert_eq!(of(&[round(9, 11, 0)]), "refused 15 11\n");
    assert_eq!(of(&[round(9, 0, 11)]), "refused 16 15\n");
    assert_eq!(of(&[]), "refused 13 5\n");
}

/// Each row that differs has its two sides behind it. 2^4 is 16 and 16^4 is 9 modulo 23, 13^3 is 12 and 18^3 is 13.
#[test]
fn every_row_that_differs_is_told() {
    let two_rows = made(&PLANS[3]).unwrap();
    let of = |commitment: Places| {
        let round = Round { commitment, challenge: 3, response: places([4]) };
        line(two_rows.bytes(), &file(&two_rows, &[round]))
    };
    assert_eq!(of(places([9, 6])), "accepted\n");
    assert_eq!(of(places([6, 6])), "rejected 0 16 3\n");
    assert_eq!(of(places([9, 9])), "rejected 1 9 2\n");
    assert_eq!(of(places([6, 9])), "rejected 0 16 3 1 9 2\n");
}

#[test]
fn lengths_are_those_of_the_whole_files() {
    let page = page_a();
    let long = vec![0; 1_000_000];
    assert_eq!(line(b"", b""), "refused 2 length 0\n");
    assert_eq!(line(&page.bytes()[..27], b""), "refused 9 length 27\n");
    assert_eq!(line(&[page.bytes(), &long].concat(), b""), "refused 9 length 1000028\n");
    let one = file(&page, &[round(9, 3, 4)]);
    assert_eq!(line(page.bytes(), &[one, long].concat()), "refused 12 length 1000019\n");
}

/// The number of the marker's line on a refused sheet is that of the reason, for each of the sheet's bytes in turn.
#[test]
fn the_number_is_the_markers() {
    for plan in &PLANS {
        let instance = made(plan).unwrap();
        for place in 0..instance.bytes().len() {
            let mut sheet = instance.bytes().to_vec();
            sheet[place] ^= 0x80;
            let marked = mark(&sheet, b"", b"", &mut [0; LONGEST_TEXT]).to_string();
            let number = line(&sheet, b"").split(' ').nth(1).unwrap().to_string();
            assert_eq!(marked.trim_end().split(' ').next_back().unwrap(), number, "{marked}");
            assert!(Refusal::from_number(number.parse().unwrap()).is_some());
        }
    }
}

#[test]
fn bytes_behind_the_line_stay() {
    let mut text = [0xee; LONGEST_REASON];
    assert_eq!(reason(page_a().bytes(), b"RND", &mut text), "refused 12 length 3\n");
    assert!(text[20..].iter().all(|byte| *byte == 0xee));
}
