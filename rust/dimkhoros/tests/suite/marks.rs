//! The marker's text.

use crate::pages::{page_a, round};
use dimkhoros::{
    Instance, LONGEST_FILE, LONGEST_TEXT, MOST_ROUNDS, Refusal, Round, RoundWriter, mark,
};

/// The marker's text on a sheet, a file of these rounds and these bytes as the level.
fn marked(instance: &Instance, rounds: &[Round], level: &[u8]) -> String {
    let mut buffer = vec![0; LONGEST_FILE];
    let mut writer = RoundWriter::start(instance, 1, &mut buffer).unwrap();
    for round in rounds {
        writer.append(round).unwrap();
    }
    mark(instance.bytes(), writer.file().bytes(), level, &mut [0; LONGEST_TEXT]).to_string()
}

#[test]
fn a_file_is_marked_round_by_round() {
    let rounds = [round(9, 3, 4), round(9, 1, 1), round(9, 1, 2), round(5, 0, 0)];
    let expected = "rounds 4\n0 accepted\n1 accepted\n2 rejected 0\n3 refused 14\nfail\n";
    assert_eq!(marked(&page_a(), &rounds, &[7]), expected);
    assert_eq!(marked(&page_a(), &rounds[..1], &[3]), "rounds 1\n0 accepted\npass\n");
}

/// The card's numbers: K is 11, two rounds make 121 and three 1331, and 2^7 is 128.
#[test]
fn a_file_passes_with_rounds_enough_for_its_level() {
    let last_line = |count: usize, level: u8| {
        let text = marked(&page_a(), &vec![round(9, 3, 4); count], &[level]);
        text.lines().last().unwrap().to_string()
    };
    assert_eq!([2, 3].map(|count| last_line(count, 7)), ["fail", "pass"]);
    assert_eq!([6, 7, 10, 11].map(|level| last_line(2, level)), ["pass", "fail", "fail", "fail"]);
    for level in 1..=64 {
        assert_eq!(marked(&page_a(), &[], &[level]), "rounds 0\nfail\n");
    }
}

/// One round that is not accepted fails a file that has rounds enough without it.
#[test]
fn enough_accepted_rounds_do_not_outweigh_another() {
    for other in [round(9, 1, 2), round(5, 0, 0)] {
        let rounds = [round(9, 3, 4), round(9, 1, 1), other];
        assert!(marked(&page_a(), &rounds, &[1]).ends_with("fail\n"));
    }
}

#[test]
fn a_level_is_one_byte_from_1_to_64() {
    let rounds = [round(9, 1, 2)];
    for level in [&[][..], &[0], &[65], &[255], &[7, 0], &[0, 7], &[7; 1000]] {
        assert_eq!(marked(&page_a(), &rounds, level), "level 25\n", "{level:?}");
        assert_eq!(mark(page_a().bytes(), b"", level, &mut [0; LONGEST_TEXT]), "file 12\n");
        assert_eq!(mark(b"", b"", level, &mut [0; LONGEST_TEXT]), "sheet 2\n");
    }
    for level in 1..=64 {
        assert_eq!(marked(&page_a(), &rounds, &[level]), "rounds 1\n0 rejected 0\nfail\n");
    }
    let level = Refusal::from_number(25).unwrap();
    assert_eq!(level, Refusal::Level);
    assert_eq!(level.to_string(), "refusal 25: the level must be one byte from 1 to 64");
}

#[test]
fn a_text_has_a_line_for_each_of_512_rounds() {
    let text = marked(&page_a(), &[round(9, 1, 2); MOST_ROUNDS], &[64]);
    assert_eq!(text.lines().count(), MOST_ROUNDS + 2);
    assert!(text.ends_with("511 rejected 0\nfail\n"));
    // `rounds 512`, the lines of rounds 0 to 9, 10 to 99 and 100 to 511, and `fail`.
    assert_eq!(text.len(), 11 + 10 * 13 + 90 * 14 + 412 * 15 + 5);
}

#[test]
fn bytes_behind_the_text_stay() {
    let mut text = [0xee; LONGEST_TEXT];
    assert_eq!(mark(page_a().bytes(), b"RND", &[7], &mut text), "file 12\n");
    assert!(text[8..].iter().all(|byte| *byte == 0xee));
}
