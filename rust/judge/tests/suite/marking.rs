//! The marker's text.

use judge::*;

use crate::tools::*;

#[test]
fn the_papers_example() {
    let (sheet, rounds) = (page_a(), file(4, &[9, 3, 4, 9, 1, 1, 9, 1, 2, 5, 0, 0]));
    assert_eq!((sheet.len(), rounds.len()), (28, 55));
    let expected = "rounds 4\n0 accepted\n1 accepted\n2 rejected 0\n3 refused 14\nfail\n";
    assert_eq!(marker(&sheet, &rounds, &[1]), expected);
}

#[test]
fn refused_inputs_give_one_line() {
    assert_eq!(marker(&[], &[], &[1]), "sheet 2\n");
    assert_eq!(marker(&page_a()[..27], &[], &[1]), "sheet 9\n");
    assert_eq!(marker(&page_a(), &[], &[1]), "file 12\n");
    assert_eq!(marker(&page_a(), &file(1, &[9, 3]), &[1]), "file 12\n");
}

#[test]
fn no_rounds_fail_at_every_level() {
    for w in 1..=64 {
        let text = marker(&page_a(), &file(0, &[]), &[w]);
        assert_eq!(text, "rounds 0\nfail\n");
    }
}

#[test]
fn enough_accepted_rounds_pass() {
    let rounds = file(2, &[9, 3, 4, 9, 1, 1]);
    assert_eq!(marker(&page_a(), &rounds, &[6]), "rounds 2\n0 accepted\n1 accepted\npass\n");
}

#[test]
fn the_three_refusals_of_a_round_and_a_later_row() {
    let sheet = exponent(23, 11, 11, &[&[2], &[16]], &[13, 18]).bytes();
    let rounds = file(
        5,
        &[
            9, 6, 3, 4, // accepted
            9, 1, 3, 4, // row 1 differs
            9, 5, 11, 11, // 14 before 15 and 16
            9, 6, 11, 11, // 15 before 16
            9, 6, 3, 11, // 16
        ],
    );
    let expected = "rounds 5\n0 accepted\n1 rejected 1\n2 refused 14\n\
                    3 refused 15\n4 refused 16\nfail\n";
    assert_eq!(marker(&sheet, &rounds, &[1]), expected);
}

#[test]
fn a_full_file() {
    let text = marker(&page_g(), &file(512, &[33, 1, 6].repeat(512)), &[64]);
    assert_eq!(text.lines().count(), 514);
    assert!(text.starts_with("rounds 512\n0 accepted\n"));
    assert!(text.ends_with("511 accepted\npass\n"));
}
