//! The calls in place and by pointer, which the header makes of the exports, do what the exports do.
//!
//! A program ends well only if both forms agree. It prints the numbers that each call answered, and each call has to have been
//! carried out and refused with every number that is not the sheet's: 2 stands for those.

use crate::cc;

use dimkhoros_sys::{MOST_LINES, MOST_REMEMBERED};
use std::fs;

#[test]
fn calls_in_place_are_the_pure_ones() {
    let expected = "commit 0 2 16 21\nrespond 0 2 15 16 17 21 32 33\nrespond_after 0 2 15 16 17 21 32 33\n\
                    respond_after with a store that fails 0 2 15 16 17 21 32 33\ndrop 0 21\nsave 0 34\n\
                    return_to 0 34\ntake_commitment 0 2 14 21\ntake_challenge 0 2 15 21\ntake_response 0 2 16 21 accepted rejected\n";
    assert_eq!(cc::run("in_place.c"), expected);
}

#[test]
fn calls_in_place_of_the_or_proof_are_the_pure_ones() {
    let expected = "or_commit 0 2 15 16 21 26\nor_respond 0 2 15 16 17 21 26 accepted\n\
                    or_respond_after 0 2 15 16 17 21 26\n\
                    or_respond_after with a store that fails 0 2 15 16 17 21 26\nor_drop 0 21\n";
    assert_eq!(cc::run("or_in_place.c"), expected);
}

#[test]
fn calls_in_place_of_a_watch_are_the_pure_ones() {
    let backs: Vec<String> = (0..=MOST_REMEMBERED).map(|back| back.to_string()).collect();
    let expected = format!(
        "open_watch 0 2\nhear 0 2 14 15 16 21 accepted rejected\nback {}\n",
        backs.join(" ")
    );
    assert_eq!(cc::run("watch_in_place.c"), expected);
}

/// Every product of the ledgers is named.
#[test]
fn calls_on_a_ledger_by_pointer_are_the_pure_ones() {
    let products: Vec<String> =
        (0..MOST_LINES).filter(|i| i % 5 > 2).map(|i| i.to_string()).collect();
    let expected = format!(
        "write_ledger 0 5 6 8 10 15 16 35 36 37\n\
         check_ledger 0 5 6 8 10 14 15 16 35 36 37 accepted rejected\nline {}\n",
        products.join(" ")
    );
    assert_eq!(cc::run("ledger_in_place.c"), expected);
}

#[test]
fn a_verdict_that_is_kept_over_rounds_is_never_an_old_one() {
    let expected = "right: accepted 0\ntoo large: not accepted 16\nright: accepted 0\nwrong: not accepted 0\n\
                    right: accepted 0\nnothing was asked: not accepted 21\nright: accepted 0\nno sheet: not accepted 2\n";
    assert_eq!(cc::run("careless.c"), expected);
}

#[test]
fn what_a_watch_said_is_never_kept_over_rounds() {
    let expected = "first: accepted, no reuse 0\nsecond: accepted, 1 back, x = 7 0\nwrong: not accepted, no reuse 0\n\
                    first: accepted, 1 back, x = 7 0\ntoo large: not accepted, no reuse 16\n\
                    second: accepted, 1 back, x = 7 0\nno sheet: not accepted, no reuse 2\n\
                    first: accepted, 1 back, x = 7 0\nother sheet: not accepted, no reuse 21\n\
                    a count of 64: not accepted, no reuse 21\n";
    assert_eq!(cc::run("careless_watch.c"), expected);
}

#[test]
fn what_is_said_of_a_ledger_is_never_kept_over_ledgers() {
    let expected = "2: refusal 0, commitment 12\nright: accepted, line 0, 0\nwrong: not accepted, line 2, 0\n\
                    right: accepted, line 0, 0\nno base: not accepted, line 0, 10\nright: accepted, line 0, 0\n\
                    too large: not accepted, line 0, 16\n11: refusal 16, commitment 12\n\
                    after a refused one: not accepted, line 0, 16\n5: refusal 0, commitment 4\n\
                    right: accepted, line 0, 0\na count of 65: not accepted, line 0, 37\n";
    assert_eq!(cc::run("careless_ledger.c"), expected);
}

/// A verdict that is answered by value is a whole one, whatever stood in the variable before. So is what a watch says, and what is
/// said of a ledger.
#[test]
fn no_call_gives_a_verdict_by_its_address() {
    let header = fs::read_to_string(cc::root().join("include/dimkhoros.h")).unwrap();
    let text: String = header.split_whitespace().collect();
    assert!(text.contains("staticinlineDimkhorosJudgementdimkhoros_take_response("));
    assert!(text.contains("staticinlineDimkhorosHearddimkhoros_hear("));
    assert!(text.contains("staticinlineDimkhorosCheckeddimkhoros_check_ledger("));
    assert!(!text.contains("Judgement*"), "a pointer to a verdict");
    assert!(!text.contains("Heard*"), "a pointer to what a watch says");
    assert!(!text.contains("Checked*"), "a pointer to what is said of a ledger");
}
