//! The story of document 00: a challenge is sent before Peggy listens, and Peggy is started again. The same where her file is
//! damaged meanwhile.

use super::class::{Class, Manner, Until};
use super::courses::exponents;
use super::programs::{
    ANSWER_FOUND_SESSION, DIED, LANGUAGES, SEND_BEFORE_STORING, careless_peggy, program,
};
use std::fs;

/// The point at which a Peggy who never ran before has sent her commitment and does not listen yet.
const COMMITTED: u32 = 11;

/// The point at which a Peggy who breaks both rules has found a session, answered on it, and not stored that.
const ANSWERED: u32 = 6;

/// A Peggy is ended before she listens. Something may be done to her folder, and the next one is started. The class hears two
/// commitments, and only the second is answered, although a challenge on the first waits in the wire.
fn only_the_second_is_answered(mut class: Class, meanwhile: impl FnOnce(&Class)) {
    class.tell("ready");
    assert_eq!(class.run_peggy(Until::Point(COMMITTED)), DIED);
    meanwhile(&class);
    assert_eq!(class.run_peggy(Until::Answers(1)), Some(0));
    assert_eq!(class.words, ["commitment", "commitment", "response"]);
    let [first, second] = class.commitments[..] else { panic!("there are two commitments") };
    assert_ne!(first, second);
    let [round] = class.rounds[..] else { panic!("there is one round") };
    assert_eq!(round.commitment, second);
    assert_eq!(class.read_off_wire(), None);
}

#[test]
fn a_challenge_that_comes_before_peggy_listens_is_not_answered() {
    let course = exponents();
    for language in LANGUAGES {
        let peggy = program(language, "peggy");
        only_the_second_is_answered(Class::new(&course, &peggy, Manner::Calm), |_| {});
    }
}

#[test]
fn without_the_rules_the_class_reads_the_secret_off_two_lines() {
    let course = exponents();
    for language in LANGUAGES {
        let careless = careless_peggy(language, &[ANSWER_FOUND_SESSION, SEND_BEFORE_STORING]);
        let mut class = Class::new(&course, &careless, Manner::Calm);
        class.tell("ready");
        assert_eq!(class.run_peggy(Until::Point(COMMITTED)), DIED);
        assert_eq!(class.run_peggy(Until::Point(ANSWERED)), DIED);
        assert_eq!(class.read_off_wire(), None);
        assert_eq!(class.run_peggy(Until::Answers(1)), Some(0));
        let words = ["commitment", "commitment", "response", "commitment", "response"];
        assert_eq!(class.words, words);
        assert_eq!(class.commitments.len(), 1);
        assert_eq!(class.read_off_wire(), Some(course.witness));
    }
}

#[test]
fn a_damaged_file_is_no_session_and_one_that_was_left_over_is_not_read() {
    let course = exponents();
    for language in LANGUAGES {
        for length in [0, 40, 78] {
            let peggy = program(language, "peggy");
            only_the_second_is_answered(Class::new(&course, &peggy, Manner::Calm), |class| {
                let [stored, left_over] =
                    ["session.bin", "session.new"].map(|name| class.folder.join(name));
                let bytes = fs::read(&stored).unwrap();
                fs::write(stored, &bytes[..length]).unwrap();
                fs::write(left_over, bytes).unwrap();
            });
        }
    }
}
