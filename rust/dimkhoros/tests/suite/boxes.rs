//! The boxes of docs/BOXES.md are ended at every step and started again, and nobody learns the witness. Without the page's
//! rules somebody does.

mod class;
mod courses;
mod pairs;
mod programs;
mod story;

use class::{Class, Manner, Until, WRONG_LINES};
use courses::{Course, exponents, roots};
use dimkhoros::Places;
use programs::{
    ANSWER_FOUND_SESSION, DIED, LANGUAGES, SEND_BEFORE_STORING, careless_peggy, program,
};
use std::collections::BTreeSet;
use std::fs;
use std::path::Path;

/// As many points as Peggy passes from her first start to her second commitment.
const POINTS: u32 = 24;

/// What a class has learned, and the names of the points at which Peggys were ended.
#[derive(Default)]
struct Learned {
    two_answers: bool,
    off_wire: Option<Places>,
    off_file: Option<Places>,
    points: BTreeSet<String>,
}

impl Learned {
    /// Adds what the class learns where a Peggy is ended at the point of this number, the next Peggy too, and the third
    /// answers twice.
    fn end_at(&mut self, number: u32, mut class: Class) {
        class.tell("ready");
        assert_eq!(class.run_peggy(Until::Point(number)), DIED);
        assert_eq!(class.run_peggy(Until::Point(number)), DIED);
        assert_eq!(class.run_peggy(Until::Answers(2)), Some(0));
        self.two_answers |= class.heard_two_answers();
        self.off_wire = self.off_wire.or(class.read_off_wire());
        self.off_file = self.off_file.or(class.read_off_file);
        let log = fs::read_to_string(class.folder.join("log")).unwrap();
        let ends = log.lines().filter_map(|line| line.strip_prefix("dies "));
        self.points.extend(ends.map(str::to_string));
    }

    /// What the class learns in all where Peggys are ended at each point.
    fn end_everywhere(course: &Course, peggy: &Path, manner: Manner) -> Learned {
        let mut learned = Learned::default();
        for number in 1..=POINTS {
            learned.end_at(number, Class::new(course, peggy, manner));
        }
        learned
    }

    /// Whether the class has learned nothing at all.
    fn is_nothing(&self) -> bool {
        !self.two_answers && self.off_wire.is_none() && self.off_file.is_none()
    }
}

#[test]
fn a_peggy_that_ends_anywhere_answers_no_commitment_twice() {
    for language in LANGUAGES {
        for course in [exponents(), roots()] {
            let learned =
                Learned::end_everywhere(&course, &program(language, "peggy"), Manner::Greedy);
            assert!(learned.is_nothing());
            let points = [
                "after a receive",
                "after a send",
                "after a write",
                "before a receive",
                "before a rename",
                "before a send",
                "before a write",
            ];
            assert!(learned.points.iter().eq(points), "{:?}", learned.points);
        }
    }
}

#[test]
fn a_line_that_is_no_challenge_is_not_answered() {
    for language in LANGUAGES {
        let course = exponents();
        let mut class = Class::new(&course, &program(language, "peggy"), Manner::Clumsy);
        class.tell("ready");
        assert_eq!(class.run_peggy(Until::Answers(1)), Some(0));
        assert_eq!(class.words, ["commitment", "response"]);
        let log = fs::read_to_string(class.folder.join("log")).unwrap();
        let silent = log.lines().filter(|line| line.starts_with("peggy does not answer: "));
        assert_eq!(silent.count(), WRONG_LINES.len() + 1);
    }
}

#[test]
fn a_copy_of_the_file_that_is_put_back_is_not_answered() {
    for language in LANGUAGES {
        let course = exponents();
        let peggy = program(language, "peggy");
        assert!(Learned::end_everywhere(&course, &peggy, Manner::PutsBack).is_nothing());
        let careless = careless_peggy(language, &[ANSWER_FOUND_SESSION]);
        assert!(Learned::end_everywhere(&course, &careless, Manner::Greedy).is_nothing());
        let learned = Learned::end_everywhere(&course, &careless, Manner::PutsBack);
        assert!(learned.two_answers);
        assert_eq!(learned.off_wire, Some(course.witness));
    }
}

#[test]
fn a_response_is_sent_after_the_nonce_has_left_the_file() {
    for language in LANGUAGES {
        let course = exponents();
        let careless = careless_peggy(language, &[SEND_BEFORE_STORING]);
        let learned = Learned::end_everywhere(&course, &careless, Manner::Greedy);
        assert_eq!(learned.off_wire, None);
        assert_eq!(learned.off_file, Some(course.witness));
    }
}

#[test]
fn without_both_rules_the_class_reads_the_witness_off_the_wire() {
    for language in LANGUAGES {
        let course = exponents();
        let careless = careless_peggy(language, &[ANSWER_FOUND_SESSION, SEND_BEFORE_STORING]);
        let learned = Learned::end_everywhere(&course, &careless, Manner::Greedy);
        assert!(learned.two_answers);
        assert_eq!(learned.off_wire, Some(course.witness));
    }
}
