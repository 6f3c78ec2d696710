//! A Peggy and a Vic, in either language, over one wire. One of them is ended again and again, and the two go on.

use super::class::read_line;
use super::courses::{Course, Folder, exponents, roots};
use super::programs::{DIED, LANGUAGES, Language, Running, program};
use crate::cc;
use std::collections::BTreeMap;
use std::fs;
use std::os::unix::net::UnixStream;
use std::path::{Path, PathBuf};
use std::process::Command;

/// As many points as a box passes in a round and a part of the next, at which one after the other is ended.
const POINTS: u32 = 24;

/// How many rounds Vic judges: more than he hears while boxes are ended.
const ROUNDS: u32 = 20;

/// A box with its folder and its end of the wire.
struct Seat {
    program: PathBuf,
    folder: Folder,
    end: UnixStream,
}

impl Seat {
    fn start(&self, count: Option<u32>, dies_at: Option<u32>) -> Running {
        let ends = (self.end.try_clone().unwrap(), self.end.try_clone().unwrap());
        Running::start(&self.program, &self.folder, count, ends, dies_at)
    }
}

/// A Peggy and a Vic of one course, and the wire between them.
fn seats(course: &Course, (peggy, vic): (Language, Language)) -> (Seat, Seat) {
    let (peggys_end, vics_end) = UnixStream::pair().unwrap();
    let seat = |program, end| Seat { program, folder: course.folder(), end };
    (seat(program(peggy, "peggy"), peggys_end), seat(program(vic, "vic"), vics_end))
}

/// The numbers of all lines of this word that the box of this folder heard or sent, as its log has them.
fn logged(folder: &Path, start: &str) -> Vec<Vec<u32>> {
    let log = fs::read_to_string(folder.join("log")).unwrap();
    let lines = log.lines().filter_map(|line| line.strip_prefix(start));
    lines.map(|line| read_line(line).1).collect()
}

/// No commitment stands in front of two different lines.
fn one_line_each(course: &Course, lines: Vec<Vec<u32>>) {
    let mut seen = BTreeMap::new();
    for line in lines {
        let commitment = line[..course.rows()].to_vec();
        let before = seen.insert(commitment, line.clone());
        assert!(before.is_none_or(|before| before == line), "{line:?} and another line");
    }
}

/// Peggy is ended at her first point, the next Peggy at the second, and so on, while one Vic goes on and accepts every round.
fn peggy_ends_again_and_again(course: &Course, languages: (Language, Language)) {
    let (peggy, vic) = seats(course, languages);
    let mut judging = vic.start(Some(ROUNDS), None);
    for number in 1..=POINTS {
        assert_eq!(peggy.start(None, Some(number)).wait().code(), DIED);
    }
    let mut proving = peggy.start(None, None);
    assert!(judging.wait().success(), "Vic does not accept every round");
    let challenges = logged(&vic.folder, "vic sends challenge");
    let responses = logged(&vic.folder, "vic hears response");
    assert!(responses.len() >= ROUNDS as usize);
    one_line_each(course, challenges);
    one_line_each(course, responses);
    drop(vic);
    assert!(proving.wait().success());
}

/// The same for Vic, while one Peggy goes on. The last Vic accepts every round.
fn vic_ends_again_and_again(course: &Course, languages: (Language, Language)) {
    let (peggy, vic) = seats(course, languages);
    let mut proving = peggy.start(None, None);
    for number in 1..=POINTS {
        assert_eq!(vic.start(Some(ROUNDS), Some(number)).wait().code(), DIED);
    }
    assert!(vic.start(Some(3), None).wait().success(), "Vic does not accept every round");
    drop(vic);
    assert!(proving.wait().success());
    one_line_each(course, logged(&peggy.folder, "peggy hears challenge"));
    one_line_each(course, logged(&peggy.folder, "peggy sends response"));
}

#[test]
fn any_peggy_and_any_vic_go_on_after_each_end_of_one() {
    for peggy in LANGUAGES {
        for vic in LANGUAGES {
            peggy_ends_again_and_again(&exponents(), (peggy, vic));
            vic_ends_again_and_again(&roots(), (peggy, vic));
        }
    }
}

#[test]
fn the_script_runs_both_boxes() {
    let script = cc::root().join("examples/boxes/run");
    for (peggy, vic) in [(Language::C, Language::Rust), (Language::Rust, Language::C)] {
        let boxes = [program(peggy, "peggy"), program(vic, "vic")];
        cc::succeed(Command::new(&script).args(boxes));
    }
}
