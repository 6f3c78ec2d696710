use std::collections::BTreeSet;

use super::*;
use crate::calls::{ORDER, SHEET_NUMBERS};
use crate::faults::FAULTS;
use crate::library::Library::{Faulty, Judge, Proved};

/// The stored vectors, and the pages that show some of them.
const STORED: &str = include_str!("../../../../docs/vectors.txt");
const FORMATS: &str = include_str!("../../../../docs/FORMATS.md");
const AUTHORS: &str = include_str!("../../../../docs/AUTHORS.md");
/// The page on which refusals, worked pages and cards are looked up.
const SCOPE: &str = include_str!("../../../../docs/SCOPE.md");
/// The header for C, which has the refusals and their order too, and what has
/// them for Rust and for Python.
const HEADER: &str = include_str!("../../../../include/dimkhoros.h");
const IN_RUST: &str = include_str!("../../../dimkhoros/src/refusal.rs");
const IN_PYTHON: &str = include_str!("../../../../python/dimkhoros/refusals.py");

/// The first stored line that this library does not make.
fn difference(library: Library) -> Option<String> {
    let made = remade(STORED, library).unwrap();
    let mut lines = made.lines().zip(STORED.lines());
    let differs = lines.find(|(made, stored)| made != stored);
    differs.map(|(made, stored)| format!("stored: {stored}\n  made: {made}"))
}

/// Every stored call with its answer and the number of the refusal whose
/// section it stands in, 0 for none.
fn calls() -> Vec<(Call, &'static str, u32)> {
    let (mut calls, mut section) = (Vec::new(), 0);
    for line in STORED.lines() {
        if line.starts_with("# ----") {
            section = 0;
        }
        if let Some(head) = line.strip_prefix("# Refusal ") {
            section = head.split(':').next().unwrap().parse().unwrap();
        }
        if let Line::Call(call, words, _) = Line::read(line).unwrap() {
            calls.push((call, &line[words.len() + " -> ".len()..], section));
        }
    }
    calls
}

/// The numbers of what is refused: the one that a call answers, or those in a
/// text, where a round's own number may stand before the word.
fn refusals(answer: &str) -> impl Iterator<Item = u32> + '_ {
    answer.split("\\n").filter_map(|line| {
        let mut words = line.split(' ').skip_while(|word| word.parse::<u32>().is_ok());
        let refused = ["refused", "sheet", "file", "level"].contains(&words.next()?);
        refused.then(|| words.next().unwrap().parse().unwrap())
    })
}

/// The first number of what is refused.
fn refusal(answer: &str) -> Option<u32> {
    refusals(answer).next()
}

/// The numbers that the answers of a call have.
fn met(call: Call) -> BTreeSet<u32> {
    let answers = calls().into_iter().filter(|(of, ..)| *of == call);
    answers.flat_map(|(_, answer, _)| refusals(answer)).collect()
}

/// The blocks of a page with their languages.
fn blocks(page: &str) -> Vec<(&str, &str)> {
    let fenced = page.split("```").skip(1).step_by(2);
    fenced.map(|block| block.split_once('\n').unwrap()).collect()
}

/// The bytes of a block: pairs of digits, up to a mark of a comment.
fn block_bytes(block: &str) -> Vec<u8> {
    let digits: String = block.lines().flat_map(|line| line.split('#').next()).collect();
    bytes::read(&digits.replace(' ', "")).unwrap()
}

/// The rows of a page's table under this heading, cell by cell.
fn rows<'a>(page: &'a str, heading: &str) -> Vec<Vec<&'a str>> {
    let behind = page.split(heading).nth(1).unwrap();
    let mut table = behind.lines().skip_while(|line| !line.starts_with("|")).skip(2);
    let rows = std::iter::from_fn(|| table.next().filter(|line| line.starts_with("|")));
    rows.map(|row| row.trim_matches('|').split('|').map(str::trim).collect()).collect()
}

#[test]
fn the_judge_and_the_library_make_every_line() {
    for library in [Judge, Proved] {
        assert_eq!(difference(library), None, "{library:?}");
        assert!(remade(STORED, library).unwrap() == STORED);
    }
}

#[test]
fn every_planted_fault_changes_a_line() {
    let missed = FAULTS.iter().filter(|planted| difference(Faulty(planted.fault)).is_none());
    let names: Vec<&str> = missed.map(|planted| planted.name).collect();
    assert!(names.is_empty(), "not found: {names:?}");
}

#[test]
fn a_line_that_cannot_be_read_is_named() {
    for (line, error) in [
        ("judge t=9 c=3 r=4", "there is no arrow"),
        ("jugde t=9 c=3 r=4 ->", "there is no call jugde"),
        ("judge t=9 c=3 ->", "r is missing"),
        ("judge t=9 c=3 r=4 k=5 ->", "k is no input of this call"),
        ("judge t=nine c=3 r=4 ->", "nine is no number"),
        ("sheet 4", "4 is no bytes"),
        ("watch_round count=0 t=9 c=3 r=4 ->", "rounds is missing"),
        ("watch_round count=1 rounds=9:3 t=9 c=3 r=4 ->", "9:3 is no round"),
        ("watch_round count=1 rounds=9:3:4*64 t=9 c=3 r=4 ->", "a list is too long"),
        ("watch_round count=0 rounds=- held=00*309 t=9 c=3 r=4 ->", "a list is too long"),
        ("prover_drop phase=new nonce=0 commitment=0 saved=8:new:0:0 ->", "8 is no name"),
        (
            "prover_drop phase=new nonce=0 commitment=0 saved=7:new:0 ->",
            "7:new:0 is no saved state",
        ),
        ("prover_drop phase=new nonce=0 commitment=0 listed=9*65 ->", "a list is too long"),
        ("ledger_check g=2 h=3 m=23 l=11 K=11 lines=1*65 ->", "a list is too long"),
        (
            "ledger_write g=2 h=3 m=23 l=11 K=11 entries=1,0,0,2,1,0,0,0,0,0 ->",
            "a list is too long",
        ),
        ("ledger_check h=3 m=23 l=11 K=11 lines=- ->", "g is missing"),
    ] {
        let text = format!("# A comment.\n{line}\n");
        assert_eq!(remade(&text, Judge), Err(format!("line 2: {error}")));
    }
}

#[test]
fn each_refusal_has_lines_inside_and_outside_its_bounds() {
    for number in ORDER {
        let calls = calls().into_iter().filter(|(.., section)| *section == number);
        let (refused, others): (Vec<_>, Vec<_>) =
            calls.map(|(_, answer, _)| refusal(answer)).partition(Option::is_some);
        assert!(!others.is_empty(), "{number} has no line inside");
        assert!(!refused.is_empty(), "{number} has no line outside");
        assert!(refused.iter().all(|met| *met == Some(number)), "{number}: {refused:?}");
    }
}

#[test]
fn each_call_gives_its_numbers_and_no_others() {
    for call in Call::all() {
        let (name, met) = (call.name(), met(call));
        assert!(
            calls().iter().any(|(of, answer, _)| *of == call && refusal(answer).is_none()),
            "{name}"
        );
        assert!(met.iter().all(|number| call.can_give(*number)), "{name}: {met:?}");
        // A part answers no number.
        if call == Call::Part {
            continue;
        }
        assert!(call.others().iter().all(|number| met.contains(number)), "{name}: {met:?}");
        let of_sheet = SHEET_NUMBERS.iter().filter(|number| met.contains(number)).count();
        let wanted = match call {
            Call::Load | Call::Reason => SHEET_NUMBERS.len(),
            _ => usize::from(call.can_give(SHEET_NUMBERS[0])),
        };
        assert!(of_sheet >= wanted, "{name}: {met:?}");
    }
}

/// The bytes that stand in the vectors: sheets, round files, pattern files, levels,
/// and buffers that calls were lent or wrote to.
fn stored_bytes() -> Vec<Vec<u8>> {
    let words = STORED.lines().filter(|line| !line.starts_with('#')).flat_map(|line| {
        let given = ["sheet ", "second_sheet ", "file ", "pattern_file "]
            .iter()
            .find_map(|word| line.strip_prefix(word));
        let written = line
            .split(' ')
            .filter_map(|word| word.strip_prefix("buffer=").or(word.strip_prefix("level=")));
        given.into_iter().chain(written)
    });
    words.map(|word| bytes::read(word).unwrap()).collect()
}

#[test]
fn the_pages_show_stored_bytes_and_lines() {
    let (stored, lines) = (stored_bytes(), STORED.lines().collect::<BTreeSet<_>>());
    for (page, least) in [(FORMATS, 20), (AUTHORS, 6)] {
        let blocks = blocks(page);
        assert!(blocks.len() >= least, "{} blocks", blocks.len());
        for (language, block) in blocks {
            match language {
                "hex" => assert!(stored.contains(&block_bytes(block)), "not stored:\n{block}"),
                "vectors" => {
                    let other = block.lines().find(|line| !lines.contains(line));
                    assert_eq!(other, None, "not stored");
                }
                // Tests of the crate `dimkhoros` and of the tool run them.
                "rust" | "console" | "sh" if page == AUTHORS => {}
                _ => panic!("a block is neither bytes nor lines:\n{block}"),
            }
        }
    }
}

/// A line of inputs without the values of a round, a nonce or a witness that
/// stand beyond the s or n of the sheet.
fn without_rest(line: &str, (rows, columns): (usize, usize)) -> String {
    let Some((words, answer)) = line.split_once(" ->") else {
        return line.to_string();
    };
    let cut = |word: &str| {
        let (name, values) = word.split_once('=').unwrap_or((word, ""));
        let count = match name {
            "t" | "t2" => rows,
            "r" | "r2" | "k" | "x" => columns,
            _ => return word.to_string(),
        };
        let kept: Vec<&str> = values.split(',').take(count.max(1)).collect();
        format!("{name}={}", kept.join(","))
    };
    let words: Vec<String> = words.split(' ').map(cut).collect();
    format!("{} ->{answer}", words.join(" "))
}

/// As the text's first lines say: values beyond s and n are not read, and can be
/// left out.
#[test]
fn values_beyond_those_of_the_sheet_can_be_left_out() {
    let (mut sizes, mut text, mut longer) = ((0, 0), String::new(), 0);
    for line in STORED.lines() {
        if let Line::Sheet(sheet) = Line::read(line).unwrap() {
            sizes = answers::sizes(&sheet);
        }
        let both = line.starts_with("or_") || line.starts_with("team_");
        let cut = if both { line.to_string() } else { without_rest(line, sizes) };
        longer += usize::from(cut != line);
        text += &(cut + "\n");
    }
    assert!(longer >= 8, "{longer} lines have more values");
    let made = remade(&text, Proved).unwrap();
    for (made, stored) in made.lines().zip(STORED.lines()) {
        assert_eq!(made.split_once(" ->").map(|it| it.1), stored.split_once(" ->").map(|it| it.1));
    }
}

/// The lines of a page's blocks, in order. Bytes of a block stand for the line
/// that gives them to the calls below.
fn told_in_order(page: &str) -> String {
    let mut text = String::new();
    for (language, block) in blocks(page) {
        if language == "vectors" {
            text += block;
        }
        if language == "hex" {
            let bytes = block_bytes(block);
            let kind = match bytes.get(..3) {
                Some(b"HOM") => "sheet",
                Some(b"RND") => "file",
                Some(b"PAT") => "pattern_file",
                _ => continue,
            };
            text += &format!("{kind} {}\n", bytes::text(&bytes));
        }
    }
    text
}

/// A reader of a page finds before each call the bytes that it is given. In
/// AUTHORS.md patterns are those of the shipped file.
#[test]
fn a_page_gives_each_call_its_bytes() {
    let shipped = include_bytes!("../../../../share/patterns.bin");
    let shipped = format!("pattern_file {}\n", bytes::text(shipped));
    for (start, page) in [("", FORMATS), (&shipped, AUTHORS)] {
        let told = start.to_string() + &told_in_order(page);
        let made = remade(&told, Judge).unwrap();
        let lines = made.lines().zip(told.lines());
        let others: Vec<_> = lines.filter(|(made, told)| made != told).collect();
        assert!(others.is_empty(), "made and told:\n{others:#?}");
    }
}

#[test]
fn the_page_has_a_row_for_each_refusal_and_each_call() {
    let refusals = rows(FORMATS, "## Refusals\n");
    let numbers: Vec<&str> = refusals.iter().map(|row| row[0]).collect();
    let mut rising = ORDER;
    rising.sort();
    assert_eq!(numbers, rising.map(|number| number.to_string()));
    let order = ORDER.map(|number| number.to_string()).join(", ");
    assert!(FORMATS.contains(&format!(" in this order is given: {order}. ")));
    let sheet = SHEET_NUMBERS.map(|number| number.to_string()).join(" ");
    let shape = SHEET_NUMBERS[..8].iter().map(u32::to_string);
    let shape = shape.collect::<Vec<_>>().join(" ");
    let rows = rows(FORMATS, "### Which call gives which number\n");
    assert_eq!(rows.len(), Call::all().count());
    for (row, call) in rows.iter().zip(Call::all()) {
        assert_eq!(row[0], format!("`{}`", call.name()));
        let numbers = row[1]
            .replace("none", "")
            .replace("2 to 11,", &sheet)
            .replace("2 to 11", &sheet)
            .replace("2 to 9,", &shape);
        let numbers: Vec<u32> =
            numbers.split_whitespace().map(|word| word.parse().unwrap()).collect();
        let given = ORDER.into_iter().filter(|number| call.can_give(*number));
        assert_eq!(numbers, given.collect::<Vec<_>>(), "{}", call.name());
    }
}

/// The tables of calls and of sessions say of each call what it takes and does.
#[test]
fn the_page_tells_each_call_once() {
    let part = FORMATS.split("\n## Calls\n").nth(1).unwrap();
    let part = part.split("\n## Refusals\n").next().unwrap();
    let rows = part.lines().filter(|line| line.starts_with("| `"));
    let cells = rows.filter_map(|row| row.split('|').nth(1));
    let mut told: Vec<&str> = cells.flat_map(|cell| cell.split('`').skip(1).step_by(2)).collect();
    let mut names: Vec<&str> = Call::all().map(|call| call.name()).collect();
    told.sort_unstable();
    names.sort_unstable();
    assert_eq!(told, names);
}

#[test]
fn the_games_of_the_page_are_those_of_the_vectors() {
    let games = calls().into_iter().filter(|(call, ..)| *call == Call::Game);
    let stored: BTreeSet<&str> = games.map(|(_, answer, _)| answer).collect();
    let rows = rows(FORMATS, "## The game's text\n");
    assert!(rows.len() >= 6, "{} games", rows.len());
    for row in rows {
        let text = row[2].trim_matches('`').replace(" / ", "\\n") + "\\n";
        assert!(stored.contains(text.as_str()), "not stored: {text}");
    }
}

/// The fewest rounds of a sheet with this many challenges that are enough for
/// a level.
fn fewest(challenges: u128, level: u32) -> u32 {
    let enough = |count: &u32| challenges.pow(*count) >= 1 << level;
    (0..).find(enough).unwrap()
}

#[test]
fn the_levels_of_the_page_are_computed() {
    let rows = rows(FORMATS, "A level w needs the fewest rounds");
    assert!(rows.len() >= 7, "{} counts", rows.len());
    for row in rows {
        let challenges = row[0].replace(',', "").parse().unwrap();
        let counts = [7, 16, 32, 64].map(|level| fewest(challenges, level).to_string());
        assert_eq!(row[1..], counts, "K = {challenges}");
    }
}

/// What stands behind the marks of a kind on docs/SCOPE.md, which links lead
/// to, such as `refusal-`.
fn marks(kind: &str) -> Vec<&'static str> {
    let start = format!("<a id=\"{kind}-");
    let behind = SCOPE.split(&start).skip(1);
    behind.filter_map(|rest| rest.split('"').next()).collect()
}

#[test]
fn the_scope_has_a_place_for_each_refusal_page_and_card() {
    let mut rising = ORDER;
    rising.sort();
    assert_eq!(marks("refusal"), rising.map(|number| number.to_string()));
    let order = ORDER.map(|number| number.to_string()).join(", ");
    assert!(SCOPE.contains(&format!(" in this order is given: {order}. ")));
    let worked: Vec<String> = FORMATS
        .lines()
        .filter_map(|line| line.strip_prefix("### ")?.split_once(". "))
        .map(|(letter, _)| letter.to_lowercase())
        .collect();
    assert_eq!(marks("page"), worked);
    let cards: Vec<String> = (1..=14).map(|card| card.to_string()).collect();
    assert_eq!(marks("card"), cards);
}

/// The numbers of a list such as `23, 1 to 3`.
fn listed(list: &str) -> Vec<u32> {
    let ends = |part: &str| {
        let (first, last) = part.split_once(" to ").unwrap_or((part, part));
        first.parse().unwrap()..=last.parse().unwrap()
    };
    list.split(", ").flat_map(ends).collect()
}

/// The order of the refusals that a comment of a source tells.
fn order_in(source: &str) -> Vec<u32> {
    let marks = ["*", "///"];
    let words = source.split_whitespace().filter(|word| !marks.contains(word));
    let text = words.collect::<Vec<_>>().join(" ");
    let order = text.split("the earliest in the order ").nth(1).unwrap();
    let order = order.split(" is given").next().unwrap();
    listed(order.split(". ").next().unwrap())
}

#[test]
fn the_header_and_the_wrappers_have_the_refusals_in_the_same_order() {
    for source in [HEADER, IN_RUST, IN_PYTHON] {
        assert_eq!(order_in(source), ORDER);
    }
    let numbers = HEADER.split("    REFUSAL(").skip(1);
    let numbers: Vec<&str> = numbers.filter_map(|rest| rest.split(',').next()).collect();
    let mut rising = ORDER;
    rising.sort();
    assert_eq!(numbers, rising.map(|number| number.to_string()));
}

/// What the header says above the declaration of a function, on one line.
fn said_of(name: &str) -> String {
    let start = format!("dimkhoros_{name}(");
    let before = HEADER.match_indices(&start).map(|(place, _)| &HEADER[..place]);
    // A line of a comment, which may show a call, begins with a star.
    let mut declared = before.filter(|text| !text.lines().last().unwrap().starts_with(" *"));
    let comment = declared.next().unwrap().rsplit("/*").next().unwrap();
    comment.split("*/").next().unwrap().replace("\n *", "")
}

/// The numbers that the header says a function refuses, in its order. Those of
/// the pure form of a call stand at the call that takes an address.
fn refused_by(name: &str) -> Vec<u32> {
    let said = said_of(name);
    if let Some((_, other)) = said.split_once("The pure form of dimkhoros_") {
        return refused_by(other.split('.').next().unwrap());
    }
    let numbers = said.split("Refuses ").nth(1);
    let numbers = numbers.and_then(|rest| rest.split(['.', ':', ';']).next());
    numbers.map_or(Vec::new(), |numbers| listed(&numbers.replace(" and ", ", ")))
}

/// The marker, the reason and the game are never refused: their texts have the
/// numbers.
#[test]
fn the_header_has_the_numbers_of_each_call_in_their_order() {
    let texts = [Call::Mark, Call::Reason, Call::Game];
    for call in Call::all().filter(|call| !texts.contains(call)) {
        let given = ORDER.into_iter().filter(|number| call.can_give(*number));
        assert_eq!(refused_by(call.name()), given.collect::<Vec<_>>(), "{}", call.name());
    }
}

/// What the page's table of the reason tells of each number, but for values of
/// lists, whose offsets depend on the sheet.
#[test]
fn the_offsets_of_the_page_are_those_of_the_vectors() {
    let rows = rows(FORMATS, "## The reason's line\n");
    let (of_lists, fixed): (Vec<_>, Vec<_>) = rows.iter().partition(|row| row[3].contains('+'));
    let of_lists: BTreeSet<&str> = of_lists.iter().map(|row| row[0]).collect();
    let fixed = fixed.iter().map(|row| (row[0], row[3]));
    let stored = calls().into_iter().filter_map(|(call, answer, _)| {
        let line = answer.strip_suffix("\\n").filter(|_| call == Call::Reason)?;
        match line.split(' ').collect::<Vec<_>>()[..] {
            ["refused", number, "length", _] => Some((number, "the length")),
            ["refused", number, offset] => Some((number, offset)),
            _ => None,
        }
    });
    let stored = stored.filter(|(number, _)| !of_lists.contains(number));
    assert_eq!(fixed.collect::<BTreeSet<_>>(), stored.collect::<BTreeSet<_>>());
    assert_eq!(of_lists, ["10", "11", "14", "15", "16"].into());
}
