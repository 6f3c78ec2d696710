//! The command `mark` says of each folder what the library's text on it says.

use crate::desk::Desk;
use crate::generator::Random;
use crate::material::{Material, handled};
use dimkhoros::{LONGEST_TEXT, mark};
use std::fs;
use std::path::Path;

/// How many folders are marked.
const FOLDERS: usize = 300;

/// The files of a folder, in the order in which the marker takes them.
const FILES: [&str; 3] = ["sheet.bin", "rounds.bin", "level.bin"];

/// Makes a folder, in which some files are damaged and some are missing, and gives the library's text on it.
pub fn folder(path: &Path, case: usize) -> String {
    let random = &mut Random::of_case(3, case);
    let of = Material::any(random);
    fs::create_dir(path).unwrap();
    let files = [of.sheet, of.rounds, of.level].map(|good| match random.below(12) {
        0 => None,
        1 => Some(handled(&good, random)),
        _ => Some(good),
    });
    for (name, bytes) in FILES.iter().zip(&files) {
        if let Some(bytes) = bytes {
            fs::write(path.join(name), bytes).unwrap();
        }
    }
    let [sheet, rounds, level] = files.map(Option::unwrap_or_default);
    mark(&sheet, &rounds, &level, &mut [0; LONGEST_TEXT]).to_string()
}

/// The numbers of the rounds of the marker's text that are said to be something.
pub fn numbers(text: &str, what: &str) -> Vec<String> {
    let said = |line: &&str| line.split(' ').nth(1) == Some(what);
    let number = |line: &str| line.split(' ').next().unwrap().to_string();
    text.lines().skip(1).filter(said).map(number).collect()
}

/// What is said of the rounds that are not accepted, such as `rounds 2 and 7 rejected; round 5 refused`.
fn not_accepted(text: &str) -> String {
    let said = ["rejected", "refused"].map(|what| match &numbers(text, what)[..] {
        [] => String::new(),
        [number] => format!("round {number} {what}"),
        [first @ .., last] => format!("rounds {} and {last} {what}", first.join(", ")),
    });
    said.into_iter().filter(|said| !said.is_empty()).collect::<Vec<String>>().join("; ")
}

/// The start of the line on a folder with this text, its spaces left out.
fn line(name: &str, text: &str) -> String {
    let (first, last) = (text.lines().next().unwrap(), text.lines().last().unwrap());
    let Some(rounds) = first.strip_prefix("rounds ") else {
        return format!("{name} no mark ");
    };
    let plural = if rounds == "1" { "" } else { "s" };
    match (last, not_accepted(text)) {
        ("pass", _) => format!("{name} pass {rounds} round{plural}"),
        (_, bad) if bad.is_empty() => format!("{name} fail too few rounds for level "),
        (_, bad) => format!("{name} fail {bad}"),
    }
}

/// Whether the line on a folder with this text has the number of the refusal, if a file is refused.
fn is_numbered(line: &str, text: &str) -> bool {
    let (file, number) = text.lines().next().unwrap().split_once(' ').unwrap();
    file == "rounds" || line.contains(&format!("({number})"))
}

/// The first fields of a line of comma-separated values on a folder with this text.
fn fields(name: &str, text: &str) -> String {
    let (first, last) = (text.lines().next().unwrap(), text.lines().last().unwrap());
    let Some(rounds) = first.strip_prefix("rounds ") else {
        return format!("{name},{},,,,,", first.replace(' ', ","));
    };
    let [accepted, rejected, refused] =
        ["accepted", "rejected", "refused"].map(|what| numbers(text, what).len());
    format!("{name},{last},,{rounds},{accepted},{rejected},{refused},")
}

/// The lines without the spaces that align them.
fn words(line: &str) -> String {
    line.split_whitespace().collect::<Vec<&str>>().join(" ")
}

#[test]
fn every_folder_is_marked_as_the_library_says() {
    let desk = Desk::new("marked folders");
    let names: Vec<String> = (0..FOLDERS).map(|case| format!("student{case}")).collect();
    let texts: Vec<String> =
        (0..FOLDERS).map(|case| folder(&desk.folder.join(&names[case]), case)).collect();
    let printed = desk.print(&format!("dimkhoros mark {} 2> out.txt", names.join(" ")));
    let separated = desk.print(&format!("dimkhoros mark --csv {} 2> out.txt", names.join(" ")));
    let mut separated = separated.lines();
    assert!(separated.next().unwrap().starts_with("folder,result,"));
    for ((name, text), (printed, separated)) in
        names.iter().zip(&texts).zip(printed.lines().zip(separated))
    {
        assert!(words(printed).starts_with(&line(name, text)), "{printed}\nis said of\n{text}");
        assert!(is_numbered(printed, text), "{printed}\nis said of\n{text}");
        assert!(separated.starts_with(&fields(name, text)), "{separated}\nis said of\n{text}");
    }
    let ends = |end: &str| texts.iter().filter(|text| text.ends_with(end)).count();
    let (passed, failed) = (ends("pass\n"), ends("fail\n"));
    let refused = FOLDERS - passed - failed;
    assert!(passed > 20 && failed > 20 && refused > 20, "{passed}, {failed} and {refused}");
    let summary = format!("{FOLDERS} folders: {passed} passed, {failed} failed, {refused} refused");
    assert_eq!(printed.lines().skip(FOLDERS).collect::<Vec<&str>>(), ["", summary.as_str()]);
}

/// With a course's sheet and level every folder is marked as the library marks its rounds by these, whatever else it has.
#[test]
fn every_folder_is_marked_by_the_course() {
    let desk = Desk::new("course");
    let of = Material::any(&mut Random::of_case(4, 0));
    fs::write(desk.folder.join("sheet.bin"), &of.sheet).unwrap();
    let names: Vec<String> = (0..FOLDERS).map(|case| format!("student{case}")).collect();
    let text = |(case, name): (usize, &String)| {
        let path = desk.folder.join(name);
        folder(&path, case);
        let random = &mut Random::of_case(5, case);
        if random.once_in(2) {
            fs::write(path.join("rounds.bin"), handled(&of.rounds, random)).unwrap();
        }
        let rounds = fs::read(path.join("rounds.bin")).unwrap_or_default();
        mark(&of.sheet, &rounds, &[3], &mut [0; LONGEST_TEXT]).to_string()
    };
    let texts: Vec<String> = names.iter().enumerate().map(text).collect();
    let words = format!("--sheet sheet.bin --level 3 {} 2> out.txt", names.join(" "));
    let printed = desk.print(&format!("dimkhoros mark --csv {words}"));
    for ((name, text), printed) in names.iter().zip(&texts).zip(printed.lines().skip(1)) {
        assert!(printed.starts_with(&fields(name, text)), "{printed}\nis said of\n{text}");
    }
    let passed = texts.iter().filter(|text| text.ends_with("pass\n")).count();
    assert!(passed > 20 && passed < FOLDERS - 20, "{passed} pass");
}
