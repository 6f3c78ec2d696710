//! The command `reason` says of each folder what the library's line and text on it say, and of each round what it would say of
//! the first one.

use crate::desk::Desk;
use crate::generator::Random;
use crate::marks::{folder, numbers};
use crate::material::Material;
use dimkhoros::{Instance, LONGEST_REASON, RoundFile, reason};
use std::fs;
use std::path::Path;

/// How many folders are tried.
const FOLDERS: usize = 150;

/// The bytes of a file in a folder, none if it is missing.
fn bytes(folder: &Path, name: &str) -> Vec<u8> {
    fs::read(folder.join(name)).unwrap_or_default()
}

/// Whether what is printed of a folder goes with the marker's text on it.
fn goes_with(printed: &str, text: &str) -> bool {
    let listed = |number: &String| {
        number == "0" || printed.lines().any(|line| line.split_whitespace().next() == Some(number))
    };
    let bad = [numbers(text, "rejected"), numbers(text, "refused")].concat();
    match text.lines().last().unwrap() {
        "pass" => printed.contains("\nThe whole file passes: "),
        "fail" => printed.contains("\nThe whole file fails") && bad.iter().all(listed),
        "level 25" => printed.contains(" The marker answers `level 25`: "),
        _ => printed.starts_with("refused ") && !printed.contains("whole file"),
    }
}

#[test]
fn every_folder_has_the_librarys_line_and_what_holds_of_the_whole() {
    let desk = Desk::new("reasons");
    let mut failed_after_accepted = 0;
    for case in 0..FOLDERS {
        let name = format!("student{case}");
        let path = desk.folder.join(&name);
        let text = folder(&path, case);
        let (sheet, rounds) = (bytes(&path, "sheet.bin"), bytes(&path, "rounds.bin"));
        let line = reason(&sheet, &rounds, &mut [0; LONGEST_REASON]).to_string();
        let printed = desk.print(&format!("dimkhoros reason {name}"));
        assert!(printed.starts_with(&format!("{line}\n")), "{printed}\nin place of\n{line}");
        assert!(goes_with(&printed, &text), "{printed}\nis said of\n{text}");
        let failed = text.ends_with("fail\n") && line == "accepted\n";
        failed_after_accepted += usize::from(failed);
    }
    assert!(failed_after_accepted > 10, "{failed_after_accepted} fail with round 0 accepted");
}

/// Of a file with very many bytes the tool does not read all, and its line is the library's on all of them.
#[test]
fn a_long_file_has_the_line_on_all_its_bytes() {
    let desk = Desk::new("long reasons");
    let of = Material::any(&mut Random::of_case(6, 0));
    desk.print("mkdir long");
    let path = desk.folder.join("long");
    let mut lengths = 0;
    for (name, good) in [("rounds.bin", &of.rounds), ("sheet.bin", &of.sheet)] {
        for (start, rest) in [(good.len(), 1 << 20), (good.len(), 3_000_000), (4, 1 << 20)] {
            fs::write(path.join("sheet.bin"), &of.sheet).unwrap();
            fs::write(path.join("rounds.bin"), &of.rounds).unwrap();
            fs::write(path.join(name), [&good[..start], &vec![0; rest]].concat()).unwrap();
            let (sheet, rounds) = (bytes(&path, "sheet.bin"), bytes(&path, "rounds.bin"));
            let line = reason(&sheet, &rounds, &mut [0; LONGEST_REASON]).to_string();
            let printed = desk.print("dimkhoros reason long");
            assert!(printed.starts_with(&format!("{line}\n")), "{printed}\nin place of\n{line}");
            lengths += usize::from(line.contains(" length "));
        }
    }
    assert_eq!(lengths, 4);
}

/// The file with a round put first, and how many bytes a round has.
fn with_first(file: &RoundFile<'_>, number: usize) -> (Vec<u8>, usize) {
    let (first, other) = (file.part(0).unwrap(), file.part(number).unwrap());
    let (start, length) = (7, first.len());
    let mut bytes = file.bytes().to_vec();
    bytes[start..start + length].copy_from_slice(other);
    (bytes, length)
}

/// The line on a first round as it is on the round of a number, with the offset that the value has there.
fn moved(line: &str, by: usize) -> String {
    match line.split(' ').collect::<Vec<&str>>()[..] {
        ["refused", number, offset] => {
            format!("refused {number} {}\n", offset.trim_end().parse::<usize>().unwrap() + by)
        }
        _ => line.to_string(),
    }
}

#[test]
fn every_round_has_the_line_that_it_would_have_as_the_first() {
    let desk = Desk::new("reasons of rounds");
    let mut tried = 0;
    for case in 0..FOLDERS {
        let name = format!("student{case}");
        let path = desk.folder.join(&name);
        folder(&path, case);
        let (sheet, rounds) = (bytes(&path, "sheet.bin"), bytes(&path, "rounds.bin"));
        let Ok(sheet) = Instance::load(&sheet) else { continue };
        let Ok(file) = RoundFile::open(&sheet, &rounds) else { continue };
        for number in 0..file.count() {
            let (bytes, length) = with_first(&file, number);
            let line = reason(sheet.bytes(), &bytes, &mut [0; LONGEST_REASON]).to_string();
            let printed = desk.print(&format!("dimkhoros reason {name} {number}"));
            let line = moved(&line, number * length);
            assert!(printed.starts_with(&format!("{line}\n")), "{printed}\nin place of\n{line}");
            tried += 1;
        }
    }
    assert!(tried > 100, "{tried} rounds are tried");
}
