//! A fault is found exactly where the library refuses, with the same number, in files that are damaged in every byte.

use super::{Found, fields, in_patterns, in_round, in_rounds, in_sheet, patterns};
use dimkhoros::{
    EXPONENT, Header, Instance, PLACES, Patterns, ROOT, Refusal, Round, RoundFile, RoundWriter,
    Values, places,
};

/// The files that differ from this one in one byte, each with that byte's offset.
fn changed(file: &[u8]) -> impl Iterator<Item = (usize, Vec<u8>)> + '_ {
    (0..file.len() * 256).map(|number| {
        let (offset, byte) = (number / 256, number % 256);
        let mut changed = file.to_vec();
        changed[offset] = byte as u8;
        (offset, changed)
    })
}

/// The starts of a file, and the file with some bytes behind it.
fn cut_and_extended(file: &[u8]) -> impl Iterator<Item = Vec<u8>> + '_ {
    let cut = (0..file.len()).map(|length| file[..length].to_vec());
    cut.chain([0, 1, 2, 9].map(|byte| [file, &[byte][..]].concat()))
}

/// Pattern files: the shipped one, that of the page for course authors, the smallest one and one with a pattern of 64 digits.
fn pattern_files() -> Vec<Vec<u8>> {
    let own =
        b"PAT\x00\x01\x02\x02\x02\x02\x00\x01\x01\x02\x02\x04\x03\x02\x00\x01\x00\x03\x01\x00\x02";
    let digits: Vec<u8> = (0..64).map(|place| place % 9).collect();
    let widest = [b"PAT\x00\x01\x01\x08\x08\x08", &digits[..]].concat();
    let smallest = b"PAT\x00\x01\x01\x01\x01\x01\x01";
    vec![Patterns::shipped().bytes().to_vec(), own.to_vec(), widest, smallest.to_vec()]
}

/// What the walk alone says of a pattern file.
fn walked(file: &[u8]) -> Option<(Refusal, Found)> {
    let shape = patterns::wrong_shape(file).map(|found| (Refusal::PatternFile, found));
    let digits = || patterns::wrong_digit(file).map(|found| (Refusal::PatternDigits, found));
    shape.or_else(digits)
}

#[test]
fn a_pattern_file_has_a_fault_exactly_where_it_is_refused() {
    let files = pattern_files();
    assert!(files.iter().all(|file| walked(file).is_none()));
    let changed = files.iter().flat_map(|file| changed(file)).map(|(_, damaged)| damaged);
    for damaged in changed.chain(files.iter().flat_map(|file| cut_and_extended(file))) {
        let walked = walked(&damaged);
        let refusal = walked.as_ref().map(|(refusal, _)| *refusal);
        assert_eq!(refusal, Patterns::load(&damaged).err(), "{damaged:?}");
        let fault = in_patterns(&damaged).map(|fault| (fault.refusal, fault.found));
        assert_eq!(fault, walked, "{damaged:?}");
    }
}

#[test]
fn a_fault_of_a_pattern_file_does_not_stand_before_the_byte_that_was_changed() {
    for (place, damaged) in pattern_files().iter().flat_map(|file| changed(file)) {
        let Some(fault) = in_patterns(&damaged) else { continue };
        let Found::Value { offset, value } = fault.found else { continue };
        let width = [3, 0, 0, 2].get(offset).copied().unwrap_or(1);
        let unnamed = value.contains("no digit names");
        assert!(unnamed || offset + width > place, "{damaged:?}: {value} at byte {offset}");
    }
}

#[test]
fn a_fault_of_a_pattern_file_names_its_value() {
    let [own, three] = [&pattern_files()[1], &pattern_files()[3]].map(|file| file.to_vec());
    let found = |file: &[u8], offset: usize, byte: u8| {
        let mut damaged = file.to_vec();
        damaged[offset] = byte;
        in_patterns(&damaged).map(|fault| fault.found)
    };
    let value = |offset, value: &str| Some(Found::Value { offset, value: value.to_string() });
    assert_eq!(found(&own, 0, b'B'), value(0, "the mark \"BAT\""));
    assert_eq!(found(&own, 3, 1), value(3, "version 257"));
    assert_eq!(found(&own, 5, 33), value(5, "33 patterns"));
    assert_eq!(found(&own, 13, 9), value(13, "9 rows of pattern 2"));
    assert_eq!(found(&own, 14, 0), value(14, "0 columns of pattern 2"));
    assert_eq!(found(&own, 8, 255), value(8, "255 values of pattern 1"));
    assert_eq!(found(&own, 12, 3), value(12, "digit 3 in row 1 and column x2 of pattern 1"));
    assert_eq!(found(&own, 22, 4), value(22, "digit 4 in row 1 and column x3 of pattern 2"));
    let unnamed = "2 values of pattern 1, of which no digit names value 2,";
    assert_eq!(found(&three, 8, 2), value(8, unnamed));
    let length = |needed: &str| Some(Found::Length { found: 24, needed: needed.to_string() });
    assert_eq!(found(&own, 14, 3), length("its 2 patterns with these sizes make 22"));
    assert_eq!(found(&own, 5, 3), length("pattern 3 begins after these"));
}

/// Sheets of both kinds, of one and of several rows and columns.
fn sheets() -> Vec<Instance> {
    let header =
        Header { kind: EXPONENT, modulus: 23, order: 11, challenges: 11, rows: 1, columns: 1 };
    let root = Header { kind: ROOT, modulus: 35, order: 5, challenges: 5, ..header };
    let entries = [[2; PLACES]; PLACES];
    let sheet = |header, z| Instance::encode(&Values { header, entries, statement: z }).unwrap();
    vec![
        sheet(header, places([13])),
        sheet(Header { rows: 2, columns: 3, ..header }, places([12, 9])),
        sheet(root, places([32])),
        sheet(Header { rows: 2, columns: 2, ..root }, places([32, 1])),
    ]
}

/// Whether a value as it is printed has the number that stands at its offset of a sheet.
fn has_its_number(sheet: &[u8], offset: usize, value: &str) -> bool {
    let width = match offset {
        3 => 2,
        5 | 18 | 19 => 1,
        _ => 4,
    };
    let number = fields::number(sheet, offset, width).to_string();
    offset == 0 || value.split(' ').any(|word| word == number)
}

#[test]
fn a_sheet_has_a_fault_exactly_where_it_is_refused() {
    for (_, damaged) in sheets().iter().flat_map(|sheet| changed(sheet.bytes())) {
        let fault = in_sheet(&damaged);
        let refusal = fault.as_ref().map(|fault| fault.refusal);
        assert_eq!(refusal, Instance::load(&damaged).err(), "{damaged:?}");
        if let Some(Found::Value { offset, value }) = fault.map(|fault| fault.found) {
            assert!(has_its_number(&damaged, offset, &value), "{damaged:?}: {value} at {offset}");
        }
    }
}

#[test]
fn a_sheet_that_is_cut_or_extended_is_told_how_long_it_has_to_be() {
    let sheets = sheets();
    let damaged = |sheet| cut_and_extended(Instance::bytes(sheet)).map(move |cut| (sheet, cut));
    for (sheet, damaged) in sheets.iter().flat_map(damaged) {
        let fault = in_sheet(&damaged).unwrap();
        let needed = if damaged.len() >= 20 {
            format!("its header asks for {}", sheet.bytes().len())
        } else {
            "the header of a sheet has 20".to_string()
        };
        assert_eq!(fault.found, Found::Length { found: damaged.len(), needed });
        assert_eq!(Some(fault.refusal), Instance::load(&damaged).err());
    }
}

/// Each sheet with a file of three rounds in each version, of which none is refused.
fn round_files() -> Vec<(Instance, Vec<u8>)> {
    let file = |sheet: &Instance, version| {
        let mut buffer = [0; 1000];
        let mut writer = RoundWriter::start(sheet, version, &mut buffer).unwrap();
        for challenge in [1, 2, 1] {
            let [commitment, response] = [[1; PLACES]; 2];
            writer.append(&Round { commitment, challenge, response }).unwrap();
        }
        writer.file().bytes().to_vec()
    };
    let files = |sheet: Instance| [1, 2].map(|version| (sheet.clone(), file(&sheet, version)));
    sheets().into_iter().flat_map(files).collect()
}

/// The files of a sheet's rounds that differ from a file in one byte, each with that byte's offset.
fn changed_rounds(
    (sheet, file): &(Instance, Vec<u8>),
) -> impl Iterator<Item = (&Instance, usize, Vec<u8>)> {
    changed(file).map(move |(place, damaged)| (sheet, place, damaged))
}

#[test]
fn a_round_has_a_fault_exactly_where_it_is_refused() {
    for (sheet, place, damaged) in round_files().iter().flat_map(changed_rounds) {
        let Ok(file) = RoundFile::open(sheet, &damaged) else { continue };
        let faults: Vec<_> = (0..3).map(|number| in_round(sheet, &file, number)).collect();
        let refusals = file.rounds().map(|round| sheet.judge(&round).err());
        assert!(refusals.eq(faults.iter().map(|fault| fault.as_ref().map(|fault| fault.refusal))));
        // Nothing else in the file is wrong, so the fault has the changed byte.
        let first = faults.into_iter().flatten().next().map(|fault| fault.found);
        if let Some(Found::Value { offset, .. }) = first {
            assert!((offset..offset + 4).contains(&place), "byte {place}, told {offset}");
        }
    }
}

#[test]
fn a_round_file_has_a_fault_exactly_where_it_is_refused() {
    for (sheet, _, damaged) in round_files().iter().flat_map(changed_rounds) {
        let of_file = in_rounds(sheet, &damaged).filter(|fault| fault.refusal == Refusal::File);
        assert_eq!(of_file.map(|fault| fault.refusal), RoundFile::open(sheet, &damaged).err());
    }
}

#[test]
fn a_round_file_that_is_cut_or_extended_is_told_how_long_it_has_to_be() {
    let files = round_files();
    let damaged = |(sheet, file): &'_ (Instance, Vec<u8>)| {
        let cut = cut_and_extended(file);
        cut.map(|damaged| (sheet.clone(), file.len(), damaged)).collect::<Vec<_>>()
    };
    for (sheet, length, damaged) in files.iter().flat_map(damaged) {
        let needed = if damaged.len() >= 7 {
            format!("3 rounds of this sheet make {length}")
        } else {
            "the header of a round file has 7".to_string()
        };
        let found = Found::Length { found: damaged.len(), needed };
        assert_eq!(in_rounds(&sheet, &damaged).map(|fault| fault.found), Some(found));
    }
}
