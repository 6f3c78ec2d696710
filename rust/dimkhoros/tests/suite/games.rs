//! The game's text.

use crate::pages::{PLANS, SCHNORR, made, page_a, round};
use dimkhoros::{
    Header, Instance, LONGEST_FILE, LONGEST_GAME, PLACES, Plan, Refusal, Round, RoundWriter,
    Values, Verdict, game, places,
};

/// The game's text on a sheet and a round file.
fn text(sheet: &[u8], file: &[u8]) -> String {
    let mut text: Box<[u8; LONGEST_GAME]> = vec![0; LONGEST_GAME].try_into().unwrap();
    game(sheet, file, &mut text).to_string()
}

/// The bytes of a file of these rounds in a version.
fn file(instance: &Instance, version: u32, rounds: &[Round]) -> Vec<u8> {
    let mut buffer = vec![0; LONGEST_FILE];
    let mut writer = RoundWriter::start(instance, version, &mut buffer).unwrap();
    for round in rounds {
        writer.append(round).unwrap();
    }
    writer.file().bytes().to_vec()
}

/// The text on a commitment. It is the same in both versions of the file, whatever the challenge and the response of round 0 are.
fn on<const N: usize>(instance: &Instance, t: [u32; N]) -> String {
    let of = |version, challenge, response| {
        let round = Round { commitment: places(t), challenge, response: [response; 8] };
        text(instance.bytes(), &file(instance, version, &[round]))
    };
    let first = of(1, 0, 0);
    assert_eq!(of(1, u32::MAX, u32::MAX), first);
    assert_eq!(of(2, 65_535, u32::MAX), first);
    first
}

/// An exponent sheet with one entry, 1, to which no power is other than 1.
fn of_ones(modulus: u32, order: u32, challenges: u32, statement: u32) -> Instance {
    let plan =
        Plan { pattern: 1, modulus, order, challenges, values: &[1], statement: &[statement] };
    made(&plan).unwrap()
}

/// A root sheet of one row.
fn of_roots(modulus: u32, exponent: u32, challenges: u32, statement: u32) -> Instance {
    let statement = &[statement];
    let plan = Plan { pattern: 0, modulus, order: exponent, challenges, values: &[], statement };
    made(&plan).unwrap()
}

#[test]
fn the_pages_have_their_lines() {
    let a = "0 5\n1 1\n2 8\n3 4\n4 0\n5 7\n6 3\n7 10\n8 6\n9 2\n10 9\n";
    assert_eq!(on(&page_a(), [9]), a);
    let rounds = [round(9, 3, 4), round(9, 1, 1), round(9, 1, 2), round(5, 0, 0)];
    assert_eq!(text(page_a().bytes(), &file(&page_a(), 1, &rounds)), a);
    assert_eq!(on(&made(&PLANS[5]).unwrap(), [33]), "0 3\n1 6\n2 12\n3 24\n4 13\n");
    assert!(on(&made(&PLANS[1]).unwrap(), [1]).starts_with("0 0 0\n1 0 9\n2 0 7\n"));
}

/// No power of 1 is 2, so the statement has no witness: each t answers one challenge at most.
#[test]
fn without_a_witness_one_challenge_at_most_is_answered() {
    let sheet = of_ones(31, 15, 3, 2);
    assert_eq!(on(&sheet, [1]), "0 0\n");
    assert_eq!(on(&sheet, [16]), "1 0\n");
    assert_eq!(on(&sheet, [8]), "2 0\n");
    assert_eq!(on(&sheet, [2]), "none\n");
}

/// With a witness a t answers every challenge or none. 5 is a group element modulo 31 and no power of 2.
#[test]
fn with_a_witness_all_challenges_are_answered_or_none() {
    let plan = Plan { modulus: 31, order: 15, challenges: 3, statement: &[16], ..SCHNORR };
    let sheet = made(&plan).unwrap();
    assert_eq!(on(&sheet, [1]), "0 0\n1 4\n2 3\n");
    assert_eq!(on(&sheet, [5]), "none\n");
}

/// The smallest response that Vic accepts, of all of two numbers below 11, or of all of one.
fn smallest(sheet: &Instance, t: u32, c: u32) -> Option<Vec<u32>> {
    let columns = sheet.values().header.columns as usize;
    let seconds = if columns == 1 { 1 } else { 11 };
    let all = (0..11).flat_map(|first| (0..seconds).map(move |second| [first, second]));
    let accepted = all.into_iter().find(|r| {
        let round = Round { commitment: places([t]), challenge: c, response: places(*r) };
        sheet.judge(&round) == Ok(Verdict::Accepted)
    });
    accepted.map(|r| r[..columns].to_vec())
}

/// Each line is that of Vic's verdicts on all responses, for each t.
#[test]
fn the_lines_are_those_that_vic_accepts() {
    for sheet in [&PLANS[0], &PLANS[1]].map(|plan| made(plan).unwrap()) {
        for t in (1..23).filter(|t| sheet.judge(&round(*t, 0, 0)).is_ok()) {
            let mut lines = String::new();
            for c in 0..11 {
                let response = smallest(&sheet, t, c).unwrap();
                let numbers: Vec<String> = response.iter().map(u32::to_string).collect();
                lines += &format!("{c} {}\n", numbers.join(" "));
            }
            assert_eq!(on(&sheet, [t]), lines, "{t}");
        }
    }
}

#[test]
fn a_sheet_is_small_up_to_its_bound() {
    assert_eq!(on(&of_ones(3, 4096, 2, 1), [1]), "0 0\n1 0\n");
    assert_eq!(on(&of_ones(3, 4097, 2, 1), [1]), "refused 31\n");
    assert_eq!(on(&of_roots(4096, 3, 2, 1), [1]), "0 1\n1 1\n");
    assert_eq!(on(&of_roots(4097, 3, 2, 1), [1]), "refused 31\n");
    // 64^2 is 4096 and 65^2 above it.
    for (order, refused) in [(64, false), (65, true)] {
        let plan =
            Plan { pattern: 2, modulus: 3, order, challenges: 2, values: &[1, 1], statement: &[1] };
        assert_eq!(on(&made(&plan).unwrap(), [1]) == "refused 31\n", refused, "{order}");
    }
    let header = Header { rows: 2, columns: 2, ..made(&PLANS[5]).unwrap().values().header };
    let values = Values { header, entries: [[0; PLACES]; PLACES], statement: places([32, 32]) };
    let two_rows = Instance::encode(&values).unwrap();
    assert_eq!(on(&two_rows, [1, 1]), "refused 31\n");
    let size = Refusal::from_number(31).unwrap();
    assert_eq!(size, Refusal::GameSize);
    assert!(size.to_string().starts_with("refusal 31: the sheet is too large for the game"));
}

#[test]
fn the_number_that_stands_first_is_told() {
    let page = page_a();
    assert_eq!(text(b"", b""), "refused 2\n");
    assert_eq!(text(&page.bytes()[..27], b""), "refused 9\n");
    assert_eq!(text(page.bytes(), b""), "refused 12\n");
    assert_eq!(text(page.bytes(), &file(&page, 1, &[])), "refused 13\n");
    assert_eq!(on(&page, [5]), "refused 14\n");
    // 2^4097 is 2 modulo 3, so that 2 is no group element.
    assert_eq!(on(&of_ones(3, 4097, 2, 1), [2]), "refused 14\n");
    let large = of_ones(3, 4097, 2, 1);
    assert_eq!(text(large.bytes(), &file(&large, 1, &[])), "refused 13\n");
}

/// As many challenges as there can be, on the largest prime below 4,096. Each number from 1 on has one root.
#[test]
fn a_text_has_a_line_for_each_of_65536_challenges() {
    let sheet = of_roots(4093, 65_537, 65_536, 2);
    let lines = on(&sheet, [1]);
    assert_eq!(lines.lines().count(), 65_536);
    assert!(lines.starts_with("0 1\n"));
    assert!(lines.lines().last().unwrap().starts_with("65535 "));
    assert!(lines.len() <= LONGEST_GAME);
}

#[test]
fn bytes_behind_the_text_stay() {
    let mut text: Box<[u8; LONGEST_GAME]> = vec![0xee; LONGEST_GAME].try_into().unwrap();
    assert_eq!(game(page_a().bytes(), b"RND", &mut text), "refused 12\n");
    assert!(text[11..].iter().all(|byte| *byte == 0xee));
}
