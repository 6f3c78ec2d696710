//! Refusals 2 to 11, and their place before all others.

use judge::*;

use crate::tools::*;

/// Mends one flaw.
type Mend = fn(&mut Raw);

/// Sheets with one flaw each and every flaw of a higher number up to 11, with
/// the number that each is refused by. The last one has no flaw.
fn ladder() -> Vec<(u32, Vec<u8>)> {
    let mut raw = Raw {
        mark: *b"HON",
        version: 2,
        kind: 3,
        modulus: 2,
        order: 1,
        challenges: 1,
        rows: 9,
        columns: 0,
        words: vec![5, 5, 5],
    };
    let mends: [(u32, Mend); 11] = [
        (2, |raw| raw.mark = *b"HOM"),
        (3, |raw| raw.version = 1),
        (4, |raw| raw.kind = 1),
        (5, |raw| raw.modulus = 23),
        (6, |raw| raw.order = 11),
        (7, |raw| raw.rows = 1),
        (7, |raw| raw.columns = 1),
        (8, |raw| raw.challenges = 11),
        (9, |raw| raw.words.truncate(2)),
        (10, |raw| raw.words[0] = 2),
        (11, |raw| raw.words[1] = 13),
    ];
    let mut sheets = Vec::new();
    for (number, mend) in mends {
        sheets.push((number, raw.bytes()));
        mend(&mut raw);
    }
    sheets.push((0, raw.bytes()));
    sheets
}

#[test]
fn loading_refuses_in_order() {
    for (number, sheet) in ladder() {
        assert_eq!(load(&sheet).err().unwrap_or(0), number);
    }
}

#[test]
fn every_call_with_a_sheet_refuses_it_first() {
    let bad = Round { commitment: [5; 8], challenge: 99, response: [99; 8] };
    for (number, sheet) in ladder() {
        if number == 0 {
            continue;
        }
        assert_eq!(count(&sheet, &[]), Err(number));
        assert_eq!(check(&sheet, &[], 9), number);
        assert!(part(&sheet, &[], 9).is_empty());
        assert_eq!(read(&sheet, &[], 9), Err(number));
        assert_eq!(append(&sheet, &mut [], 9, &bad), Err(number));
        assert_eq!(convert(&sheet, &[], &mut []), Err(number));
        assert_eq!(judge(&sheet, &bad), Verdict::Refused(number));
        assert_eq!(simulate(&sheet, 99, &[99; 8]), Err(number));
        assert_eq!(extract(&sheet, &bad, &bad), Err(number));
        let prover = Prover {
            phase: ProverPhase::Answered,
            nonce: [99; 8],
            commitment: [5; 8],
            answered: [[5; 8]; 64],
            count: 99,
            ..Prover::new()
        };
        let (answer, back) = commit(&sheet, prover.clone(), &[99; 8]);
        assert_eq!((answer, &back), (Err(number), &prover));
        let (answer, back) = respond(&sheet, prover.clone(), 99, &[99; 8]);
        assert_eq!((answer, &back), (Err(number), &prover));
        let verifier = Verifier { phase: VerifierPhase::Judged, commitment: [5; 8], challenge: 99 };
        let (answer, back) = take_commitment(&sheet, verifier.clone(), &[5; 8]);
        assert_eq!((answer, &back), (Err(number), &verifier));
        let (answer, back) = take_challenge(&sheet, verifier.clone(), 99);
        assert_eq!((answer, &back), (Err(number), &verifier));
        let (answer, back) = take_response(&sheet, verifier.clone(), &[99; 8]);
        assert_eq!((answer, &back), (Verdict::Refused(number), &verifier));
        assert_eq!(marker(&sheet, &[], &[]), format!("sheet {number}\n"));
    }
}

#[test]
fn refusal_2_short_sheets_and_marks() {
    let sheet = page_a();
    for length in 0..20 {
        assert_eq!(load(&sheet[..length]), Err(2));
    }
    for place in 0..3 {
        let mut other = sheet.clone();
        other[place] ^= 0x20;
        assert_eq!(load(&other), Err(2));
    }
    // A wrong version in a short sheet is still 2.
    assert_eq!(load(b"HOM\x00\x02"), Err(2));
}

#[test]
fn refusal_3_versions() {
    for version in [0, 2, 256, 257, 65_535] {
        let raw = Raw { version, ..exponent(23, 11, 11, &[&[2]], &[13]) };
        assert_eq!(load(&raw.bytes()), Err(3));
    }
}

#[test]
fn refusal_4_kinds() {
    for kind in (0..=255).filter(|kind| *kind != 1 && *kind != 2) {
        let raw = Raw { kind, ..exponent(23, 11, 11, &[&[2]], &[13]) };
        assert_eq!(load(&raw.bytes()), Err(4));
    }
}

#[test]
fn refusals_5_and_6_bounds() {
    for m in 0..3 {
        assert_eq!(load(&exponent(m, 11, 11, &[&[1]], &[1]).bytes()), Err(5));
        assert_eq!(load(&root(m, 5, 5, &[1]).bytes()), Err(5));
    }
    for l in 0..2 {
        assert_eq!(load(&exponent(23, l, 11, &[&[1]], &[1]).bytes()), Err(6));
        assert_eq!(load(&root(35, l, 5, &[1]).bytes()), Err(6));
    }
    assert!(load(&exponent(3, 2, 2, &[&[2]], &[1]).bytes()).is_ok());
    assert!(load(&root(3, 2, 2, &[2]).bytes()).is_ok());
}

#[test]
fn refusal_7_rows_and_columns() {
    for rows in 0..=255 {
        for columns in 0..=255 {
            let counts = |raw: Raw| Raw { rows, columns, ..raw };
            let in_range = (1..=8).contains(&rows) && (1..=8).contains(&columns);
            let words = if in_range { rows as usize * columns as usize + rows as usize } else { 2 };
            let mut raw = counts(exponent(23, 11, 11, &[&[1]], &[1]));
            raw.words = vec![1; words];
            assert_eq!(load(&raw.bytes()).err(), if in_range { None } else { Some(7) });
            let mut raw = counts(root(35, 5, 5, &[1]));
            raw.words = vec![1; rows as usize];
            let good = in_range && rows == columns;
            assert_eq!(load(&raw.bytes()).err(), if good { None } else { Some(7) });
        }
    }
}

#[test]
fn refusal_8_challenge_counts() {
    let refusal = |l, k| load(&root(35, l, k, &[1]).bytes()).err();
    for l in 2..120_u32 {
        let smallest = (2..=l).find(|d| l % *d == 0).unwrap();
        for k in 0..130 {
            let expected = if k < 2 || k > smallest { Some(8) } else { None };
            assert_eq!(refusal(l, k), expected);
        }
    }
    let prime = 4_294_967_291;
    assert_eq!(refusal(prime, 65_536), None);
    assert_eq!(refusal(prime, 65_537), Some(8));
    assert_eq!(refusal(prime, u32::MAX), Some(8));
    assert_eq!(refusal(65_521, 65_521), None);
    assert_eq!(refusal(65_521, 65_522), Some(8));
    // 65521 squared is below 2^32. Its smallest divisor is 65521.
    assert_eq!(refusal(65_521 * 65_521, 65_521), None);
    assert_eq!(refusal(65_521 * 65_521, 65_522), Some(8));
}

#[test]
fn refusal_9_lengths() {
    for sheet in [page_a(), page_g()] {
        for length in 20..sheet.len() {
            assert_eq!(load(&sheet[..length]), Err(9));
        }
        for extra in 1..9 {
            let longer = [sheet.clone(), vec![0; extra]].concat();
            assert_eq!(load(&longer), Err(9));
        }
    }
}

#[test]
fn refusals_10_and_11_elements() {
    let elements = [1, 2, 3, 4, 6, 8, 9, 12, 13, 16, 18];
    for v in (0..30).chain([u32::MAX]) {
        let good = elements.contains(&v);
        let entry = exponent(23, 11, 11, &[&[v]], &[13]).bytes();
        assert_eq!(load(&entry).err(), if good { None } else { Some(10) });
        let statement = exponent(23, 11, 11, &[&[2]], &[v]).bytes();
        assert_eq!(load(&statement).err(), if good { None } else { Some(11) });
        let unit = (1..35).contains(&v) && v % 5 != 0 && v % 7 != 0;
        let statement = root(35, 5, 5, &[v]).bytes();
        assert_eq!(load(&statement).err(), if unit { None } else { Some(11) });
    }
}

#[test]
fn every_entry_and_statement_place_is_tested() {
    for place in 0..12 {
        let table: [&[u32]; 3] = [&[2, 3, 4], &[6, 8, 9], &[12, 13, 16]];
        let mut raw = exponent(23, 11, 11, &table, &[1, 2, 3]);
        raw.words[place] = 5;
        let number = if place < 9 { 10 } else { 11 };
        assert_eq!(load(&raw.bytes()), Err(number));
    }
    for place in 0..8 {
        let mut raw = root(35, 5, 5, &[32; 8]);
        raw.words[place] = 7;
        assert_eq!(load(&raw.bytes()), Err(11));
    }
}
