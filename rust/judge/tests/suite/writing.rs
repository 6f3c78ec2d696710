//! The second sheet writer, and sheets written and read back.

use judge::*;

use crate::tools::*;

/// Mends one flaw.
type Mend = fn(&mut Sheet);

fn good() -> Sheet {
    Sheet {
        kind: 1,
        modulus: 23,
        order: 11,
        challenges: 11,
        rows: 1,
        columns: 1,
        entries: [eight(&[2]), [0; 8], [0; 8], [0; 8], [0; 8], [0; 8], [0; 8], [0; 8]],
        statement: eight(&[13]),
    }
}

#[test]
fn a_loaded_sheet_has_zeros_in_unused_places() {
    assert_eq!(load(&page_a()), Ok(good()));
    let sheet = load(&root(35, 5, 5, &[32, 1, 3]).bytes()).unwrap();
    assert_eq!((sheet.rows, sheet.columns), (3, 3));
    assert_eq!(sheet.entries, [[0; 8]; 8]);
    assert_eq!(sheet.statement, eight(&[32, 1, 3]));
}

#[test]
fn a_loaded_table_is_row_by_row() {
    let table: [&[u32]; 2] = [&[2, 3, 1], &[4, 8, 16]];
    let sheet = load(&exponent(23, 11, 11, &table, &[13, 18]).bytes()).unwrap();
    assert_eq!((sheet.rows, sheet.columns), (2, 3));
    assert_eq!(sheet.entries[0], eight(&[2, 3, 1]));
    assert_eq!(sheet.entries[1], eight(&[4, 8, 16]));
    assert_eq!(sheet.entries[2], [0; 8]);
    assert_eq!(sheet.statement, eight(&[13, 18]));
}

#[test]
fn the_second_writers_refusals_in_order() {
    let bad = Sheet {
        kind: 3,
        modulus: 2,
        order: 1,
        challenges: 1,
        rows: 9,
        columns: 0,
        entries: [[5; 8]; 8],
        statement: [5; 8],
    };
    let mends: [(u32, Mend); 8] = [
        (4, |sheet| sheet.kind = 1),
        (5, |sheet| sheet.modulus = 23),
        (6, |sheet| sheet.order = 11),
        (7, |sheet| sheet.rows = 1),
        (7, |sheet| sheet.columns = 1),
        (8, |sheet| sheet.challenges = 11),
        (10, |sheet| sheet.entries[0][0] = 2),
        (11, |sheet| sheet.statement[0] = 13),
    ];
    let mut sheet = bad;
    for (number, mend) in mends {
        let mut buffer = [0xAA; 27];
        assert_eq!(encode(&sheet, &mut buffer), Err(number));
        assert_eq!(buffer, [0xAA; 27]);
        mend(&mut sheet);
    }
    for length in 0..28 {
        let mut buffer = vec![0xAA; length];
        assert_eq!(encode(&sheet, &mut buffer), Err(22));
        assert_eq!(buffer, vec![0xAA; length]);
    }
    let mut buffer = [0xAA; 30];
    assert_eq!(encode(&sheet, &mut buffer), Ok(28));
    assert_eq!(buffer[..28], page_a());
    assert_eq!(buffer[28..], [0xAA; 2]);
}

#[test]
fn numbers_above_one_byte_are_refused() {
    let refusal = |change: fn(&mut Sheet)| {
        let mut sheet = good();
        change(&mut sheet);
        encode(&sheet, &mut [0; 400])
    };
    assert_eq!(refusal(|sheet| sheet.kind = 257), Err(4));
    assert_eq!(refusal(|sheet| sheet.kind = 0), Err(4));
    assert_eq!(refusal(|sheet| sheet.rows = 257), Err(7));
    assert_eq!(refusal(|sheet| sheet.columns = 257), Err(7));
    assert_eq!(refusal(|sheet| sheet.columns = u32::MAX), Err(7));
    assert_eq!(refusal(|sheet| sheet.rows = 0), Err(7));
}

#[test]
fn kind_2_reads_no_entry_and_unused_places_are_not_read() {
    let sheet = Sheet {
        kind: 2,
        modulus: 35,
        order: 5,
        challenges: 5,
        rows: 1,
        columns: 1,
        entries: [[5; 8]; 8],
        statement: eight_with(&[32], 5),
    };
    let mut buffer = [0; 24];
    assert_eq!(encode(&sheet, &mut buffer), Ok(24));
    assert_eq!(buffer[..], page_g());
    let mut sheet = good();
    sheet.entries = [eight_with(&[2], 5); 8];
    sheet.statement = eight_with(&[13], 5);
    let mut buffer = [0; 28];
    assert_eq!(encode(&sheet, &mut buffer), Ok(28));
    assert_eq!(buffer[..], page_a());
}

#[test]
fn written_sheets_read_back_and_read_sheets_are_written_back() {
    let full: Vec<&[u32]> = vec![&[2, 3, 4, 6, 8, 9, 12, 13]; 8];
    let sheets = [
        page_a(),
        page_g(),
        exponent(23, 11, 11, &full, &[1, 2, 3, 4, 6, 8, 9, 12]).bytes(),
        exponent(23, 11, 2, &[&[2], &[3], &[4]], &[1, 2, 3]).bytes(),
        exponent(4, 2, 2, &[&[3, 1]], &[3]).bytes(),
        exponent(u32::MAX, 1 << 31, 2, &[&[2]], &[u32::MAX - 1]).bytes(),
        root(u32::MAX, 65_537, 65_536, &[2, 4]).bytes(),
        root(3, 4_294_967_291, 65_536, &[1, 2, 1, 2, 1, 2, 1, 2]).bytes(),
    ];
    for bytes in sheets {
        let sheet = load(&bytes).unwrap();
        let mut buffer = vec![0xAA; bytes.len() + 3];
        assert_eq!(encode(&sheet, &mut buffer), Ok(bytes.len()));
        assert_eq!(buffer[..bytes.len()], bytes);
        assert_eq!(buffer[bytes.len()..], [0xAA; 3]);
        assert_eq!(load(&buffer[..bytes.len()]), Ok(sheet));
    }
}
