//! Peggy against Vic on random sheets, against the slow rules.

use judge::*;

use crate::naive::*;
use crate::random::{bytes, small};
use crate::tools::*;

/// A random small sheet that loads, often with few responses.
fn few(shifts: &mut Shifts) -> (Vec<u8>, Sheet) {
    let (bytes, mut sheet) = small(shifts);
    if shifts.below(8) == 0 {
        return (bytes, sheet);
    }
    // The first rows and columns of a sheet are a sheet.
    if sheet.kind == 1 {
        while u64::from(sheet.order).pow(sheet.columns) > 5000 {
            sheet.columns -= 1;
        }
    } else {
        (sheet.rows, sheet.columns) = (1, 1);
    }
    let (s, n) = (sheet.rows as usize, sheet.columns as usize);
    for (i, row) in sheet.entries.iter_mut().enumerate() {
        row[n..].fill(0);
        if i >= s {
            row.fill(0);
        }
    }
    sheet.statement[s..].fill(0);
    if shifts.below(3) > 0 {
        let x = shifts.picks(&slots(&sheet));
        sheet.statement = slow_image(&sheet, &x);
    }
    (encoded(&sheet), sheet)
}

/// The bytes of a sheet.
fn encoded(sheet: &Sheet) -> Vec<u8> {
    let mut bytes = vec![0; 400];
    let length = encode(sheet, &mut bytes).unwrap();
    bytes.truncate(length);
    bytes
}

/// Whether the sheet is too large. Its m and q are below 100.
fn is_large(sheet: &Sheet) -> bool {
    match sheet.kind {
        1 => u64::from(sheet.order).pow(sheet.columns) > 4096,
        _ => sheet.rows > 1,
    }
}

/// The text by the slow rules, for a t whose values are elements, and how many
/// challenges it answers.
fn slow_text(sheet: &Sheet, t: &[u32; 8]) -> (String, u32) {
    let all = choices(&slots(sheet), sheet.columns as usize);
    let images: Vec<[u32; 8]> = all.iter().map(|r| slow_image(sheet, r)).collect();
    let (mut text, mut answered) = (String::new(), 0);
    for c in 0..sheet.challenges {
        let mut right = [0; 8];
        for (row, value) in right.iter_mut().enumerate().take(sheet.rows as usize) {
            // The right side does not depend on the response.
            *value = slow_sides(sheet, t, c, &[1; 8], row)[1];
        }
        let accepted = (0..all.len()).filter(|place| images[*place] == right);
        let Some(smallest) = accepted.map(|place| all[place]).min() else {
            continue;
        };
        let used = &smallest[..sheet.columns as usize];
        let verdict = judge(&encoded(sheet), &round(t, c, used));
        assert_eq!(verdict, Verdict::Accepted);
        text += &c.to_string();
        for slot in used {
            text += &format!(" {slot}");
        }
        text += "\n";
        answered += 1;
    }
    if answered == 0 {
        text += "none\n";
    }
    (text, answered)
}

#[test]
fn random_sheets_follow_the_slow_rules() {
    let mut shifts = Shifts(0x6A3E_0012_6A3E_0012);
    // How often the text was refused, none, one line and all lines.
    let mut met = [0; 4];
    for _ in 0..700 {
        let (bytes, sheet) = few(&mut shifts);
        let (s, n) = (sheet.rows as usize, sheet.columns as usize);
        let mut t = shifts.picks(&elements(&sheet));
        if shifts.below(3) > 0 {
            let c = shifts.below(u64::from(sheet.challenges)) as u32;
            t = simulate(&bytes, c, &shifts.picks(&slots(&sheet))).unwrap();
        }
        if shifts.below(20) == 0 {
            t[shifts.below(s as u64) as usize] = shifts.edge() % 90;
        }
        let words = [&t[..s], &[shifts.edge() % 65_536], &shifts.edges()[..n]].concat();
        let texts = [game(&bytes, &file(1, &words)), game(&bytes, &narrow(1, (s, n), &words))];
        assert_eq!(texts[0], texts[1]);
        if !t[..s].iter().all(|value| slow_element(&sheet, *value)) {
            assert_eq!(texts[0], "refused 14\n");
            met[0] += 1;
            continue;
        }
        if is_large(&sheet) {
            assert_eq!(texts[0], "refused 31\n");
            met[0] += 1;
            continue;
        }
        let (expected, answered) = slow_text(&sheet, &t);
        assert_eq!(texts[0], expected);
        let all = choices(&slots(&sheet), n);
        let has_witness = all.iter().any(|x| slow_image(&sheet, x) == sheet.statement);
        if has_witness {
            assert!(answered == 0 || answered == sheet.challenges)
        } else {
            assert!(answered <= 1)
        }
        met[match answered {
            0 => 1,
            1 => 2,
            _ => 3,
        }] += 1;
    }
    assert!(met.iter().all(|times| *times > 20), "{met:?}");
}

#[test]
fn no_bytes_panic() {
    let mut shifts = Shifts(0x4A11_6A3E_4A11_6A3E);
    for _ in 0..20_000 {
        let [sheet, rounds] = [0; 2].map(|_| bytes(&mut shifts));
        let text = game(&sheet, &rounds);
        match load(&sheet).err() {
            Some(number) => assert_eq!(text, format!("refused {number}\n")),
            None => assert!(text.ends_with('\n')),
        }
    }
}
