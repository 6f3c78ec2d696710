//! The reason's line on random sheets and files, against the slow rules.

use std::collections::BTreeSet;

use judge::*;

use crate::naive::*;
use crate::random::small;
use crate::tools::*;

/// The number in a few bytes, high byte first.
fn stored(bytes: &[u8]) -> u64 {
    bytes.iter().fold(0, |sum, byte| sum * 256 + u64::from(*byte))
}

/// The words from an offset on.
fn words(bytes: &[u8], from: usize) -> Vec<u32> {
    let chunks = bytes[from..].chunks_exact(4);
    chunks.map(|chunk| stored(chunk) as u32).collect()
}

/// Whether the bytes from `at` on hold a right number, and otherwise the line.
fn field(file: &[u8], rule: u32, at: usize, size: usize, good: &[u64]) -> Result<u64, String> {
    let value = stored(&file[at..at + size]);
    if good.contains(&value) { Ok(value) } else { Err(format!("refused {rule} {at}\n")) }
}

/// The header's tests, for moduli, orders and challenge counts below 1000.
fn slow_header(bytes: &[u8]) -> Result<Sheet, String> {
    if bytes.len() < 20 {
        return Err(format!("refused 2 length {}\n", bytes.len()));
    }
    let upward = |least: u64| (least..1000).collect::<Vec<u64>>();
    field(bytes, 2, 0, 3, &[0x48_4F_4D])?;
    field(bytes, 3, 3, 2, &[1])?;
    let kind = field(bytes, 4, 5, 1, &[1, 2])?;
    let modulus = field(bytes, 5, 6, 4, &upward(3))?;
    let order = field(bytes, 6, 10, 4, &upward(2))?;
    let wide: Vec<u64> = (1..=8).collect();
    let rows = field(bytes, 7, 18, 1, &wide)?;
    let wide = if kind == 1 { wide } else { vec![rows] };
    let columns = field(bytes, 7, 19, 1, &wide)?;
    // K may reach ℓ's smallest divisor above 1 and not pass it.
    let divisor = (2..=order).find(|d| order % d == 0).unwrap();
    let counts: Vec<u64> = (2..=divisor).collect();
    let challenges = field(bytes, 8, 14, 4, &counts)?;
    Ok(Sheet {
        kind: kind as u32,
        modulus: modulus as u32,
        order: order as u32,
        challenges: challenges as u32,
        rows: rows as u32,
        columns: columns as u32,
        entries: [[0; 8]; 8],
        statement: [0; 8],
    })
}

/// The sheet, or the line that refuses it.
fn slow_sheet(bytes: &[u8]) -> Result<Sheet, String> {
    let mut sheet = slow_header(bytes)?;
    let (s, n) = (sheet.rows as usize, sheet.columns as usize);
    let table = if sheet.kind == 1 { s * n } else { 0 };
    if bytes.len() != 20 + 4 * table + 4 * s {
        return Err(format!("refused 9 length {}\n", bytes.len()));
    }
    for (place, value) in words(bytes, 20).into_iter().enumerate() {
        let rule = if place < table { 10 } else { 11 };
        if !slow_element(&sheet, value) {
            return Err(format!("refused {rule} {}\n", 20 + 4 * place));
        }
        if place < table {
            sheet.entries[place / n][place % n] = value;
        } else {
            sheet.statement[place - table] = value;
        }
    }
    Ok(sheet)
}

/// The words of round 0, or the line that refuses the file or the round.
///
/// A challenge has four bytes in version 1 and two in version 2.
fn slow_round(sheet: &Sheet, file: &[u8]) -> Result<Vec<u32>, String> {
    if file.len() < 7 {
        return Err(format!("refused 12 length {}\n", file.len()));
    }
    field(file, 12, 0, 3, &[0x52_4E_44])?;
    let version = field(file, 12, 3, 2, &[1, 2])?;
    let count = field(file, 12, 5, 2, &(0..=512).collect::<Vec<u64>>())?;
    let (s, n) = (sheet.rows as usize, sheet.columns as usize);
    let mut sizes = vec![4; s + 1 + n];
    sizes[s] = if version == 1 { 4 } else { 2 };
    if file.len() != 7 + count as usize * sizes.iter().sum::<usize>() {
        return Err(format!("refused 12 length {}\n", file.len()));
    }
    field(file, 13, 5, 2, &(1..=512).collect::<Vec<u64>>())?;
    let (mut words, mut at) = (Vec::new(), 7);
    for (place, size) in sizes.into_iter().enumerate() {
        let value = stored(&file[at..at + size]) as u32;
        let (rule, good) = match place {
            _ if place < s => (14, slow_element(sheet, value)),
            _ if place == s => (15, value < sheet.challenges),
            _ => (16, slots(sheet).contains(&value)),
        };
        if !good {
            return Err(format!("refused {rule} {at}\n"));
        }
        words.push(value);
        at += size;
    }
    Ok(words)
}

/// The line by the slow rules.
fn slow_line(sheet: &[u8], file: &[u8]) -> Result<String, String> {
    let sheet = slow_sheet(sheet)?;
    let words = slow_round(&sheet, file)?;
    let s = sheet.rows as usize;
    let (t, c, r) = (eight(&words[..s]), words[s], eight(&words[s + 1..]));
    let rows = slow_rows(&sheet, &t, c, &r);
    let mut line = String::new();
    for row in (0..s).filter(|row| rows[*row]) {
        let [left, right] = slow_sides(&sheet, &t, c, &r, row);
        line += &format!(" {row} {left} {right}");
    }
    Ok(match line.as_str() {
        "" => String::from("accepted\n"),
        _ => format!("rejected{line}\n"),
    })
}

/// A file of either version, of up to three rounds. Each is accepted, or has
/// up to three t anew.
fn rounds(shifts: &mut Shifts, bytes: &[u8], sheet: &Sheet) -> Vec<u8> {
    let count = shifts.below(8).min(3);
    let mut words = Vec::new();
    for _ in 0..count {
        let c = shifts.below(u64::from(sheet.challenges)) as u32;
        let r = shifts.picks(&slots(sheet));
        let mut t = simulate(bytes, c, &r).unwrap();
        for _ in 0..shifts.below(6).saturating_sub(2) {
            let row = shifts.below(u64::from(sheet.rows)) as usize;
            t[row] = shifts.pick(&elements(sheet));
        }
        words.extend(&t[..sheet.rows as usize]);
        words.push(c);
        words.extend(&r[..sheet.columns as usize]);
    }
    let size = (sheet.rows as usize, sheet.columns as usize);
    match shifts.below(2) {
        0 => file(count as u16, &words),
        _ => narrow(count as u16, size, &words),
    }
}

/// Makes one byte wrong that keeps the numbers of a header small, or changes
/// the length.
fn spoil(shifts: &mut Shifts, bytes: &mut Vec<u8>, header: &[usize], values: usize) {
    let value = shifts.below(12) as u8;
    match shifts.below(8) {
        0 => bytes.push(value),
        1 => bytes.truncate(shifts.below(bytes.len() as u64 + 1) as usize),
        2..=4 => {
            let at = header[shifts.below(header.len() as u64) as usize];
            if at < bytes.len() {
                bytes[at] = value;
            }
        }
        _ if bytes.len() <= values => {}
        _ => {
            let at = values + shifts.below((bytes.len() - values) as u64) as usize;
            bytes[at] = shifts.word() as u8;
        }
    }
}

/// A line without its values: `accepted`, or `rejected` and the word `more`
/// where there is more than one row, or `refused`, the number and the word
/// `length` where it is there.
fn form(line: &str) -> String {
    let words: Vec<&str> = line.split_whitespace().collect();
    match words[..] {
        ["refused", _, "length", _] => words[..3].join(" "),
        ["refused", ..] => words[..2].join(" "),
        ["rejected", ..] if words.len() > 4 => String::from("rejected more"),
        _ => words[0].to_string(),
    }
}

#[test]
fn random_files_follow_the_slow_rules() {
    let mut shifts = Shifts(0x5EED_0F0F_5EED_0F0F);
    let mut seen = BTreeSet::new();
    for _ in 0..20_000 {
        let (mut sheet, loaded) = small(&mut shifts);
        let mut file = rounds(&mut shifts, &sheet, &loaded);
        for _ in 0..shifts.below(3) {
            // Of m and ℓ only the low byte, so that the slow rules stay quick.
            spoil(&mut shifts, &mut sheet, &[0, 2, 4, 5, 9, 13, 15, 17, 18, 19], 20);
        }
        for _ in 0..shifts.below(4) {
            spoil(&mut shifts, &mut file, &[0, 2, 3, 4, 5, 6], 7);
        }
        let line = reason(&sheet, &file);
        let expected = slow_line(&sheet, &file);
        assert_eq!(line, expected.unwrap_or_else(|line| line));
        let version = file.get(4).copied().unwrap_or(0);
        seen.insert((loaded.kind, form(&line), version));
    }
    // Every refusal with each form it has, and both verdicts, in both kinds
    // and both versions. Kind 2 has no entries, so no 10, unless its kind was
    // made 1.
    let forms = "accepted,rejected,rejected more,refused 2,refused 2 length,refused 3,\
                 refused 4,refused 5,refused 6,refused 7,refused 8,refused 9 length,refused 11,\
                 refused 12,refused 12 length,refused 13,refused 14,refused 15,refused 16";
    for (kind, version) in [(1, 1), (1, 2), (2, 1), (2, 2)] {
        for form in forms.split(',') {
            let wanted = (kind, form.to_string(), version);
            assert!(seen.contains(&wanted), "{wanted:?}");
        }
        let entries = (1, String::from("refused 10"), version);
        assert!(seen.contains(&entries));
    }
}
