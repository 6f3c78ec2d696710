//! Faults of the sheet maker, and of the shipped pattern file.

use judge::pattern_file::SHIPPED;

use crate::faults::Fault;
use crate::faults::writers::refused;
use crate::library::Library::Judge;
use crate::library::{Plan, SHIPPED_PATTERNS, Written};
use crate::pattern_files::{self, Pattern, file, read};

pub fn patterns(fault: Fault, buffer: &mut [u8]) -> Written {
    let length = buffer.len();
    if fault == Fault::ShippedNeedsMore && length == SHIPPED_PATTERNS {
        return refused(22);
    }
    if fault == Fault::ShippedClears && length > SHIPPED_PATTERNS {
        buffer[SHIPPED_PATTERNS] = 0;
    }
    if fault == Fault::ShippedWritten && length < SHIPPED_PATTERNS {
        buffer.copy_from_slice(&SHIPPED[..length]);
    }
    let right = Judge.patterns(buffer);
    if fault == Fault::ShippedProduct && right.refusal == 0 {
        buffer[31..34].copy_from_slice(&[3, 2, 0]);
    }
    right
}

/// What a faulty maker asks of the judge.
struct Asked {
    patterns: Vec<u8>,
    number: u32,
    values: Vec<u32>,
}

pub fn from_pattern(
    fault: Fault,
    patterns: &[u8],
    plan: Plan,
    values: &[u32],
    statement: &[u32],
    buffer: &mut [u8],
) -> Written {
    let mut before = buffer.to_vec();
    let right = Judge.from_pattern(patterns, plan, values, statement, &mut before);
    let asked = Asked { patterns: patterns.to_vec(), number: plan.number, values: values.to_vec() };
    let asked = match right.refusal {
        23 => of_shape(fault, asked),
        24 => of_digits(fault, asked),
        _ => of_number(fault, asked),
    };
    let Asked { patterns, number, values } = match asked {
        Ok(asked) => asked,
        Err(number) => return refused(number),
    };
    let plan = Plan { number, ..plan };
    let made = Judge.from_pattern(&patterns, plan, &values, statement, buffer);
    if made.refusal == 0 && number > 0 {
        let wanted = &read(&patterns, 8).0[number as usize - 1];
        turned(fault, wanted, &values, buffer);
    }
    made
}

/// The number of a file that is refused, where a root sheet or too high a
/// number is asked for before the file is.
fn before_the_file(fault: Fault, asked: &mut Asked) -> Result<(), u32> {
    match (fault, asked.number) {
        (Fault::PatternFileRoot, 0) => asked.patterns = SHIPPED.to_vec(),
        (Fault::PatternFileLast, 33..) => return Err(1),
        _ => {}
    }
    Ok(())
}

/// What is asked of a file that is refused with 23.
fn of_shape(fault: Fault, mut asked: Asked) -> Result<Asked, u32> {
    before_the_file(fault, &mut asked)?;
    let bytes = asked.patterns.clone();
    let Some(header) = bytes.first_chunk::<6>() else {
        return Ok(asked);
    };
    let (patterns, rest) = read(&bytes, 8);
    let count = usize::from(header[5]);
    let whole = patterns.len() == count;
    match fault {
        Fault::PatternFileMark => asked.patterns[2] = b'T',
        Fault::PatternFileVersion => asked.patterns[3] = 0,
        Fault::PatternFileNone if count == 0 && rest.is_empty() => {
            asked.patterns = SHIPPED.to_vec();
            asked.number = if asked.number == 0 { 0 } else { 6 };
        }
        Fault::PatternFileMany if whole && count == 33 => {
            asked.patterns = file(&patterns[..32]);
            asked.patterns.extend(rest);
        }
        Fault::PatternFileNine => asked.patterns = with_eight_of_nine(&bytes),
        Fault::PatternFileBehind if whole && rest.len() == 1 => {
            asked.patterns.pop();
        }
        Fault::PatternFileCut if patterns.len() + 1 == count && rest.len() >= 3 => {
            let cells = usize::from(rest[0]) * usize::from(rest[1]);
            let missing = (3 + cells).saturating_sub(rest.len());
            asked.patterns.extend(vec![0; missing]);
        }
        Fault::DigitsEarly if !patterns.iter().all(Pattern::is_named) => return Err(24),
        _ => {}
    }
    Ok(asked)
}

/// The file with eight values in each pattern that has nine.
fn with_eight_of_nine(bytes: &[u8]) -> Vec<u8> {
    let (mut patterns, rest) = read(bytes, 9);
    for pattern in patterns.iter_mut().filter(|pattern| pattern.sizes[2] == 9) {
        pattern.sizes[2] = 8;
        for digit in &mut pattern.digits {
            *digit = (*digit).min(8);
        }
    }
    let mut mended = file(&patterns);
    mended[..6].copy_from_slice(&bytes[..6]);
    mended.extend(rest);
    mended
}

/// What is asked of a file that is refused with 24.
fn of_digits(fault: Fault, mut asked: Asked) -> Result<Asked, u32> {
    before_the_file(fault, &mut asked)?;
    let (mut patterns, _) = read(&asked.patterns, 8);
    let wanted = asked.number.checked_sub(1).map(|place| place as usize);
    match fault {
        Fault::DigitsWanted => {
            for (place, pattern) in patterns.iter_mut().enumerate() {
                if Some(place) != wanted {
                    *pattern = pattern_files::shipped().swap_remove(0);
                }
            }
        }
        Fault::DigitAbove => {
            for pattern in &mut patterns {
                let above = pattern.sizes[2] + 1;
                let digits = pattern.digits.iter_mut();
                digits.filter(|digit| **digit == above).for_each(|digit| *digit = 0);
            }
        }
        Fault::ValueUnnamed => {
            for (place, pattern) in patterns.iter_mut().enumerate() {
                let values = pattern.sizes[2];
                if values > 1 && !pattern.digits.contains(&values) {
                    pattern.sizes[2] -= 1;
                    if Some(place) == wanted && asked.values.pop().is_none() {
                        return Err(1);
                    }
                }
            }
        }
        _ => {}
    }
    asked.patterns = file(&patterns);
    Ok(asked)
}

/// What is asked of a file that is refused with neither.
fn of_number(fault: Fault, mut asked: Asked) -> Result<Asked, u32> {
    let (patterns, _) = read(&asked.patterns, 8);
    let count = patterns.len() as u32;
    let known = (1..=count).contains(&asked.number);
    match (fault, asked.number) {
        (Fault::PatternCut, _) => asked.number &= 0xff,
        (Fault::PatternRootSix, 0) => return Err(1),
        (Fault::PatternRootSix, 6) => asked.number = 0,
        (Fault::PatternFirst, _) if known => asked.number = 1,
        (Fault::PatternAtCount, number) if number == count => return Err(1),
        (Fault::PatternAboveCount, number) if number == count + 1 => asked.number = count,
        (Fault::ExtraValue, number) if known => {
            let wanted = &patterns[number as usize - 1];
            asked.values.truncate(wanted.values());
        }
        _ => {}
    }
    Ok(asked)
}

/// Puts other entries into the sheet of a pattern.
fn turned(fault: Fault, pattern: &Pattern, values: &[u32], sheet: &mut [u8]) {
    let right = sheet.to_vec();
    let (rows, columns) = (pattern.rows(), pattern.columns());
    for (place, digit) in pattern.digits.iter().enumerate() {
        let at = 20 + 4 * place;
        if fault == Fault::DigitZero && *digit == 0 {
            sheet[at..at + 4].copy_from_slice(&values[0].to_be_bytes());
        }
        let (i, j) = (place / columns, place % columns);
        let other = rows * i + j;
        if fault == Fault::DigitStride && other < pattern.digits.len() {
            sheet[at..at + 4].copy_from_slice(&right[20 + 4 * other..][..4]);
        }
    }
}
