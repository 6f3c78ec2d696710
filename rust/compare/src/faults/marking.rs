//! Faults of the marker.

use crate::faults::Fault;
use crate::faults::rows::mark_rows;
use crate::files::version;
use crate::library::LONGEST_TEXT;
use crate::library::Library::Judge;
use crate::sheets::header;

pub fn mark(
    fault: Fault,
    sheet: &[u8],
    file: &[u8],
    level: &[u8],
    text: &mut [u8; LONGEST_TEXT],
) -> usize {
    let mut right = judged(sheet, file, level);
    if fault == Fault::MarkVersionOne && version(file) == 2 && right.starts_with("rounds") {
        right = String::from("file 12\n");
    }
    let marked = if right.starts_with("rounds") {
        let (challenges, rows) =
            header(sheet).map_or((0, 0), |header| (header.challenges, header.rows));
        let right = named(fault, &right, rows);
        marked(fault, &right, challenges, level[0])
    } else {
        refused(fault, &right, sheet, file, level)
    };
    text[..marked.len()].copy_from_slice(marked.as_bytes());
    if fault == Fault::MarkByteAfter {
        text[marked.len()] = 0;
    }
    marked.len()
}

/// The judge's text.
fn judged(sheet: &[u8], file: &[u8], level: &[u8]) -> String {
    let mut whole = [0; LONGEST_TEXT];
    let length = Judge.mark(sheet, file, level, &mut whole);
    String::from_utf8_lossy(&whole[..length]).into_owned()
}

/// The text where a sheet, a file or a level is refused. Where a level is let
/// through the text is the judge's at another.
fn refused(fault: Fault, right: &str, sheet: &[u8], file: &[u8], level: &[u8]) -> String {
    let of = |word: &str| right.starts_with(word);
    let at = |level: u8| judged(sheet, file, &[level]);
    let no_level = !matches!(level, [1..=64]);
    match (fault, level) {
        (Fault::MarkFileFirst, _) if of("sheet") && file.len() < 7 => String::from("file 12\n"),
        (Fault::MarkLevelFirst, _) if of("file") && no_level => String::from("level 25\n"),
        (Fault::MarkLevelBeforeSheet, _) if of("sheet") && no_level => String::from("level 25\n"),
        (Fault::MarkLevelFront, [first @ 1..=64, _, ..]) if of("level") => at(*first),
        (Fault::MarkLevelMissing, []) if of("level") => at(1),
        (Fault::MarkLevelZero, [0]) if of("level") => at(1),
        (Fault::MarkLevelCut, [65..=255]) if of("level") => at(64),
        (Fault::MarkLevelLast, _) if of("level") => {
            let text = at(64);
            let lines = text.strip_suffix("fail\n").or(text.strip_suffix("pass\n"));
            format!("{}level 25\n", lines.unwrap_or_default())
        }
        _ => right.to_string(),
    }
}

/// The text for a file that reads.
fn marked(fault: Fault, right: &str, challenges: u32, level: u8) -> String {
    let mut lines: Vec<String> = right.lines().map(String::from).collect();
    let count = lines.len() - 2;
    let accepted = right.matches(" accepted\n").count();
    let all = accepted == count;
    match fault {
        Fault::MarkCountInvented => lines[0] = String::from("rounds 4"),
        Fault::MarkEmptyPasses => end(&mut lines, right.ends_with("pass\n") || count == 0),
        Fault::MarkLevelIgnored => end(&mut lines, all && count > 0),
        Fault::MarkLevelWraps => end(&mut lines, all && wrapped(challenges, count) >= 1 << level),
        Fault::MarkLevelAbove => end(&mut lines, all && capped(challenges, count) > 1 << level),
        Fault::MarkLevelRounds => end(&mut lines, all && count >= level.into()),
        Fault::MarkEnoughAccepted => {
            end(&mut lines, capped(challenges, accepted) >= 1 << level);
        }
        Fault::MarkRefusedPasses if !right.contains("rejected") => {
            end(&mut lines, capped(challenges, count) >= 1 << level);
        }
        Fault::MarkRowZero | Fault::MarkEndRow => {
            let all = !lines.iter().any(|line| line.contains(" re"));
            end(&mut lines, all && capped(challenges, count) >= 1 << level);
        }
        Fault::MarkStops => {
            let bad = lines.iter().position(|line| line.contains(" re"));
            if let Some(bad) = bad {
                lines.truncate(bad + 1);
                lines.push(String::from("fail"));
            }
        }
        Fault::MarkRoundCut => lines.iter_mut().for_each(cut_number),
        Fault::MarkLastRound => lines.retain(|line| !line.starts_with("511 ")),
        Fault::MarkNoEnd => return lines.join("\n"),
        _ => {}
    }
    lines.join("\n") + "\n"
}

/// The product of one K per round, but 2^65 at most.
fn capped(challenges: u32, count: usize) -> u128 {
    let factors = std::iter::repeat_n(u128::from(challenges), count);
    factors.fold(1, |product, factor| (product * factor).min(1 << 65))
}

/// The same product in 64 bits.
fn wrapped(challenges: u32, count: usize) -> u128 {
    u64::from(challenges).wrapping_pow(count as u32).into()
}

/// Sets the last line.
fn end(lines: &mut [String], passes: bool) {
    if let Some(last) = lines.last_mut() {
        *last = String::from(if passes { "pass" } else { "fail" });
    }
}

/// The text with the rows of rejected rounds as a fault has them, on a sheet of so
/// many rows. A round of which no row is compared is accepted.
fn named(fault: Fault, right: &str, count: u32) -> String {
    let mut text = String::new();
    for line in right.lines() {
        text += &match line.split_once(" rejected ") {
            Some((number, rows)) => {
                let rows = match fault {
                    Fault::MarkRowZero => without(rows, |row| row > 0),
                    Fault::MarkEndRow => without(rows, |row| row + 1 == count),
                    _ => mark_rows(fault, rows, count),
                };
                match rows.as_str() {
                    "" if fault != Fault::MarkAgreeing => format!("{number} accepted\n"),
                    "" => format!("{number} rejected\n"),
                    _ => format!("{number} rejected {rows}\n"),
                }
            }
            None => format!("{line}\n"),
        };
    }
    text
}

/// The words but those of rows that are left out.
fn without(rows: &str, is_left_out: impl Fn(u32) -> bool) -> String {
    let kept = rows.split(' ').filter(|word| !word.parse().is_ok_and(&is_left_out));
    kept.collect::<Vec<_>>().join(" ")
}

/// Cuts the number at the start of a round's line to a byte.
fn cut_number(line: &mut String) {
    if let Some((number, words)) = line.split_once(' ') {
        if let Ok(number) = number.parse::<u32>() {
            *line = format!("{} {words}", number & 0xff);
        }
    }
}
