//! Faults of the rows that differ: masks and texts that name others, or name them
//! otherwise.

use crate::faults::Fault;

/// The mask that a fault makes of the rows of a rejected round of so many rows.
pub fn misnamed(fault: Fault, rows: u32, count: u32) -> u32 {
    let all = (1 << count) - 1;
    let last = rows.checked_ilog2().unwrap_or(0);
    match fault {
        Fault::JudgeFirstRow | Fault::AnswerFirstRow | Fault::OrFirstRow => {
            rows & rows.wrapping_neg()
        }
        Fault::JudgeLastDifference => 1 << last,
        Fault::JudgeAgreeing | Fault::AnswerAgreeing | Fault::OrAgreeing => !rows & all,
        Fault::JudgeEndRow | Fault::AnswerEndRow | Fault::OrEndRow => rows & (all >> 1),
        Fault::JudgeRowsBeyond | Fault::AnswerRowsBeyond | Fault::OrRowsBeyond => rows | 1 << count,
        Fault::JudgeRowsReversed => rows.reverse_bits() >> (32 - count),
        Fault::JudgeRowsCounted => rows.count_ones(),
        Fault::JudgeRowNumber => rows.trailing_zeros(),
        _ => rows,
    }
}

/// The rows in a marker's line, `rejected` and these words, as a fault has them.
pub fn mark_rows(fault: Fault, words: &str, count: u32) -> String {
    let mut rows: Vec<u32> = words.split(' ').filter_map(|word| word.parse().ok()).collect();
    match fault {
        Fault::MarkFirstRow => rows.truncate(1),
        Fault::MarkRowsFalling => rows.reverse(),
        Fault::MarkAgreeing => rows = (0..count).filter(|row| !rows.contains(row)).collect(),
        Fault::MarkRowsMask => rows = vec![rows.iter().map(|row| 1 << row).sum()],
        Fault::MarkRowsFromOne => rows.iter_mut().for_each(|row| *row += 1),
        _ => {}
    }
    let rows: Vec<String> = rows.iter().map(u32::to_string).collect();
    match fault {
        Fault::MarkRowsJoined => rows.join(""),
        Fault::MarkRowsEnd if rows.len() < 8 => rows.join(" ") + " ",
        _ => rows.join(" "),
    }
}

/// The rows of the reason's line, each with its two sides, as a fault has them.
/// The image is that of the response.
pub fn reason_rows(fault: Fault, mut rows: Vec<[u32; 3]>, image: &[u32]) -> Option<Vec<[u32; 3]>> {
    match fault {
        Fault::ReasonSides => rows.iter_mut().for_each(|row| row.swap(1, 2)),
        Fault::ReasonRowZero => rows.retain(|row| row[0] == 0),
        Fault::ReasonRowFromOne => rows.iter_mut().for_each(|row| row[0] += 1),
        Fault::ReasonFirstRow => rows.truncate(1),
        Fault::ReasonRowsFalling => rows.reverse(),
        Fault::ReasonEndRow => rows.retain(|row| row[0] as usize + 1 < image.len()),
        Fault::ReasonEveryRow => {
            let every = image.iter().zip(0..).map(|(value, row)| {
                let differs = rows.iter().find(|other| other[0] == row);
                differs.copied().unwrap_or([row, *value, *value])
            });
            rows = every.collect();
        }
        _ => {}
    }
    (!rows.is_empty()).then_some(rows)
}

/// The words of rows with their sides, as a fault has them.
pub fn told_rows(fault: Fault, rows: &[[u32; 3]]) -> String {
    let sides = rows.iter().flat_map(|row| &row[1..]);
    let words: Vec<String> = match fault {
        Fault::ReasonRowsFirst => {
            rows.iter().map(|row| &row[0]).chain(sides).map(u32::to_string).collect()
        }
        _ => rows.iter().map(|[row, left, right]| format!("{row} {left} {right}")).collect(),
    };
    match fault {
        Fault::ReasonRowLines => words.join("\n"),
        _ => words.join(" "),
    }
}
