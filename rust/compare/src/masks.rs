//! All the rows that differ, of 02's card 8: each mask on sheets of 1 to 8 rows, in
//! a session and out of one, on either side of the OR proof, and in both texts.

use crate::arithmetic::multiply;
use crate::files;
use crate::library::Library::{self, Judge};
use crate::library::phases::verifier::ASKED;
use crate::library::{
    Header, Judgement, LONGEST_REASON, LONGEST_TEXT, OrJudgement, OrRound, Places, Round,
    VerifierSession,
};
use crate::sheets::Sheet;

/// The modulus of all sheets here, of which 2 is an element in both kinds.
const MODULUS: u32 = 23;

/// What stands in a place that is not read.
const UNREAD: u32 = 4;

/// A sheet of this kind and so many rows: of kind 1 with one column.
fn sheet(kind: u32, rows: u32) -> Sheet {
    let header = Header {
        kind,
        modulus: MODULUS,
        order: 11,
        challenges: 11,
        rows,
        columns: if kind == 1 { 1 } else { rows },
    };
    let mut sheet = Sheet { header, entries: [0; 64], statement: [0; 8] };
    for row in 0..rows as usize {
        sheet.statement[row] = 13;
        if kind == 1 {
            sheet.entries[8 * row] = 2;
        }
    }
    sheet
}

/// A round whose two sides differ in the rows of this mask and in no other.
fn round(sheet: &Sheet, rows: u32) -> Round {
    let (challenge, response) = (3, [4, 6, 3, 9, 1, 8, 2, 12]);
    let mut commitment = Judge.simulate(&sheet.bytes(), challenge, &response).values;
    for (row, value) in commitment.iter_mut().enumerate() {
        if row >= sheet.header.rows as usize {
            *value = UNREAD;
        } else if rows >> row & 1 == 1 {
            *value = multiply(*value, 2, MODULUS);
        }
    }
    Round { commitment, challenge, response }
}

/// The verdict that names these rows.
fn verdict(rows: u32) -> Judgement {
    Judgement { accepted: u32::from(rows == 0), rows, refusal: 0 }
}

/// What a library says of a round: in a session and out of one, and in both texts
/// on a file of this round alone, of version 1 for kind 1 and of version 2 for kind 2.
#[derive(Debug, PartialEq, Eq)]
struct Said {
    judged: Judgement,
    in_session: Judgement,
    marked: String,
    told: String,
}

/// What is to be said of a round with these two sides.
fn expected(rows: u32, sides: [Places; 2]) -> Said {
    let rows_of_mask = || (0..8).filter(|row| rows >> row & 1 == 1);
    let mut words = ["accepted", "accepted"].map(String::from);
    if rows != 0 {
        let told = |row: usize| format!(" {row} {} {}", sides[0][row], sides[1][row]);
        words = [
            rows_of_mask().map(|row| format!(" {row}")).collect(),
            rows_of_mask().map(told).collect(),
        ];
        words = words.map(|rows: String| format!("rejected{rows}"));
    }
    let last = if rows == 0 { "pass" } else { "fail" };
    Said {
        judged: verdict(rows),
        in_session: verdict(rows),
        marked: format!("rounds 1\n0 {}\n{last}\n", words[0]),
        told: format!("{}\n", words[1]),
    }
}

/// What the library says.
fn said(library: Library, sheet: &Sheet, round: &Round) -> Said {
    let bytes = sheet.bytes();
    let version = sheet.header.kind as u16;
    let file = files::of_rounds(&sheet.header, version, &[*round]);
    let asked =
        VerifierSession { commitment: round.commitment, challenge: round.challenge, phase: ASKED };
    let (mut text, mut line) = ([0; LONGEST_TEXT], [0; LONGEST_REASON]);
    let marked = library.mark(&bytes, &file, &[3], &mut text);
    let told = library.reason(&bytes, &file, &mut line);
    Said {
        judged: library.judge(&bytes, round),
        in_session: library.verifier_response(&bytes, asked, &round.response).verdict,
        marked: String::from_utf8_lossy(&text[..marked]).into_owned(),
        told: String::from_utf8_lossy(&line[..told]).into_owned(),
    }
}

/// The two sides of a round: the image of its response, and what it has to be.
fn sides(sheet: &Sheet, round: &Round) -> [Places; 2] {
    let image = Judge.simulate(&sheet.bytes(), 0, &round.response).values;
    let mut expected = image;
    let right = self::round(sheet, 0).commitment;
    for row in 0..sheet.header.rows as usize {
        if round.commitment[row] != right[row] {
            expected[row] = multiply(image[row], 2, MODULUS);
        }
    }
    [image, expected]
}

/// Each mask on each sheet. Answers how many rounds there were.
fn of_one_sheet(other: Library) -> Result<usize, String> {
    let mut count = 0;
    for (kind, size) in [1, 2].into_iter().flat_map(|kind| (1..=8).map(move |size| (kind, size))) {
        let sheet = sheet(kind, size);
        for rows in 0..1 << size {
            let round = round(&sheet, rows);
            let expected = expected(rows, sides(&sheet, &round));
            for library in [Judge, other] {
                let said = said(library, &sheet, &round);
                if said != expected {
                    return Err(format!(
                        "rows {rows:08b} of a sheet of kind {kind}: {library:?} says {said:?}, not {expected:?}"
                    ));
                }
            }
            count += 1;
        }
    }
    Ok(count)
}

/// Each mask on either side and on both, with sheets of 3 and 8 rows. Answers how
/// many rounds there were.
fn of_two_sheets(other: Library) -> Result<usize, String> {
    let mut count = 0;
    for [kind, size] in [[1, 3], [2, 8]] {
        let pair = [sheet(kind, size), sheet(3 - kind, 11 - size)];
        let [first, second] = pair.each_ref().map(Sheet::bytes);
        for rows0 in 0..1 << size {
            for rows1 in 0..1 << (11 - size) {
                let [one, two] = [round(&pair[0], rows0), round(&pair[1], rows1)];
                let judged = OrRound {
                    commitment0: one.commitment,
                    commitment1: two.commitment,
                    response0: one.response,
                    response1: two.response,
                    challenge: one.challenge + two.challenge,
                    challenge0: one.challenge,
                };
                let expected = OrJudgement {
                    accepted: u32::from(rows0 == 0 && rows1 == 0),
                    rows0,
                    rows1,
                    refusal: 0,
                };
                for library in [Judge, other] {
                    let said = library.or_judge(&first, &second, &judged);
                    if said != expected {
                        return Err(format!(
                            "rows {rows0:08b} and {rows1:08b}: {library:?} says {said:?}, not {expected:?}"
                        ));
                    }
                }
                count += 1;
            }
        }
    }
    Ok(count)
}

/// Runs all masks in both libraries and answers the line to print. An error says
/// what differs.
pub fn check(other: Library) -> Result<String, String> {
    let (one, two) = (of_one_sheet(other)?, of_two_sheets(other)?);
    Ok(format!("rows: each mask in {one} rounds of one sheet and {two} of two"))
}

#[cfg(test)]
mod tests {
    use super::*;
    use crate::faults::Fault;
    use crate::library::Library::Faulty;

    #[test]
    fn the_judge_names_the_rows_that_are_made_to_differ() {
        let line = check(Judge).unwrap();
        assert_eq!(line, "rows: each mask in 1020 rounds of one sheet and 4096 of two");
    }

    #[test]
    fn faults_of_rows_are_found() {
        for fault in [
            Fault::JudgeRowZero,
            Fault::JudgeLastRow,
            Fault::JudgeRejectsAll,
            Fault::JudgeFirstRow,
            Fault::JudgeLastDifference,
            Fault::JudgeEndRow,
            Fault::JudgeAgreeing,
            Fault::JudgeRowsBeyond,
            Fault::JudgeRowsReversed,
            Fault::JudgeRowsCounted,
            Fault::JudgeRowNumber,
            Fault::JudgeRowsAccepted,
            Fault::AnswerRowZero,
            Fault::AnswerRejectsAll,
            Fault::AnswerFirstRow,
            Fault::AnswerEndRow,
            Fault::AnswerAgreeing,
            Fault::AnswerRowsBeyond,
            Fault::OrOneSide,
            Fault::OrFirstSide,
            Fault::OrLastSide,
            Fault::OrSecondRows,
            Fault::OrNoSecondRows,
            Fault::OrFirstRow,
            Fault::OrEndRow,
            Fault::OrAgreeing,
            Fault::OrRowsBeyond,
            Fault::OrRowsExchanged,
            Fault::OrRowsTogether,
            Fault::OrRowsOfFirst,
            Fault::OrRowsCounted,
            Fault::MarkRowZero,
            Fault::MarkEndRow,
            Fault::MarkFirstRow,
            Fault::MarkRowsFalling,
            Fault::MarkAgreeing,
            Fault::MarkRowsMask,
            Fault::MarkRowsFromOne,
            Fault::MarkRowsJoined,
            Fault::MarkRowsEnd,
            Fault::ReasonSides,
            Fault::ReasonRowZero,
            Fault::ReasonRowFromOne,
            Fault::ReasonFirstRow,
            Fault::ReasonEndRow,
            Fault::ReasonRowsFalling,
            Fault::ReasonEveryRow,
            Fault::ReasonRowsFirst,
            Fault::ReasonRowLines,
        ] {
            assert!(check(Faulty(fault)).is_err(), "{fault:?}");
        }
    }
}
