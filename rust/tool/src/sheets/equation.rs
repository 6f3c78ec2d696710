//! Vic's equation [r] = t · z^c, row by row, with its values.

use crate::command_line::table::{self, Set};
use crate::sheets::{notation, row_count};
use dimkhoros::{
    Instance, LONGEST_FILE, LONGEST_REASON, Places, Refusal, Round, RoundWriter, reason,
};

/// The table of the equations of rounds, each with its sheet, a line for each row. Where there are several rounds, their sides
/// are numbered from 0. A round may be refused with 14 to 16.
pub fn lines(sides: &[(&Instance, Round)]) -> Result<String, Refusal> {
    let mut lines = vec![["side", "row", "[r]", "", "t · z^c"].map(str::to_string).to_vec()];
    for (side, (sheet, round)) in sides.iter().enumerate() {
        lines.extend(rows(sheet, round, side)?);
    }
    let mut set = vec![Set::Right, Set::Right, Set::Left, Set::Left, Set::Left];
    if sides.len() == 1 {
        set.remove(0);
        lines.iter_mut().for_each(|line| drop(line.remove(0)));
    }
    Ok(table::lines("", &set, &lines))
}

/// The rows of a round's equation, such as `2^4 mod 23 = 16  =  9 · 13^3 mod 23 = 16`, for a side.
fn rows(sheet: &Instance, round: &Round, side: usize) -> Result<Vec<Vec<String>>, Refusal> {
    let (left, right) = values(sheet, round)?;
    let (modulus, statement) = (sheet.values().header.modulus, sheet.values().statement);
    let row = |row: usize| {
        let image = notation::row_image_of(sheet, row, &round.response);
        let (t, z, c) = (round.commitment[row], statement[row], round.challenge);
        vec![
            side.to_string(),
            row.to_string(),
            format!("{image} mod {modulus} = {}", left[row]),
            if left[row] == right[row] { "=" } else { "≠" }.to_string(),
            format!("{t} · {z}^{c} mod {modulus} = {}", right[row]),
        ]
    };
    Ok((0..row_count(sheet)).map(row).collect())
}

/// The values of both sides of a round, by row. The right ones that differ are those of the library's line on the round.
fn values(sheet: &Instance, round: &Round) -> Result<(Places, Places), Refusal> {
    let verdict = sheet.judge(round)?;
    let left = sheet.image(&round.response)?;
    let mut right = left;
    if verdict.is_accepted() {
        return Ok((left, right));
    }
    let mut buffer = [0; LONGEST_FILE];
    let mut file = RoundWriter::start(sheet, 1, &mut buffer)?;
    file.append(round)?;
    let mut text = [0; LONGEST_REASON];
    let line = reason(sheet.bytes(), file.file().bytes(), &mut text);
    let numbers: Vec<u32> = line.split_whitespace().filter_map(|word| word.parse().ok()).collect();
    for told in numbers.chunks_exact(3) {
        if let Some(place) = right.get_mut(told[0] as usize) {
            *place = told[2];
        }
    }
    Ok((left, right))
}
