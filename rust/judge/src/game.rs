//! Peggy against Vic: the challenges that one commitment can answer.
//!
//! "Peggy names t, Vic names c, Peggy answers if she can." On a small sheet
//! all responses are tried, so no one has to know a witness.

use crate::protocol::{Verdict, test_commitment, verdict};
use crate::round_file::file_round;
use crate::sheet::{Sheet, load};

/// The highest count of responses of kind 1 and the highest modulus of kind 2.
const MOST: u32 = 4096;

/// Whether q^n is at most 4,096 (kind 1), or m is at most 4,096 and s is 1
/// (kind 2). The sheet has passed 2 to 11.
fn is_small(sheet: &Sheet) -> bool {
    match sheet.kind {
        // A power that is too wide for 128 bits exceeds 4,096 too.
        1 => u128::from(sheet.order)
            .checked_pow(sheet.columns)
            .is_some_and(|count| count <= u128::from(MOST)),
        _ => sheet.modulus <= MOST && sheet.rows <= 1,
    }
}

/// All domain slots of a small sheet, rising.
fn slots(sheet: &Sheet) -> Vec<u32> {
    // A slot is below q in kind 1 and below m in kind 2.
    let bound = match sheet.kind {
        1 => sheet.order,
        _ => sheet.modulus,
    };
    (0..bound).filter(|v| sheet.is_domain_slot(*v)).collect()
}

/// All responses of a small sheet in slot order, first slot leading, with 0
/// beyond the columns in use.
fn responses(sheet: &Sheet) -> Vec<[u32; 8]> {
    let slots = slots(sheet);
    let mut all = vec![[0; 8]];
    for column in 0..sheet.n() {
        // Each start is followed by every slot in this column. So the starts
        // keep their order, and this column decides between equal ones.
        let mut longer = Vec::new();
        for start in &all {
            for slot in &slots {
                let mut response = *start;
                response[column] = *slot;
                longer.push(response);
            }
        }
        all = longer;
    }
    all
}

/// The lines of the challenges that have an accepting response, rising, each
/// with its smallest one.
fn lines(sheet: &[u8], file: &[u8]) -> Result<String, u32> {
    let sheet = load(sheet)?;
    // Decision: "its c and r are not tested", so 15 and 16 never apply. A file
    // of no rounds has no round 0 and gets 13.
    let commitment = file_round(&sheet, file, 0)?.commitment;
    test_commitment(&sheet, &commitment)?;
    if !is_small(&sheet) {
        return Err(31);
    }
    let responses = responses(&sheet);
    let mut lines = String::new();
    for c in 0..sheet.challenges {
        let accepts = |r: &&[u32; 8]| verdict(&sheet, &commitment, c, r) == Verdict::Accepted;
        let Some(smallest) = responses.iter().find(accepts) else {
            continue;
        };
        lines += &c.to_string();
        for slot in smallest.iter().take(sheet.n()) {
            lines += &format!(" {slot}");
        }
        lines += "\n";
    }
    Ok(lines)
}

/// Answers the text of Peggy against Vic for the bytes of a sheet and of a
/// round file, of version 1 or 2. A file that is missing or can't be read is
/// one of no bytes. It reads no level and refuses nothing itself.
///
/// For round 0's t it has a line for each challenge that has an accepting
/// response, rising: the challenge and then the slots of the smallest such
/// response, compared by the first slot in which two differ, with one space
/// between. It is the one line `none` if no challenge has one.
///
/// Where something is refused it is the one line `refused` and the number: 2 to
/// 11 for the sheet, 12 for the file, 13 for a file of no rounds, 14 for a
/// commitment value of round 0 that is no group element and then 31 if q^n
/// exceeds 4,096 in kind 1, or m exceeds 4,096 or s is above 1 in kind 2.
pub fn game(sheet: &[u8], file: &[u8]) -> String {
    // Decision: every line ends in one line feed, as the marker's do. A
    // challenge without an accepting response has no line of its own, so
    // `none` stands for all challenges together.
    match lines(sheet, file) {
        Ok(lines) if lines.is_empty() => String::from("none\n"),
        Ok(lines) => lines,
        Err(number) => format!("refused {number}\n"),
    }
}
