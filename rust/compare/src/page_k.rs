//! Page K of 01: eight rows load and nine do not, 512 rounds are read and 513
//! are not.

use crate::library::Library::{self, Judge};

/// Page A's m, q and K with so many rows of one column, where every entry and
/// every statement value is 1.
fn sheet(rows: u8) -> Vec<u8> {
    let mut bytes = b"HOM\x00\x01\x01".to_vec();
    for number in [23u32, 11, 11] {
        bytes.extend(number.to_be_bytes());
    }
    bytes.extend([rows, 1]);
    for _ in 0..2 * usize::from(rows) {
        bytes.extend(1u32.to_be_bytes());
    }
    bytes
}

/// A file of so many rounds (1, 0, 0) for a sheet of one row.
fn file(count: u16) -> Vec<u8> {
    let mut bytes = b"RND\x00\x01".to_vec();
    bytes.extend(count.to_be_bytes());
    for _ in 0..count {
        bytes.extend([0, 0, 0, 1, 0, 0, 0, 0, 0, 0, 0, 0]);
    }
    bytes
}

/// The numbers of eight and of nine rows, of 512 and of 513 rounds.
fn numbers(library: Library) -> [u32; 4] {
    let one = sheet(1);
    [
        library.load(&sheet(8)).refusal,
        library.load(&sheet(9)).refusal,
        library.count(&one, &file(512)).refusal,
        library.count(&one, &file(513)).refusal,
    ]
}

/// Runs the page in both libraries and answers the line to print. An error says
/// what differs.
pub fn check(library: Library) -> Result<String, String> {
    let (judged, other) = (numbers(Judge), numbers(library));
    if judged != other {
        return Err(format!("page K: the judge gives {judged:?}, the library {other:?}"));
    }
    let [eight, nine, most, more] = other;
    Ok(format!("page K: 8 rows {eight}, 9 rows {nine}, 512 rounds {most}, 513 rounds {more}"))
}

#[cfg(test)]
mod tests {
    use super::*;
    use crate::faults::Fault;
    use crate::library::Library::Faulty;

    #[test]
    fn the_judge_gives_what_the_page_says() {
        assert_eq!(numbers(Judge), [0, 7, 0, 12]);
    }

    #[test]
    fn a_library_that_reads_513_rounds_is_found() {
        assert!(check(Faulty(Fault::ManyRounds)).is_err());
    }
}
