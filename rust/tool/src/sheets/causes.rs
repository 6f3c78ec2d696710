//! The cause that applies, of a refusal that has several, with its values.

use crate::sheets::notation::counted;
use crate::sheets::{MOST_CHALLENGES, largest_of, order_letter};
use dimkhoros::{EXPONENT, Header, PLACES};

/// The most responses of a sheet, and the largest modulus of a root sheet, that the game takes.
const MOST_IN_GAME: u32 = 4096;

/// What is wrong with the challenge count of a header: refusal 8. If the order or exponent allows fewer than the most, the largest
/// count that the library takes divides it, since a count is refused for a divisor below it alone.
pub fn challenges(header: &Header) -> String {
    let (letter, order, largest) = (order_letter(header), header.order, largest_of(header));
    if header.challenges < 2 {
        "K must be at least 2".to_string()
    } else if largest < MOST_CHALLENGES {
        format!("{largest} divides {letter} = {order}, so K can be at most {largest}")
    } else {
        format!("K can be at most {MOST_CHALLENGES}")
    }
}

/// Which count of rows and columns is wrong, and why: refusal 7. The columns are called by a name.
pub fn shape([rows, columns]: [usize; 2], column: &str) -> [String; 2] {
    let counts = [(rows, "row"), (columns, column)];
    let wrong = counts.into_iter().find(|(count, _)| !(1..=PLACES).contains(count));
    let (count, thing) = wrong.unwrap_or(counts[1]);
    let why = match wrong {
        Some((0, _)) => "at least 1 is needed".to_string(),
        Some(_) => format!("at most {PLACES} are allowed"),
        None => format!(
            "a root sheet has as many rows as columns, and this one has {rows} and {columns}"
        ),
    };
    [counted(count, thing), why]
}

/// What makes a sheet with this header too large for the game: refusal 31.
pub fn game_size(header: &Header) -> String {
    let Header { kind, modulus, order, rows, columns, .. } = header;
    let most = format!("is above {MOST_IN_GAME}, the most that the game searches");
    match *kind {
        EXPONENT => format!("q^n = {order}^{columns} {most}"),
        _ if *modulus > MOST_IN_GAME => format!("m = {modulus} {most}"),
        _ => format!(
            "a root sheet has one row in the game, and this one has {}",
            counted(*rows as usize, "row")
        ),
    }
}

#[cfg(test)]
mod tests {
    use super::{challenges, game_size, shape};
    use dimkhoros::{EXPONENT, Header, ROOT};

    const HEADER: Header =
        Header { kind: EXPONENT, modulus: 23, order: 11, challenges: 11, rows: 1, columns: 1 };

    #[test]
    fn a_challenge_count_is_told_its_own_cause() {
        let told = |order, count| challenges(&Header { order, challenges: count, ..HEADER });
        assert_eq!(told(11, 12), "11 divides q = 11, so K can be at most 11");
        assert_eq!(told(15, 70_000), "3 divides q = 15, so K can be at most 3");
        assert_eq!(told(65_537, 65_537), "K can be at most 65536");
        assert_eq!(told(4_294_967_291, 70_000), "K can be at most 65536");
        assert_eq!(told(11, 1), "K must be at least 2");
        let root = Header { kind: ROOT, order: 4, challenges: 3, ..HEADER };
        assert_eq!(challenges(&root), "2 divides e = 4, so K can be at most 2");
    }

    #[test]
    fn a_shape_is_told_its_own_cause() {
        let told = |rows, columns| shape([rows, columns], "column");
        assert_eq!(told(9, 1), ["9 rows", "at most 8 are allowed"]);
        assert_eq!(told(2, 300), ["300 columns", "at most 8 are allowed"]);
        assert_eq!(told(0, 9), ["0 rows", "at least 1 is needed"]);
        let [columns, why] = told(2, 3);
        assert_eq!(columns, "3 columns");
        assert_eq!(why, "a root sheet has as many rows as columns, and this one has 2 and 3");
    }

    #[test]
    fn a_sheet_that_is_too_large_for_the_game_is_told_by_what() {
        let large = Header { order: 23, columns: 4, ..HEADER };
        let most = "is above 4096, the most that the game searches";
        assert_eq!(game_size(&large), format!("q^n = 23^4 {most}"));
        let root = Header { kind: ROOT, rows: 2, columns: 2, ..HEADER };
        let rows = "a root sheet has one row in the game, and this one has 2 rows";
        assert_eq!(game_size(&root), rows);
        assert_eq!(game_size(&Header { modulus: 4097, ..root }), format!("m = 4097 {most}"));
    }
}
