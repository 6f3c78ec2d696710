//! The game by a table: the responses of a small sheet by their images, made once
//! by this program's own arithmetic. The judge tries all responses for each
//! challenge, which takes a minute on the largest sheets.

use std::collections::HashMap;

use crate::arithmetic::{multiply, power};
use crate::demand_three::choices;
use crate::groups::Group;
use crate::library::Library::Judge;
use crate::library::{Header, Places};
use crate::sheets::Sheet;

/// The most responses that a game tries.
pub const MOST: u32 = 4096;

/// How many verdicts the judge gives at most where its text is asked for.
const JUDGED: u64 = 20_000;

/// All responses of a small sheet, and those of each image, in slot order.
pub struct Table {
    pub sheet: Sheet,
    pub responses: Vec<Places>,
    of_image: HashMap<Places, Vec<Places>>,
}

/// How many responses a sheet has: q^n, or m, which is a little more than there are.
pub fn count(header: &Header) -> u128 {
    match header.kind {
        1 => u128::from(header.order).checked_pow(header.columns).unwrap_or(u128::MAX),
        _ => header.modulus.into(),
    }
}

/// Whether all responses of a sheet that loads can be tried.
pub fn is_small(header: &Header) -> bool {
    count(header) <= MOST.into() && (header.kind == 1 || header.rows == 1)
}

/// Whether the judge takes long on a small sheet.
pub fn is_long(header: &Header) -> bool {
    count(header) * u128::from(header.challenges) > JUDGED.into()
}

impl Table {
    /// The table of a sheet that loads and is small.
    pub fn new(sheet: Sheet) -> Table {
        let header = sheet.header;
        let group = Group::new(header.kind, header.modulus, header.order);
        let slots: Vec<u32> = match header.kind {
            1 => (0..header.order).collect(),
            _ => (1..header.modulus).filter(|v| group.is_element(*v)).collect(),
        };
        let responses = choices(&slots, header.columns as usize);
        let mut of_image: HashMap<Places, Vec<Places>> = HashMap::new();
        for response in &responses {
            let image = sheet.image(response);
            of_image.entry(image).or_default().push(*response);
        }
        Table { sheet, responses, of_image }
    }

    /// How many images there are.
    #[cfg(test)]
    pub fn images(&self) -> usize {
        self.of_image.len()
    }

    /// Whether the statement has a witness.
    pub fn has_witness(&self) -> bool {
        self.of_image.contains_key(&self.sheet.statement)
    }

    /// What the image of a response to this challenge has to be.
    pub fn wanted(&self, commitment: &Places, challenge: u32) -> Places {
        let Header { modulus, rows, .. } = self.sheet.header;
        let mut wanted = [0; 8];
        for (row, value) in wanted.iter_mut().enumerate().take(rows as usize) {
            let factor = power(self.sheet.statement[row], challenge, modulus);
            *value = multiply(commitment[row], factor, modulus);
        }
        wanted
    }

    /// The responses with this image, in slot order.
    pub fn with_image(&self, image: &Places) -> &[Places] {
        self.of_image.get(image).map_or(&[], Vec::as_slice)
    }

    /// The text on this commitment, which is of group elements.
    pub fn text(&self, commitment: &Places) -> String {
        let mut lines = String::new();
        for challenge in 0..self.sheet.header.challenges {
            let wanted = self.wanted(commitment, challenge);
            if let Some(first) = self.with_image(&wanted).first() {
                lines += &self.line(challenge, first);
            }
        }
        if lines.is_empty() { String::from("none\n") } else { lines }
    }

    /// The line of a challenge and a response.
    pub fn line(&self, challenge: u32, response: &Places) -> String {
        let slots = &response[..self.sheet.header.columns as usize];
        let words: Vec<String> =
            [&[challenge], slots].concat().iter().map(u32::to_string).collect();
        words.join(" ") + "\n"
    }
}

/// The judge's text on a sheet and a file, or that of a table if the judge would
/// take long.
pub fn game(sheet: &[u8], file: &[u8]) -> String {
    let loaded = Judge.load(sheet);
    let long = loaded.refusal == 0 && is_small(&loaded.header) && is_long(&loaded.header);
    let round = Judge.read(sheet, file, 0);
    let group =
        Group::new(loaded.header.kind, loaded.header.modulus.max(3), loaded.header.order.max(2));
    let mut values = round.round.commitment.iter().take(loaded.header.rows as usize);
    if !long || round.refusal != 0 || !values.all(|value| group.is_element(*value)) {
        return judge::game(sheet, file);
    }
    Table::new(Sheet::read(sheet)).text(&round.round.commitment)
}

#[cfg(test)]
mod tests {
    use super::*;

    #[test]
    fn a_table_has_the_lines_of_the_pages() {
        let sheet = |digits: &str| {
            let pairs = (0..digits.len()).step_by(2);
            let bytes = pairs.map(|at| u8::from_str_radix(&digits[at..at + 2], 16).unwrap());
            Table::new(Sheet::read(&bytes.collect::<Vec<u8>>()))
        };
        let page_a = sheet("484f4d000101000000170000000b0000000b0101000000020000000d");
        let lines = "0 5\n1 1\n2 8\n3 4\n4 0\n5 7\n6 3\n7 10\n8 6\n9 2\n10 9\n";
        assert_eq!(page_a.text(&[9, 0, 0, 0, 0, 0, 0, 0]), lines);
        let page_g = sheet("484f4d000102000000230000000500000005010100000020");
        let lines = "0 3\n1 6\n2 12\n3 24\n4 13\n";
        assert_eq!(page_g.text(&[33, 0, 0, 0, 0, 0, 0, 0]), lines);
        let page_d = sheet("484f4d000101000000170000000b0000000b0102000000020000000300000012");
        assert!(page_d.text(&[1, 0, 0, 0, 0, 0, 0, 0]).contains("\n1 0 9\n"));
    }
}
