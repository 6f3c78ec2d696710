//! Sheets that load, and their bytes.

use crate::arithmetic::{multiply, power};
use crate::groups::Group;
use crate::library::Library::Judge;
use crate::library::{Header, Places};
use crate::random::Random;

/// The values of a sheet. Row i, column j of the entries is at place 8 i + j.
#[derive(Clone, Debug, PartialEq, Eq)]
pub struct Sheet {
    pub header: Header,
    pub entries: [u32; 64],
    pub statement: Places,
}

/// A row or column count, more often one of the smallest and largest.
fn side(random: &mut Random) -> u32 {
    if random.once_in(3) { random.pick(&[1, 8]) } else { random.between(1, 8) }
}

/// The fixed fields in a sheet's bytes, where it has all of them.
pub fn header(sheet: &[u8]) -> Option<Header> {
    let fields = sheet.first_chunk::<20>()?;
    let word = |at: usize| u32::from_be_bytes([0, 1, 2, 3].map(|byte| fields[at + byte]));
    Some(Header {
        kind: fields[5].into(),
        modulus: word(6),
        order: word(10),
        challenges: word(14),
        rows: fields[18].into(),
        columns: fields[19].into(),
    })
}

/// The product over the row of entry^slot mod m.
fn product(row: &[u32], slots: &Places, m: u32) -> u32 {
    let factors = row.iter().zip(slots);
    factors.fold(1, |product, (entry, slot)| multiply(product, power(*entry, *slot, m), m))
}

impl Sheet {
    /// The sheet of bytes that load.
    pub fn read(bytes: &[u8]) -> Sheet {
        let (loaded, mut entries) = (Judge.load(bytes), [0; 64]);
        Judge.entries(bytes, &mut entries);
        Sheet { header: loaded.header, entries, statement: loaded.statement }
    }

    /// A sheet of the group that loads, with any statement. Unused places are 0.
    pub fn with_any_statement(random: &mut Random, group: &Group) -> Sheet {
        let mut sheet = Sheet::with_entries(random, group);
        let rows = sheet.header.rows as usize;
        for value in &mut sheet.statement[..rows] {
            *value = group.element(random);
        }
        sheet
    }

    /// A sheet of the group that loads, and its witness. Unused places are 0.
    pub fn with_witness(random: &mut Random, group: &Group) -> (Sheet, Places) {
        let mut sheet = Sheet::with_entries(random, group);
        let mut witness = [0; 8];
        for slot in &mut witness[..sheet.header.columns as usize] {
            *slot = group.slot(random);
        }
        sheet.statement = sheet.image(&witness);
        (sheet, witness)
    }

    /// A sheet of the group that loads.
    pub fn of_group(random: &mut Random, group: &Group) -> Sheet {
        if random.once_in(2) {
            Sheet::with_any_statement(random, group)
        } else {
            Sheet::with_witness(random, group).0
        }
    }

    /// A sheet that loads.
    pub fn any(random: &mut Random) -> Sheet {
        let group = Group::any(random);
        Sheet::of_group(random, &group)
    }

    /// A header of the group, with zeros as values.
    fn blank(random: &mut Random, group: &Group) -> Sheet {
        let rows = side(random);
        let columns = if group.kind == 1 { side(random) } else { rows };
        Sheet {
            header: Header {
                kind: group.kind,
                modulus: group.modulus,
                order: group.order,
                challenges: group.challenges(random),
                rows,
                columns,
            },
            entries: [0; 64],
            statement: [0; 8],
        }
    }

    /// A header and entries of the group, with zeros as the statement.
    fn with_entries(random: &mut Random, group: &Group) -> Sheet {
        let mut sheet = Sheet::blank(random, group);
        let (rows, columns) = (sheet.header.rows as usize, sheet.header.columns as usize);
        if group.kind == 1 {
            let ones = random.once_in(10);
            for row in sheet.entries.chunks_mut(8).take(rows) {
                for entry in &mut row[..columns] {
                    *entry = if ones { 1 } else { group.element(random) };
                }
            }
        }
        sheet
    }

    /// The table's image of the slots, with 0 beyond the rows.
    pub fn image(&self, slots: &Places) -> Places {
        let Header { kind, modulus, order, rows, columns, .. } = self.header;
        let mut image = [0; 8];
        for (i, value) in image.iter_mut().enumerate().take(rows as usize) {
            *value = match kind {
                1 => product(&self.entries[8 * i..][..columns as usize], slots, modulus),
                _ => power(slots[i], order, modulus),
            };
        }
        image
    }

    /// The bytes of the fixed fields, cut to their width.
    pub fn header_bytes(&self) -> Vec<u8> {
        let header = &self.header;
        let mut bytes = b"HOM\x00\x01".to_vec();
        bytes.push(header.kind as u8);
        for field in [header.modulus, header.order, header.challenges] {
            bytes.extend(field.to_be_bytes());
        }
        bytes.extend([header.rows as u8, header.columns as u8]);
        bytes
    }

    /// The sheet's bytes, with 1 for each value beyond the eight places.
    pub fn bytes(&self) -> Vec<u8> {
        let header = &self.header;
        let mut bytes = self.header_bytes();
        let at = |values: &[u32], place: u32| values.get(place as usize).copied().unwrap_or(1);
        if header.kind == 1 {
            for place in 0..header.rows * header.columns {
                let (i, j) = (place / header.columns, place % header.columns);
                let entry = if j < 8 { at(&self.entries, 8 * i + j) } else { 1 };
                bytes.extend(entry.to_be_bytes());
            }
        }
        for i in 0..header.rows {
            bytes.extend(at(&self.statement, i).to_be_bytes());
        }
        bytes
    }

    /// Fills the places that no call may read with any numbers.
    pub fn fill_unread(&mut self, random: &mut Random) {
        let header = self.header;
        for (place, entry) in (0..).zip(&mut self.entries) {
            let used = place / 8 < header.rows && place % 8 < header.columns;
            if header.kind == 2 || !used {
                *entry = random.word();
            }
        }
        for (i, value) in (0..).zip(&mut self.statement) {
            if i >= header.rows {
                *value = random.word();
            }
        }
    }
}

#[cfg(test)]
mod tests {
    use std::collections::BTreeSet;

    use super::*;
    use crate::arithmetic::least_divisor;

    #[test]
    fn made_sheets_load_as_the_values_they_were_made_of() {
        let mut sizes = BTreeSet::new();
        for seed in 0..4000 {
            let sheet = Sheet::any(&mut Random::new(seed));
            let bytes = sheet.bytes();
            let loaded = Judge.load(&bytes);
            assert_eq!(loaded.refusal, 0);
            assert_eq!(loaded.header, sheet.header);
            assert_eq!(header(&bytes), Some(sheet.header));
            assert_eq!(loaded.statement, sheet.statement);
            let mut entries = [7; 64];
            Judge.entries(&bytes, &mut entries);
            assert_eq!(entries, sheet.entries);
            let Header { kind, rows, columns, .. } = sheet.header;
            sizes.insert((kind, rows, columns));
        }
        assert_eq!(sizes.len(), 64 + 8);
    }

    #[test]
    fn rare_sheets_are_made() {
        let composite = |n: u32| least_divisor(n) < n;
        let mut met = [0; 7];
        for seed in 0..40_000 {
            let sheet = Sheet::any(&mut Random::new(seed));
            let header = sheet.header;
            let ones = sheet.entries.iter().all(|entry| *entry <= 1);
            let widest = header.order == u32::MAX && header.challenges == 3;
            for (count, rare) in met.iter_mut().zip([
                header.modulus == 3,
                header.modulus > u32::MAX - 1000,
                header.challenges == 65_536,
                header.kind == 1 && widest && ones,
                composite(header.modulus) && composite(header.order) && header.challenges > 2,
                header.order > header.modulus,
                header.challenges == header.order,
            ]) {
                *count += u32::from(rare);
            }
        }
        assert!(met.iter().all(|count| *count > 10), "{met:?}");
    }

    #[test]
    fn witnesses_belong_to_their_statements() {
        for seed in 0..1000 {
            let mut random = Random::new(seed);
            let group = Group::any(&mut random);
            let (sheet, witness) = Sheet::with_witness(&mut random, &group);
            let session = Judge.prover_new();
            let answer = Judge.prover_respond(&sheet.bytes(), session, 0, &witness);
            assert_eq!(answer.refusal, 21);
        }
    }

    #[test]
    fn unread_places_do_not_change_the_bytes() {
        for seed in 0..300 {
            let mut random = Random::new(seed);
            let sheet = Sheet::any(&mut random);
            let mut filled = sheet.clone();
            filled.fill_unread(&mut random);
            assert_eq!(filled.bytes(), sheet.bytes());
        }
    }
}
