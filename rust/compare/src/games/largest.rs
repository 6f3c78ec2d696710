//! The largest sheets of the game: 4,096 responses or nearly, in each shape, and as
//! many challenges as these allow.

use crate::demand_three::sheets::{exponent, root};
use crate::groups::Group;
use crate::instance::Instance;
use crate::library::Places;
use crate::random::Random;
use crate::sheets::Sheet;

/// The modulus, order, challenge count, rows and columns of sheets of kind 1. The
/// elements of order q are q in number or more.
const EXPONENT: [[u32; 5]; 12] = [
    [12_289, 4096, 2, 1, 1],
    [12_289, 4096, 2, 8, 1],
    [193, 64, 2, 8, 2],
    [97, 16, 2, 8, 3],
    [73, 8, 2, 8, 4],
    [13, 4, 2, 8, 6],
    [49_117, 4093, 4093, 1, 1],
    [49_117, 4093, 4093, 8, 1],
    [367, 61, 61, 1, 2],
    [367, 61, 61, 3, 2],
    [31, 5, 5, 2, 5],
    [3, 2, 2, 8, 8],
];

/// The modulus, exponent and challenge count of sheets of kind 2.
const ROOT: [[u32; 3]; 7] = [
    [4093, 65_537, 65_536],
    [4096, 65_537, 65_536],
    [4095, 65_537, 65_536],
    [3, 65_537, 65_536],
    [4093, 31, 31],
    [4093, 11, 11],
    [4096, 2, 2],
];

/// Each sheet with a witness and without a known one, and the commitments to try.
pub fn sheets() -> Vec<(Sheet, Vec<Places>)> {
    let mut random = Random::new(12);
    let mut sheets = Vec::new();
    for known in [true, false] {
        for [modulus, order, challenges, rows, columns] in EXPONENT {
            let group = Group::new(1, modulus, order);
            let mut elements = |count: u32| -> Vec<u32> {
                (0..count).map(|_| group.element(&mut random)).collect()
            };
            let (table, z) = (elements(rows * columns), elements(rows));
            let sheet = exponent([modulus, order, challenges], columns as usize, &table, &z);
            sheets.push(with_commitments(&mut random, group, sheet, known));
        }
        for [modulus, order, challenges] in ROOT {
            let group = Group::new(2, modulus, order);
            let sheet = root([modulus, order, challenges], &[group.element(&mut random)]);
            sheets.push(with_commitments(&mut random, group, sheet, known));
        }
    }
    sheets
}

/// The sheet, with a statement that has a witness if one is asked for, and an image, a
/// commitment that the last challenge answers, and any elements.
fn with_commitments(
    random: &mut Random,
    group: Group,
    sheet: Sheet,
    known: bool,
) -> (Sheet, Vec<Places>) {
    let last = sheet.header.challenges - 1;
    let mut instance = Instance { group, sheet, witness: None };
    let slots = [(); 3].map(|()| instance.slots(random));
    if known {
        instance.sheet.statement = instance.sheet.image(&slots[0]);
    }
    let commitments = vec![
        instance.sheet.image(&slots[1]),
        instance.simulated(last, &slots[2]),
        instance.elements(random),
    ];
    (instance.sheet, commitments)
}

#[cfg(test)]
mod tests {
    use super::*;
    use crate::library::Library::Judge;
    use crate::search::{Table, is_small};

    #[test]
    fn the_largest_sheets_load_and_are_small_enough() {
        let mut met = [0; 2];
        for (sheet, _) in sheets() {
            assert_eq!(Judge.load(&sheet.bytes()).refusal, 0, "{sheet:?}");
            assert!(is_small(&sheet.header));
            let (order, table) = (sheet.header.order, Table::new(sheet));
            // A prime order, so each entry but 1 has as many powers.
            assert!(order != 4093 || table.images() == 4093);
            assert!(table.images() > 1);
            met[usize::from(table.has_witness())] += 1;
        }
        assert!(met.iter().all(|times| *times > 3), "{met:?}");
    }
}
