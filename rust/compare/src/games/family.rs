//! Every sheet of some small sizes, and every commitment to try on it.

use crate::arithmetic::least_divisor;
use crate::demand_three::choices;
use crate::groups::Group;
use crate::library::{Header, Places};
use crate::sheets::Sheet;

/// The rows and columns of kind 1, with the largest modulus and order of each.
const SIZES: [(u32, u32, u32, u32); 3] = [(1, 1, 13, 6), (1, 2, 9, 4), (2, 1, 7, 3)];

/// The largest modulus and exponent of kind 2.
const LARGEST_ROOT: (u32, u32) = (16, 7);

/// All sheets of these sizes that load: all entries, statements and challenge counts.
pub fn sheets() -> Vec<Sheet> {
    let mut sheets = Vec::new();
    for (rows, columns, modulus, order) in SIZES {
        for group in groups(1, modulus, order) {
            sheets.extend(of_group(&group, rows, columns));
        }
    }
    for group in groups(2, LARGEST_ROOT.0, LARGEST_ROOT.1) {
        sheets.extend(of_group(&group, 1, 1));
    }
    sheets
}

/// The groups of a kind up to these numbers.
fn groups(kind: u32, modulus: u32, order: u32) -> Vec<Group> {
    let groups =
        (3..=modulus).flat_map(|m| (2..=order).map(move |order| Group::new(kind, m, order)));
    groups.collect()
}

/// The sheets of a group with so many rows and columns.
fn of_group(group: &Group, rows: u32, columns: u32) -> Vec<Sheet> {
    let elements: Vec<u32> = (1..group.modulus).filter(|v| group.is_element(*v)).collect();
    let entries = match group.kind {
        1 => choices(&elements, (rows * columns) as usize),
        _ => vec![[0; 8]],
    };
    let mut sheets = Vec::new();
    for challenges in 2..=least_divisor(group.order) {
        for entries in &entries {
            let statements = choices(&elements, rows as usize);
            sheets.extend(statements.into_iter().map(|statement| Sheet {
                header: Header {
                    kind: group.kind,
                    modulus: group.modulus,
                    order: group.order,
                    challenges,
                    rows,
                    columns,
                },
                entries: placed(entries, columns),
                statement,
            }));
        }
    }
    sheets
}

/// The entries in rows of eight places, from those of all rows in a list.
fn placed(list: &Places, columns: u32) -> [u32; 64] {
    let (mut entries, columns) = ([0; 64], columns as usize);
    for (place, entry) in list.iter().enumerate() {
        entries[8 * (place / columns) + place % columns] = *entry;
    }
    entries
}

/// Every choice of numbers up to one above the modulus.
pub fn commitments(sheet: &Sheet) -> Vec<Places> {
    let values: Vec<u32> = (0..=sheet.header.modulus + 1).collect();
    choices(&values, sheet.header.rows as usize)
}

#[cfg(test)]
mod tests {
    use super::*;
    use crate::library::Library::Judge;
    use crate::search::Table;

    #[test]
    fn the_sheets_load_and_have_witnesses_and_kernels_or_not() {
        let mut met = [0; 8];
        for sheet in sheets() {
            assert_eq!(Judge.load(&sheet.bytes()).refusal, 0);
            let table = Table::new(sheet);
            let kernel = table.with_image(&table.wanted(&[1; 8], 0)).len() > 1;
            let kind = table.sheet.header.kind == 2;
            let place = [kind, table.has_witness(), kernel].map(usize::from);
            met[4 * place[0] + 2 * place[1] + place[2]] += 1;
        }
        // A root sheet on which no two responses have one image has a witness.
        assert_eq!(met[4], 0);
        assert!([0, 1, 2, 3, 5, 6, 7].iter().all(|place| met[*place] > 20), "{met:?}");
    }
}
