//! Sheets are loaded and made.

use crate::pages::{PLANS, SCHNORR, made, page_a};
use dimkhoros::{Instance, LONGEST_SHEET, Plan, Refusal, Values, places};

#[test]
fn every_pattern_reads_back() {
    let shapes = [(1, 1, 28), (1, 2, 32), (2, 1, 36), (2, 1, 36), (2, 3, 52), (1, 1, 24)];
    for (plan, (rows, columns, length)) in PLANS.iter().zip(shapes) {
        let instance = made(plan).unwrap();
        let header = instance.values().header;
        assert_eq!((header.rows, header.columns, instance.bytes().len()), (rows, columns, length));
        assert_eq!((header.modulus, header.order), (plan.modulus, plan.order));
        assert_eq!(Instance::load(instance.bytes()), Ok(instance.clone()));
        assert_eq!(Instance::encode(instance.values()), Ok(instance));
    }
}

/// Whatever statement the sheet has.
#[test]
fn the_image_of_a_witness_is_its_statement() {
    let witnesses: [&[u32]; 6] = [&[7], &[1, 2], &[7], &[7], &[2, 1, 0], &[2]];
    for (plan, witness) in PLANS.iter().zip(witnesses) {
        let instance = made(plan).unwrap();
        let mut x = [u32::MAX; 8];
        x[..witness.len()].copy_from_slice(witness);
        let z = instance.values().statement;
        assert_eq!(instance.image(&x), Ok(z));
        let ones = instance.with_statement(&[1; 8]).unwrap();
        assert_eq!(ones.image(&x).and_then(|z| ones.with_statement(&z)), Ok(instance));
        assert_eq!(ones.image(&[u32::MAX; 8]), Err(Refusal::Coordinate));
    }
}

#[test]
fn entries_stand_by_row_and_column() {
    let product = made(&PLANS[4]).unwrap();
    let entries = &product.values().entries;
    assert_eq!(entries[0], places([2, 3, 1]));
    assert_eq!(entries[1], places([3, 1, 3]));
    assert_eq!(entries[2], places([]));
    assert_eq!(product.values().statement, places([12, 9]));
}

#[test]
fn the_longest_sheet_loads() {
    let mut values = Values { statement: [1; 8], entries: [[1; 8]; 8], ..*page_a().values() };
    values.header.rows = 8;
    values.header.columns = 8;
    let instance = Instance::encode(&values).unwrap();
    assert_eq!(instance.bytes().len(), LONGEST_SHEET);
    assert_eq!(instance.values(), &values);
    values.header.columns = 9;
    assert_eq!(Instance::encode(&values), Err(Refusal::Shape));
}

#[test]
fn slices_of_any_length_are_taken() {
    let mut long = vec![0; 1 << 20];
    assert_eq!(Instance::load(&long), Err(Refusal::SheetMark));
    long[..28].copy_from_slice(page_a().bytes());
    assert_eq!(Instance::load(&long), Err(Refusal::SheetLength));
    let values = vec![2; 1000];
    let plan = Plan { values: &values, ..SCHNORR };
    assert_eq!(made(&plan), Err(Refusal::Pattern));
}
