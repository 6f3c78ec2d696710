//! Random pattern files against the slow rules, and their tables.

use std::collections::BTreeSet;

use crate::pattern_files::{made, refusal};
use crate::tools::*;

/// The rules on a pattern file again, with one place that moves through it.
fn slow_refusal(file: &[u8]) -> u32 {
    let byte = |at: usize| file.get(at).map_or(0, |byte| usize::from(*byte));
    let start: [usize; 5] = [0x50, 0x41, 0x54, 0, 1];
    let count = byte(5);
    if (0..5).any(|at| byte(at) != start[at]) || count == 0 || count > 32 {
        return 23;
    }
    let (mut at, mut misnamed) = (6, false);
    for _ in 0..count {
        let (rows, columns, values) = (byte(at), byte(at + 1), byte(at + 2));
        if [rows, columns, values].iter().any(|n| *n == 0 || *n > 8) {
            return 23;
        }
        let end = at + 3 + rows * columns;
        let digits: BTreeSet<usize> = (at + 3..end).map(byte).filter(|d| *d > 0).collect();
        misnamed |= digits != (1..=values).collect();
        at = end;
    }
    if at != file.len() {
        23
    } else if misnamed {
        24
    } else {
        0
    }
}

/// A random pattern that is right, by its bytes.
fn any_pattern(shifts: &mut Shifts) -> Vec<u8> {
    let (rows, columns) = (1 + shifts.below(8), 1 + shifts.below(8));
    let values = 1 + shifts.below((rows * columns).min(8));
    let mut digits: Vec<u8> = (1..=values as u8).collect();
    while digits.len() < (rows * columns) as usize {
        let place = shifts.below(digits.len() as u64 + 1) as usize;
        digits.insert(place, shifts.below(values + 1) as u8);
    }
    [vec![rows as u8, columns as u8, values as u8], digits].concat()
}

#[test]
fn random_pattern_files_follow_the_slow_rules() {
    let mut shifts = Shifts(0x00C0_FFEE_00C0_FFEE);
    let mut seen = [0; 25];
    for _ in 0..20_000 {
        let patterns: Vec<Vec<u8>> =
            (0..1 + shifts.below(4)).map(|_| any_pattern(&mut shifts)).collect();
        let parts: Vec<&[u8]> = patterns.iter().map(Vec::as_slice).collect();
        let mut file = pattern_bytes(&parts);
        assert_eq!(refusal(&file), 0);
        for _ in 0..shifts.below(3) {
            let at = shifts.below(file.len() as u64) as usize;
            match shifts.below(12) {
                0 => file.push(1),
                1 => file.truncate(at + 1),
                _ => file[at] = shifts.below(10) as u8,
            }
        }
        let expected = slow_refusal(&file);
        assert_eq!(refusal(&file), expected);
        seen[expected as usize] += 1;
    }
    assert!(seen[0] > 1000 && seen[23] > 1000 && seen[24] > 1000);
}

#[test]
fn random_patterns_give_their_tables() {
    let elements = [1, 2, 3, 4, 6, 8, 9, 12, 13, 16, 18];
    let mut shifts = Shifts(0x7AB1_E5EE_D7AB_1E55);
    for _ in 0..3000 {
        let patterns: Vec<Vec<u8>> =
            (0..1 + shifts.below(32)).map(|_| any_pattern(&mut shifts)).collect();
        let parts: Vec<&[u8]> = patterns.iter().map(Vec::as_slice).collect();
        let which = shifts.below(parts.len() as u64) as usize;
        let [rows, columns, count, digits @ ..] = parts[which] else { unreachable!() };
        let values = &shifts.picks(&elements)[..usize::from(*count)];
        let z = &shifts.picks(&elements)[..usize::from(*rows)];
        // The digit 0 stands for 1, and the others count from 1.
        let named = [&[1], values].concat();
        let table: Vec<u32> = digits.iter().map(|d| named[usize::from(*d)]).collect();
        let table: Vec<&[u32]> = table.chunks(usize::from(*columns)).collect();
        let expected = exponent(23, 11, 11, &table, z).bytes();
        let answer = made(&pattern_bytes(&parts), which as u32 + 1, values, z);
        assert_eq!(answer, Ok(expected));
    }
}
