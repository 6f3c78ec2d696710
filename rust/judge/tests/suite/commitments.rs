//! Equal commitments in two records of one file.

use judge::*;

use crate::random::{bytes, small};
use crate::tools::*;

/// Two rows and one column.
fn tall() -> Vec<u8> {
    exponent(23, 11, 11, &[&[2], &[16]], &[13, 18]).bytes()
}

#[test]
fn commitments_of_page_a() {
    // The rounds of 01's example. The first three have the commitment 9.
    let rounds = file(4, &[9, 3, 4, 9, 1, 1, 9, 1, 2, 5, 0, 0]);
    let same = |first, second| same_commitment(&page_a(), &rounds, first, second);
    for first in 0..4 {
        for second in 0..4 {
            let expected = (first == 3) == (second == 3);
            assert_eq!(same(first, second), Ok(expected));
        }
    }
    assert_eq!(same(0, 4), Err(13));
    assert_eq!(same(4, 0), Err(13));
    assert_eq!(same(4, 4), Err(13));
    // Only the low 32 bits, or the low 8, of these are numbers of rounds.
    assert_eq!(same(0, 1 << 32), Err(13));
    assert_eq!(same(256, 0), Err(13));
    assert_eq!(same(u64::MAX, u64::MAX), Err(13));
}

#[test]
fn every_bit_of_every_row_counts() {
    for rows in 1..=8_usize {
        let table: Vec<&[u32]> = vec![&[2]; rows];
        let sheet = exponent(23, 11, 11, &table, &vec![13; rows]).bytes();
        let record = [vec![0x5A5A_5A5A; rows], vec![3, 4]].concat();
        for bit in 0..32 * (rows + 2) {
            let mut other = record.clone();
            other[bit / 32] ^= 1 << (bit % 32);
            let rounds = file(3, &[record.clone(), other, record.clone()].concat());
            let expected = bit >= 32 * rows;
            for (first, second) in [(0, 1), (1, 0), (1, 2), (2, 1)] {
                let same = same_commitment(&sheet, &rounds, first, second);
                assert_eq!(same, Ok(expected));
            }
            assert_eq!(same_commitment(&sheet, &rounds, 0, 2), Ok(true));
            assert_eq!(same_commitment(&sheet, &rounds, 1, 1), Ok(true));
        }
    }
}

#[test]
fn two_changed_words_do_not_mend_each_other() {
    let same = |one: [u32; 2], other: [u32; 2]| {
        let words = [one[0], one[1], 3, 4, other[0], other[1], 3, 4];
        same_commitment(&tall(), &file(2, &words), 0, 1)
    };
    assert_eq!(same([1, 2], [1, 2]), Ok(true));
    // The words are the same ones in another order, or with the same sum,
    // the same bits set or the same difference.
    assert_eq!(same([1, 2], [2, 1]), Ok(false));
    assert_eq!(same([1, 4], [2, 3]), Ok(false));
    assert_eq!(same([1, 3], [3, 1]), Ok(false));
    assert_eq!(same([0, 0], [7, 7]), Ok(false));
    assert_eq!(same([0x0102_0304, 0], [0x0403_0201, 0]), Ok(false));
    assert_eq!(same([0, 1 << 31], [0, 0]), Ok(false));
    // The values are not tested.
    assert_eq!(same([u32::MAX, 0], [u32::MAX, 0]), Ok(true));
}

#[test]
fn numbers_are_refused_in_order() {
    let good = file(2, &[9, 3, 4, 9, 1, 1]);
    // A bad sheet comes before a bad file, and that before a bad number.
    let mut sheet = page_a();
    sheet[27] = 5;
    assert_eq!(same_commitment(&sheet, &[], 9, 9), Err(11));
    assert_eq!(same_commitment(&sheet[..27], &[], 9, 9), Err(9));
    assert_eq!(same_commitment(&[], &[], 9, 9), Err(2));
    let sheet = page_a();
    for bad in [&[][..], &good[..6], &good[..30], &good[1..]] {
        assert_eq!(same_commitment(&sheet, bad, 0, 1), Err(12));
        assert_eq!(same_commitment(&sheet, bad, 9, 9), Err(12));
    }
    let mut other = good.clone();
    // Version 2 has shorter records, and there is no version 3.
    for version in [0, 2, 3] {
        other[4] = version;
        assert_eq!(same_commitment(&sheet, &other, 0, 1), Err(12));
    }
    // The records are those of another sheet.
    assert_eq!(same_commitment(&tall(), &good, 0, 1), Err(12));
    for (first, second) in [(0, 2), (2, 0), (1, 2), (2, 2), (3, 3)] {
        assert_eq!(same_commitment(&sheet, &good, first, second), Err(13));
    }
    assert_eq!(same_commitment(&sheet, &file(0, &[]), 0, 0), Err(13));
}

#[test]
fn the_last_of_512_rounds_is_reached() {
    let mut words: Vec<u32> = (0..512).flat_map(|t| [t, 0, 0]).collect();
    words[3 * 511] = 17;
    let rounds = file(512, &words);
    for number in 0..512 {
        let same = same_commitment(&page_a(), &rounds, number, 511);
        assert_eq!(same, Ok(number == 17 || number == 511));
    }
    assert_eq!(same_commitment(&page_a(), &rounds, 0, 512), Err(13));
}

#[test]
fn random_records_agree_as_their_values_do() {
    let mut shifts = Shifts(0x3A1E_3A1E_3A1E_3A1F);
    let mut met = [0; 2];
    for _ in 0..4000 {
        let (sheet, values) = small(&mut shifts);
        let length = (values.rows + values.columns + 1) as usize;
        let count = 1 + shifts.below(4);
        // Few words are picked from, and so some commitments are equal.
        let words = [[0, 1], [5, 0x0500_0000]][shifts.below(2) as usize];
        let words: Vec<u32> = (0..length * count as usize).map(|_| shifts.pick(&words)).collect();
        let rounds = file(count as u16, &words);
        for first in 0..count {
            for second in 0..count {
                let [one, other] = [first, second].map(|n| read(&sheet, &rounds, n).unwrap());
                let same = one.commitment == other.commitment;
                let answer = same_commitment(&sheet, &rounds, first, second);
                assert_eq!(answer, Ok(same));
                met[usize::from(same && first != second)] += 1;
            }
        }
    }
    assert!(met[0] > 1000 && met[1] > 1000);
}

#[test]
fn any_bytes_are_refused_as_the_check_says() {
    let mut shifts = Shifts(0x7A1E_7A1E_7A1E_7A1F);
    for _ in 0..20_000 {
        let (sheet, rounds) = (bytes(&mut shifts), bytes(&mut shifts));
        let [first, second] = [0; 2].map(|_| shifts.below(5));
        let checks = [first, second].map(|number| check(&sheet, &rounds, number));
        let refusal = checks.into_iter().find(|number| *number > 0);
        let answer = same_commitment(&sheet, &rounds, first, second);
        assert_eq!(answer.err(), refusal);
        if first == second && refusal.is_none() {
            assert_eq!(answer, Ok(true));
        }
    }
}
