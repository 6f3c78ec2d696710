//! The level: refusal 25, and how many accepted rounds make a pass.

use judge::*;

use crate::naive::slow_product;
use crate::random::small;
use crate::tools::*;

/// A sheet with this K, from 2 to 65,536, and with the witness 2. No d from 2
/// to 65,536 divides 65,537.
fn sheet_with(challenges: u32) -> Vec<u8> {
    root(35, 65_537, challenges, &[32]).bytes()
}

/// So many rounds, all accepted by the sheets above and by page G.
fn rounds(count: u16) -> Vec<u8> {
    file(count, &[33, 1, 6].repeat(usize::from(count)))
}

/// The marker's lines before the last for so many accepted rounds.
fn lines(count: u16) -> String {
    let mut lines = format!("rounds {count}\n");
    for number in 0..count {
        lines += &format!("{number} accepted\n");
    }
    lines
}

/// Whether so many accepted rounds pass with this K at this level.
fn passes(challenges: u32, count: u16, w: u8) -> bool {
    let text = marker(&sheet_with(challenges), &rounds(count), &[w]);
    let last = text.strip_prefix(&lines(count)).unwrap();
    assert!(last == "pass\n" || last == "fail\n");
    last == "pass\n"
}

#[test]
fn the_cards_numbers() {
    let (sheet, words) = (page_a(), [9, 3, 4, 9, 1, 1, 9, 3, 4]);
    // 121 is below 128, and 1331 is not.
    assert_eq!(
        marker(&sheet, &file(2, &words[..6]), &[7]),
        "rounds 2\n0 accepted\n1 accepted\nfail\n"
    );
    assert_eq!(
        marker(&sheet, &file(3, &words), &[7]),
        "rounds 3\n0 accepted\n1 accepted\n2 accepted\npass\n"
    );
    for (count, w, expected) in [(0, 7, false), (1, 7, false), (2, 6, true), (3, 10, true)] {
        assert_eq!(passes(11, count, w), expected);
    }
    assert!(!passes(11, 3, 11));
}

#[test]
fn a_product_of_exactly_2_to_the_w_passes() {
    assert!(passes(65_536, 4, 64));
    assert!(!passes(65_536, 3, 64));
    assert!(passes(65_536, 3, 48));
    assert!(!passes(65_536, 3, 49));
    assert!(passes(2, 1, 1));
    assert!(!passes(2, 1, 2));
    assert!(passes(16, 16, 64));
    // The next smaller K just misses what 65,536 just reaches.
    assert!(!passes(65_535, 4, 64));
    assert!(passes(65_535, 5, 64));
}

#[test]
fn the_least_k_takes_a_round_for_each_bit() {
    assert!(!passes(2, 63, 64));
    assert!(passes(2, 64, 64));
    assert!(passes(2, 63, 63));
    assert!(passes(2, 65, 64));
}

#[test]
fn a_product_far_above_64_bits_passes() {
    // 65,536 to the power of 512 is 2^8192.
    for w in [1, 16, 32, 63, 64] {
        assert!(passes(65_536, 512, w));
        assert!(passes(65_535, 512, w));
        assert!(passes(2, 512, w));
    }
    // Products whose lowest 64 or 128 bits are all 0.
    for count in [4, 5, 7, 8, 9, 16, 64] {
        assert!(passes(65_536, count, 64));
    }
    for count in [64, 127, 128, 129, 192, 256] {
        assert!(passes(2, count, 64));
    }
}

#[test]
fn the_fewest_rounds_at_every_level() {
    for k in [2, 3, 5, 11, 255, 256, 257, 4096, 65_535, 65_536] {
        for w in 1..=64_u8 {
            // At least 2^w means more than w bits.
            let enough = |count: &u16| slow_product(k, u32::from(*count)).len() > usize::from(w);
            let fewest = (0..=512).find(enough).unwrap();
            assert!(passes(k, fewest, w));
            assert!(!passes(k, fewest - 1, w));
        }
    }
}

#[test]
fn refusal_25_levels_that_are_not_one_byte_from_1_to_64() {
    let (sheet, file) = (page_g(), rounds(30));
    for value in 0..=255_u8 {
        let text = marker(&sheet, &file, &[value]);
        let good = (1..=64).contains(&value);
        assert_eq!(text.starts_with("rounds 30\n"), good);
        assert_eq!(text == "level 25\n", !good);
    }
    // A missing level file has no bytes.
    assert_eq!(marker(&sheet, &file, &[]), "level 25\n");
    for level in [[1, 1], [0, 7], [7, 0], [7, b'\n'], [64, 64], [0, 0]] {
        assert_eq!(marker(&sheet, &file, &level), "level 25\n");
    }
    // The byte is the number itself and no digit.
    assert_eq!(marker(&sheet, &file, b"64"), "level 25\n");
    assert_eq!(marker(&sheet, &file, &[1; 300]), "level 25\n");
}

#[test]
fn a_refused_sheet_or_file_comes_before_the_level() {
    let (sheet, file) = (page_a(), file(1, &[9, 3, 4]));
    let (bad_sheet, bad_file) = (&sheet[..27], &file[..18]);
    for level in [&[][..], &[0], &[65], &[7, 7], &[1]] {
        assert_eq!(marker(bad_sheet, bad_file, level), "sheet 9\n");
        assert_eq!(marker(bad_sheet, &file, level), "sheet 9\n");
        assert_eq!(marker(&sheet, bad_file, level), "file 12\n");
        assert_eq!(marker(&[], &[], level), "sheet 2\n");
        assert_eq!(marker(&sheet, &[], level), "file 12\n");
    }
    assert_eq!(marker(&sheet, &file, &[65]), "level 25\n");
    assert_eq!(marker(&sheet, &file, &[1]), "rounds 1\n0 accepted\npass\n");
}

#[test]
fn a_refused_level_comes_before_the_rounds() {
    let sheet = page_a();
    // No rounds, a rejected one and those that are 14, 15 and 16.
    let words: [&[u32]; 5] = [&[], &[9, 1, 2], &[5, 0, 0], &[9, 11, 4], &[9, 3, 11]];
    for words in words {
        let file = file((words.len() / 3) as u16, words);
        for level in [&[][..], &[0], &[65], &[1, 1]] {
            assert_eq!(marker(&sheet, &file, level), "level 25\n");
        }
    }
}

#[test]
fn one_bad_round_among_enough_accepted_ones_fails() {
    let sheet = page_a();
    let bad: [(&[u32; 3], &str); 4] = [
        (&[9, 1, 2], "rejected 0"),
        (&[5, 0, 0], "refused 14"),
        (&[9, 11, 4], "refused 15"),
        (&[9, 3, 11], "refused 16"),
    ];
    for (words, line) in bad {
        for place in 0..20_usize {
            let mut all = [9, 3, 4].repeat(20);
            all[3 * place..3 * place + 3].copy_from_slice(words);
            let mut expected = String::from("rounds 20\n");
            for number in 0..20 {
                let found = if number == place { line } else { "accepted" };
                expected += &format!("{number} {found}\n");
            }
            expected += "fail\n";
            for w in [1, 7, 64] {
                assert_eq!(marker(&sheet, &file(20, &all), &[w]), expected);
            }
        }
    }
    // Without the bad round the same count passes.
    let text = marker(&sheet, &file(20, &[9, 3, 4].repeat(20)), &[64]);
    assert!(text.ends_with("19 accepted\npass\n"));
}

#[test]
fn a_file_with_too_few_rounds_keeps_its_reason() {
    let (sheet, one, none) = (page_a(), file(1, &[9, 3, 4]), file(0, &[]));
    assert_eq!(marker(&sheet, &one, &[4]), "rounds 1\n0 accepted\nfail\n");
    assert_eq!(reason(&sheet, &one), "accepted\n");
    assert_eq!(marker(&sheet, &none, &[4]), "rounds 0\nfail\n");
    assert_eq!(reason(&sheet, &none), "refused 13 5\n");
}

#[test]
fn the_slow_product_is_the_power() {
    for k in 2..=20_u32 {
        for rounds in 0..=14 {
            let bits = slow_product(k, rounds);
            let number = bits.iter().rev().fold(0, |sum, bit| 2 * sum + u64::from(*bit));
            assert_eq!(number, u64::from(k).pow(rounds));
            assert_eq!(bits.last(), Some(&true));
        }
    }
    assert_eq!(slow_product(65_536, 512).len(), 8193);
}

#[test]
fn random_sheets_and_levels() {
    let mut shifts = Shifts(0x1E7E_11E7_E11E_7E13);
    let (mut passed, mut failed) = (0, 0);
    for _ in 0..2000 {
        let (bytes, sheet) = small(&mut shifts);
        let (s, n) = (sheet.rows as usize, sheet.columns as usize);
        // The response of ones is in range in both kinds.
        let c = shifts.below(u64::from(sheet.challenges)) as u32;
        let t = simulate(&bytes, c, &[1; 8]).unwrap();
        let record = [&t[..s], &[c], &[1; 8][..n]].concat();
        let count = shifts.below(70) as u16;
        let w = 1 + shifts.below(64) as u8;
        let text = marker(&bytes, &file(count, &record.repeat(count.into())), &[w]);
        let bits = slow_product(sheet.challenges, count.into()).len();
        let enough = bits > usize::from(w);
        let last = if enough { "pass\n" } else { "fail\n" };
        assert_eq!(text, lines(count) + last);
        passed += u32::from(enough);
        failed += u32::from(!enough);
    }
    assert!(passed > 300 && failed > 300);
}
