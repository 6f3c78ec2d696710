//! Peggy against Vic: which challenges a commitment answers, and how.

use judge::*;

use crate::naive::*;
use crate::tools::*;

/// The text on a sheet of s rows and n columns and this one t. It is the same
/// in both versions of the file, whatever the round's c and r are.
pub fn named(raw: &Raw, t: &[u32]) -> String {
    let (s, n) = (usize::from(raw.rows), usize::from(raw.columns));
    assert_eq!(t.len(), s);
    let mut texts = Vec::new();
    for (c, r) in [(0, 0), (65_535, u32::MAX), (1, 7)] {
        let words = [t, &[c], &[r; 8][..n]].concat();
        texts.push(game(&raw.bytes(), &file(1, &words)));
        texts.push(game(&raw.bytes(), &narrow(1, (s, n), &words)));
    }
    assert!(texts.iter().all(|text| *text == texts[0]));
    texts.swap_remove(0)
}

/// The text that has a line for each challenge below this count, with what the
/// function gives for it.
pub fn lines(challenges: u32, response: impl Fn(u32) -> Vec<u32>) -> String {
    let mut text = String::new();
    for c in 0..challenges {
        let mut words = vec![c];
        words.extend(response(c));
        let words: Vec<String> = words.iter().map(u32::to_string).collect();
        text += &(words.join(" ") + "\n");
    }
    text
}

fn sheet_a() -> Raw {
    exponent(23, 11, 11, &[&[2]], &[13])
}

#[test]
fn page_a_answers_every_challenge() {
    let text = "0 5\n1 1\n2 8\n3 4\n4 0\n5 7\n6 3\n7 10\n8 6\n9 2\n10 9\n";
    assert_eq!(named(&sheet_a(), &[9]), text);
    // The nonce of every other t is its one choice too.
    for k in 0..11 {
        let expected = lines(11, |c| vec![(k + 7 * c) % 11]);
        assert_eq!(named(&sheet_a(), &[slow_power(2, k, 23)]), expected);
    }
}

#[test]
fn the_papers_example_has_the_text_of_its_round_0() {
    let words = [9, 3, 4, 9, 1, 1, 9, 1, 2, 5, 0, 0];
    let text = lines(11, |c| vec![(5 + 7 * c) % 11]);
    assert_eq!(game(&page_a(), &file(4, &words)), text);
    assert_eq!(game(&page_a(), &narrow(4, (1, 1), &words)), text);
    // The fourth round's t is no element, and it is not looked at above.
    assert_eq!(game(&page_a(), &file(1, &words[9..])), "refused 14\n");
    // A challenge of more than 16 bits in version 1.
    assert_eq!(game(&page_a(), &file(1, &[9, u32::MAX, 11])), text);
}

#[test]
fn a_count_below_the_order_has_fewer_lines() {
    for k in 2..=11 {
        let sheet = exponent(23, 11, k, &[&[2]], &[13]);
        let text = lines(k, |c| vec![(5 + 7 * c) % 11]);
        assert_eq!(named(&sheet, &[9]), text);
    }
}

#[test]
fn page_d_has_the_smallest_of_eleven_responses() {
    // 3 is 2^8 and 18 is 2^6, so (0, 9) carries to 18. So do (1, 2) and (6, 0).
    let sheet = exponent(23, 11, 11, &[&[2, 3]], &[18]);
    let text = named(&sheet, &[1]);
    assert_eq!(text, lines(11, |c| vec![0, 9 * c % 11]));
    assert!(text.starts_with("0 0 0\n1 0 9\n2 0 7\n"));
}

#[test]
fn page_e_answers_all_or_none() {
    let sheet = exponent(23, 11, 11, &[&[2], &[16]], &[13, 18]);
    assert_eq!(named(&sheet, &[9, 6]), lines(11, |c| vec![(5 + 7 * c) % 11]));
    // Row 0 alone would be answered.
    assert_eq!(named(&sheet, &[9, 1]), "none\n");
    assert_eq!(named(&sheet, &[1, 6]), "none\n");
}

#[test]
fn page_f_has_the_smallest_of_eleven_triples() {
    // 12 is 2^10 and 9 is 2^5. The first slot is free and so 0. Then 3^4 is 12
    // and 3^2 is 9.
    let sheet = exponent(23, 11, 11, &[&[2, 3, 1], &[3, 1, 3]], &[12, 9]);
    let text = lines(11, |c| vec![0, 4 * (1 + c) % 11, 2 * (1 + c) % 11]);
    assert_eq!(named(&sheet, &[12, 9]), text);
    assert!(text.starts_with("0 0 4 2\n1 0 8 4\n"));
}

#[test]
fn page_g_answers_every_challenge() {
    let text = "0 3\n1 6\n2 12\n3 24\n4 13\n";
    assert_eq!(named(&root(35, 5, 5, &[32]), &[33]), text);
}

#[test]
fn the_first_slot_leads() {
    // One of the two columns is free.
    let sheet = exponent(23, 11, 11, &[&[2, 1]], &[13]);
    assert_eq!(named(&sheet, &[9]), lines(11, |c| vec![(5 + 7 * c) % 11, 0]));
    let sheet = exponent(23, 11, 11, &[&[1, 2]], &[13]);
    assert_eq!(named(&sheet, &[9]), lines(11, |c| vec![0, (5 + 7 * c) % 11]));
    // Eight columns of order 2, and only the last one counts.
    let sheet = exponent(3, 2, 2, &[&[1, 1, 1, 1, 1, 1, 1, 2]], &[2]);
    let text = "0 0 0 0 0 0 0 0 1\n1 0 0 0 0 0 0 0 0\n";
    assert_eq!(named(&sheet, &[2]), text);
    // Only the first one counts.
    let sheet = exponent(3, 2, 2, &[&[2, 1, 1, 1, 1, 1, 1, 1]], &[2]);
    let text = "0 1 0 0 0 0 0 0 0\n1 0 0 0 0 0 0 0 0\n";
    assert_eq!(named(&sheet, &[2]), text);
}

#[test]
fn the_smallest_is_by_number_and_not_by_digits() {
    // The cubes mod 13: 4, 10 and 12 give 12, and 7, 8 and 11 give 5.
    let sheet = root(13, 3, 3, &[12]);
    assert_eq!(named(&sheet, &[1]), "0 1\n1 4\n2 1\n");
    assert_eq!(named(&sheet, &[5]), "0 7\n1 2\n2 7\n");
}

#[test]
fn many_responses_and_one_witness_class() {
    // The eleventh powers mod 23 are 1 and 22, and 5 is the first to give 22.
    let sheet = root(23, 11, 11, &[1]);
    assert_eq!(named(&sheet, &[1]), lines(11, |_| vec![1]));
    assert_eq!(named(&sheet, &[22]), lines(11, |_| vec![5]));
    for t in 2..22 {
        assert_eq!(named(&sheet, &[t]), "none\n");
    }
}

#[test]
fn without_a_witness_at_most_one_challenge_is_answered() {
    // The cubes mod 9 are 1 and 8, and 2 is none.
    let sheet = root(9, 3, 3, &[2]);
    let texts = [1, 2, 4, 5, 7, 8].map(|t| named(&sheet, &[t]));
    let expected = ["0 1\n", "2 2\n", "1 2\n", "1 1\n", "2 1\n", "0 2\n"];
    assert_eq!(texts, expected);
    // With two challenges some t answer none.
    let sheet = root(9, 3, 2, &[2]);
    let texts = [1, 2, 4, 5, 7, 8].map(|t| named(&sheet, &[t]));
    let expected = ["0 1\n", "none\n", "1 2\n", "1 1\n", "none\n", "0 2\n"];
    assert_eq!(texts, expected);
    // Two rows that want 7 and 3.
    let sheet = exponent(23, 11, 11, &[&[2], &[16]], &[13, 2]);
    assert_eq!(named(&sheet, &[1, 1]), "0 0\n");
    assert_eq!(named(&sheet, &[9, 6]), "0 5\n");
    assert_eq!(named(&sheet, &[2, 1]), "8 2\n");
    let sheet = exponent(23, 11, 8, &[&[2], &[16]], &[13, 2]);
    assert_eq!(named(&sheet, &[2, 1]), "none\n");
    let sheet = exponent(23, 11, 9, &[&[2], &[16]], &[13, 2]);
    assert_eq!(named(&sheet, &[2, 1]), "8 2\n");
}

#[test]
fn a_witness_does_not_help_a_t_that_is_no_image() {
    let sheet = root(9, 3, 3, &[8]);
    assert_eq!(named(&sheet, &[1]), "0 1\n1 2\n2 1\n");
    for t in [2, 4, 5, 7] {
        assert_eq!(named(&sheet, &[t]), "none\n");
    }
    // 2 has order 5 mod 31. 5 has order 3 and is an element too.
    let sheet = exponent(31, 15, 3, &[&[2]], &[16]);
    assert_eq!(named(&sheet, &[1]), "0 0\n1 4\n2 3\n");
    assert_eq!(named(&sheet, &[5]), "none\n");
}

/// Whether this text shows every challenge.
fn answers_all(text: &str, challenges: u32) -> bool {
    text.lines().count() == challenges as usize && text != "none\n"
}

/// What the card wants shown, over every t, on a sheet that has this many
/// witnesses.
fn whole(raw: Raw, witness_count: usize) {
    let bytes = raw.bytes();
    let sheet = load(&bytes).unwrap();
    let domain = choices(&slots(&sheet), sheet.columns as usize);
    let is_witness = |x: &&[u32; 8]| slow_image(&sheet, x) == sheet.statement;
    assert_eq!(domain.iter().filter(is_witness).count(), witness_count);
    let mut answered_all = false;
    for t in choices(&elements(&sheet), sheet.rows as usize) {
        let mut expected = String::new();
        for c in 0..sheet.challenges {
            let accepts = |r: &&[u32; 8]| judge(&bytes, &round(&t, c, *r)) == Verdict::Accepted;
            // Arrays compare by the first place in which they differ.
            if let Some(r) = domain.iter().filter(accepts).min() {
                let slots: Vec<String> =
                    r[..sheet.columns as usize].iter().map(u32::to_string).collect();
                expected += &format!("{c} {}\n", slots.join(" "));
            }
        }
        let count = expected.lines().count();
        if expected.is_empty() {
            expected += "none\n";
        }
        let text = named(&raw, &t[..sheet.rows as usize]);
        assert_eq!(text, expected);
        match witness_count {
            0 => assert!(count <= 1),
            _ => assert!(count == 0 || answers_all(&text, sheet.challenges)),
        }
        answered_all |= answers_all(&text, sheet.challenges);
    }
    assert_eq!(answered_all, witness_count > 0);
}

#[test]
fn one_base_over_every_t() {
    whole(sheet_a(), 1);
    whole(exponent(11, 5, 3, &[&[3, 4]], &[9]), 5);
    whole(exponent(31, 15, 3, &[&[2]], &[16]), 3);
    whole(exponent(31, 15, 3, &[&[2]], &[25]), 0);
}

#[test]
fn two_rows_over_every_t() {
    whole(exponent(11, 5, 5, &[&[3], &[4]], &[9, 5]), 1);
    whole(exponent(11, 5, 5, &[&[3], &[4]], &[9, 3]), 0);
    whole(exponent(7, 3, 3, &[&[2, 4], &[4, 2]], &[2, 2]), 0);
    whole(exponent(8, 4, 2, &[&[3]], &[5]), 0);
}

#[test]
fn one_root_over_every_t() {
    whole(root(35, 5, 5, &[32]), 1);
    whole(root(23, 11, 11, &[1]), 11);
    whole(root(23, 11, 11, &[5]), 0);
    whole(root(35, 4, 2, &[1]), 8);
    whole(root(35, 4, 2, &[2]), 0);
}
