//! The calculator pages A to K.

use judge::*;

use crate::tools::*;

/// Commits and responds in a new session.
fn honest(sheet: &[u8], nonce: &[u32], c: u32, x: &[u32]) -> Round {
    let (t, session) = commit(sheet, Prover::new(), &eight(nonce));
    let (r, _) = respond(sheet, session, c, &eight(x));
    Round { commitment: t.unwrap(), challenge: c, response: r.unwrap() }
}

#[test]
fn page_a_schnorr() {
    let sheet = page_a();
    let made = honest(&sheet, &[5], 3, &[7]);
    assert_eq!(made, round(&[9], 3, &[4]));
    assert_eq!(judge(&sheet, &made), Verdict::Accepted);
}

#[test]
fn page_b_extraction() {
    let sheet = page_a();
    let (one, other) = (round(&[9], 3, &[4]), round(&[9], 1, &[1]));
    assert_eq!(extract(&sheet, &one, &other), Ok(eight(&[7])));
    assert_eq!(extract(&sheet, &other, &one), Ok(eight(&[7])));
}

#[test]
fn page_c_simulation() {
    assert_eq!(simulate(&page_a(), 3, &eight(&[0])), Ok(eight(&[2])));
}

#[test]
fn page_d_two_witnesses_one_round() {
    let sheet = exponent(23, 11, 11, &[&[2, 3]], &[18]).bytes();
    let expected = round(&[1], 1, &[1, 2]);
    assert_eq!(honest(&sheet, &[0, 0], 1, &[1, 2]), expected);
    assert_eq!(honest(&sheet, &[6, 2], 1, &[6, 0]), expected);
    assert_eq!(judge(&sheet, &expected), Verdict::Accepted);
}

#[test]
fn page_e_diffie_hellman() {
    let mut sheet = [0; 36];
    assert_eq!(make(4, 23, 11, 11, &[2, 16], &[13, 18], &mut sheet), Ok(36));
    let made = honest(&sheet, &[5], 3, &[7]);
    assert_eq!(made, round(&[9, 6], 3, &[4]));
    assert_eq!(judge(&sheet, &made), Verdict::Accepted);
}

#[test]
fn page_f_product() {
    let mut sheet = [0; 52];
    let made = make(5, 23, 11, 11, &[2, 3, 3], &[12, 9], &mut sheet);
    assert_eq!(made, Ok(52));
    // The commitment of a nonce is its image.
    let (image, session) = commit(&sheet, Prover::new(), &eight(&[2, 1, 0]));
    assert_eq!(image, Ok(eight(&[12, 9])));
    // The same triple is a witness of (12, 9).
    let (response, _) = respond(&sheet, session, 1, &eight(&[2, 1, 0]));
    assert_eq!(response, Ok(eight(&[4, 2, 0])));
}

#[test]
fn page_g_root() {
    let sheet = page_g();
    assert_eq!(honest(&sheet, &[3], 1, &[2]), round(&[33], 1, &[6]));
    assert_eq!(honest(&sheet, &[3], 3, &[2]), round(&[33], 3, &[24]));
}

#[test]
fn page_h_root_extraction() {
    let sheet = page_g();
    let (one, other) = (round(&[33], 1, &[6]), round(&[33], 3, &[24]));
    assert_eq!(extract(&sheet, &one, &other), Ok(eight(&[2])));
    assert_eq!(extract(&sheet, &other, &one), Ok(eight(&[2])));
}

#[test]
fn page_i_challenge_counts() {
    let refusal = |m, q, k, entry, z| {
        let sheet = exponent(m, q, k, &[&[entry]], &[z]).bytes();
        load(&sheet).err()
    };
    assert_eq!(refusal(23, 11, 11, 2, 13), None);
    assert_eq!(refusal(23, 11, 12, 2, 13), Some(8));
    assert_eq!(refusal(31, 15, 3, 1, 1), None);
    assert_eq!(refusal(31, 15, 4, 1, 1), Some(8));
}

#[test]
fn page_j_elements_and_slots() {
    let sheet = page_a();
    let verdict = |t, r| judge(&sheet, &round(&[t], 0, &[r]));
    assert_eq!(verdict(5, 0), Verdict::Refused(14));
    assert_eq!(verdict(9, 10), rejected(&[0]));
    assert_eq!(verdict(9, 11), Verdict::Refused(16));
}

#[test]
fn page_k_rows() {
    for (rows, expected) in [(8, None), (9, Some(7))] {
        let table: Vec<&[u32]> = vec![&[2]; rows];
        let sheet = exponent(23, 11, 11, &table, &vec![13; rows]).bytes();
        assert_eq!(load(&sheet).err(), expected);
        let sheet = root(35, 5, 5, &vec![32; rows]).bytes();
        assert_eq!(load(&sheet).err(), expected);
    }
}

#[test]
fn page_k_rounds() {
    let sheet = page_a();
    let most = file(512, &[9, 3, 4].repeat(512));
    assert_eq!(count(&sheet, &most), Ok(512));
    for number in 0..512 {
        assert_eq!(read(&sheet, &most, number), Ok(round(&[9], 3, &[4])));
        assert_eq!(check(&sheet, &most, number), 0);
    }
    assert_eq!(read(&sheet, &most, 512), Err(13));
    let more = file(513, &[9, 3, 4].repeat(513));
    assert_eq!(count(&sheet, &more), Err(12));
    assert_eq!(read(&sheet, &more, 0), Err(12));
    assert_eq!(check(&sheet, &more, 0), 12);
    assert!(part(&sheet, &more, 0).is_empty());
}
