//! Peggy as a team, with numbers worked by hand and over all choices.

use judge::*;

use crate::naive::*;
use crate::tools::*;

/// Both calls on one by one sheets, with other numbers in all places that are
/// not read. Each player is given as image, commitment and response.
fn joined(sheet: &[u8], players: &[[u32; 3]]) -> (Result<[u32; 8], u32>, Result<[u32; 8], u32>) {
    let column = |which: usize, rest| {
        let values: Vec<[u32; 1]> = players.iter().map(|player| [player[which]]).collect();
        let rows: Vec<&[u32]> = values.iter().map(|value| &value[..]).collect();
        rows_with(&rows, rest)
    };
    let count = players.len() as u64;
    let images = column(0, u32::MAX);
    (
        multiply_commitments(sheet, count, &images, &column(1, 0)),
        join_responses(sheet, count, &images, &column(2, u32::MAX)),
    )
}

/// The answers t and r of both calls.
fn given(t: u32, r: u32) -> (Result<[u32; 8], u32>, Result<[u32; 8], u32>) {
    (Ok(eight(&[t])), Ok(eight(&[r])))
}

#[test]
fn two_players_make_the_round_of_page_a() {
    // The parts 3 and 4 have the images 8 and 16. With the nonces 2 and 3 and
    // c 3 the players send (4, 0) and (8, 4).
    let players = [[8, 4, 0], [16, 8, 4]];
    assert_eq!(joined(&page_a(), &players), given(9, 4));
    // With the nonces 8 and 8 the sums pass q.
    let players = [[8, 3, 6], [16, 3, 9]];
    assert_eq!(joined(&page_a(), &players), given(9, 4));
    // A player may hold nothing.
    let players = [[13, 9, 4], [1, 1, 0]];
    assert_eq!(joined(&page_a(), &players), given(9, 4));
}

#[test]
fn more_players_make_it_too() {
    // The parts 10, 10 and 9 add up to 7 mod 11. The nonces are 10, 10 and 7
    // and c is 3.
    let players = [[12, 12, 7], [12, 12, 7], [6, 13, 1]];
    assert_eq!(joined(&page_a(), &players), given(9, 4));
    // Seven parts are 1 and one is 0. The nonces are 1, and so is c.
    let mut players = [[2, 2, 2]; 8];
    players[5] = [1, 2, 1];
    assert_eq!(joined(&page_a(), &players), given(3, 4));
}

#[test]
fn two_players_make_the_round_of_page_g() {
    // The parts 3 and 24 have the images 33 and 19. With the nonces 3 and 1
    // and c 1 the players send (33, 9) and (1, 24).
    let players = [[33, 33, 9], [19, 1, 24]];
    assert_eq!(joined(&page_g(), &players), given(33, 6));
}

#[test]
fn rows_and_columns_are_joined_each_for_itself() {
    // The witness (1, 2) of page D with a second row, as (0, 5) and (1, 8).
    let sheet = exponent(23, 11, 11, &[&[2, 3], &[3, 2]], &[18, 12]).bytes();
    let images = rows_with(&[&[13, 9], &[12, 9]], 7);
    let commitments = rows_with(&[&[2, 3], &[3, 4]], 7);
    let answer = multiply_commitments(&sheet, 2, &images, &commitments);
    assert_eq!(answer, Ok(eight(&[6, 12])));
    let responses = rows_with(&[&[10, 3], &[10, 4]], 99);
    let answer = join_responses(&sheet, 2, &images, &responses);
    assert_eq!(answer, Ok(eight(&[9, 7])));
    // Two roots: (3, 2) and (24, 1) are joined to (2, 2).
    let sheet = root(35, 5, 5, &[32, 32]).bytes();
    let images = rows_with(&[&[33, 32], &[19, 1]], 7);
    let responses = rows_with(&[&[34, 2], &[34, 3]], 7);
    let answer = join_responses(&sheet, 2, &images, &responses);
    assert_eq!(answer, Ok(eight(&[1, 6])));
    let answer = multiply_commitments(&sheet, 2, &images, &responses);
    assert_eq!(answer, Ok(eight(&[1, 6])));
}

#[test]
fn one_rejected_part_spoils_the_whole_and_two_may_not() {
    let sheet = page_a();
    let verdict = |players: [[u32; 3]; 2]| {
        let (t, r) = joined(&sheet, &players);
        let whole = Round { commitment: t.unwrap(), challenge: 3, response: r.unwrap() };
        judge(&sheet, &whole)
    };
    assert_eq!(verdict([[8, 4, 0], [16, 8, 4]]), Verdict::Accepted);
    assert_eq!(verdict([[8, 4, 1], [16, 8, 4]]), rejected(&[0]));
    assert_eq!(verdict([[8, 4, 0], [16, 9, 4]]), rejected(&[0]));
    // Here each part is rejected, and the two flaws make up for each other.
    assert_eq!(verdict([[8, 4, 1], [16, 8, 3]]), Verdict::Accepted);
}

#[test]
fn wide_numbers_are_joined() {
    let m = u32::MAX;
    let sheet = root(m, 4_294_967_291, 65_536, &[1; 8]).bytes();
    let most = [[m - 1; 8]; 8];
    for count in [2, 4, 6, 8] {
        let answer = multiply_commitments(&sheet, count, &most, &most);
        assert_eq!(answer, Ok([1; 8]));
        assert_eq!(join_responses(&sheet, count, &most, &most), Ok([1; 8]));
    }
    let answer = multiply_commitments(&sheet, 3, &most, &most);
    assert_eq!(answer, Err(28));
    // The largest slots of the largest q: each is −1, and 1 has every order.
    let q = u32::MAX;
    let sheet = exponent(3, q, 3, &[&[1; 8]], &[1]).bytes();
    let (ones, slots) = ([[1; 8]; 8], [[q - 1; 8]; 8]);
    for count in 2..=8 {
        let answer = join_responses(&sheet, count, &ones, &slots);
        assert_eq!(answer, Ok([q - count as u32; 8]));
    }
}

/// Tries every two parts, two nonces and challenge on a sheet of this kind.
/// The parts' images give the statements.
fn two_players(raw: &Raw) {
    let sheet = load(&raw.bytes()).unwrap();
    let domain = choices(&slots(&sheet), sheet.columns as usize);
    let stated = |z: &[u32; 8]| {
        let mut raw = raw.clone();
        let entries = raw.words.len() - sheet.rows as usize;
        raw.words[entries..].copy_from_slice(&z[..sheet.rows as usize]);
        raw.bytes()
    };
    let honest = |bytes: &[u8], x: &[u32; 8], k: &[u32; 8], c| {
        let (t, session) = commit(bytes, Prover::new(), k);
        (t.unwrap(), respond(bytes, session, c, x).0.unwrap())
    };
    for x in &domain {
        for y in &domain {
            let both = slow_joined(&sheet, &[*x, *y]);
            let whole = stated(&slow_image(&sheet, &both));
            let mut images = [[99; 8]; 8];
            images[0] = slow_image(&sheet, x);
            images[1] = slow_image(&sheet, y);
            let [first, second] = [stated(&images[0]), stated(&images[1])];
            for (k, l) in domain.iter().zip(domain.iter().rev()) {
                for c in 0..sheet.challenges {
                    let mut t = [[0; 8]; 8];
                    let mut r = [[99; 8]; 8];
                    (t[0], r[0]) = honest(&first, x, k, c);
                    (t[1], r[1]) = honest(&second, y, l, c);
                    let alone = honest(&whole, &both, &slow_joined(&sheet, &[*k, *l]), c);
                    let t = multiply_commitments(&whole, 2, &images, &t);
                    let r = join_responses(&whole, 2, &images, &r);
                    assert_eq!((t, r), (Ok(alone.0), Ok(alone.1)));
                }
            }
        }
    }
}

#[test]
fn two_players_send_what_one_peggy_sends() {
    two_players(&exponent(23, 11, 11, &[&[2]], &[13]));
    two_players(&exponent(7, 3, 3, &[&[2, 4], &[4, 1]], &[2, 4]));
    two_players(&exponent(31, 15, 3, &[&[2]], &[16]));
    two_players(&root(35, 5, 5, &[32]));
    two_players(&root(9, 3, 3, &[8]));
}
