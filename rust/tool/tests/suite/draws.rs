//! What the system's generator draws: witnesses, nonces and challenges.

use crate::desk::Desk;
use std::collections::BTreeSet;

/// The witness at the end of what `make` prints.
fn witness(printed: &str) -> &str {
    printed.trim_end().rsplit_once("x = ").unwrap_or_else(|| panic!("{printed}")).1
}

#[test]
fn a_witness_that_is_drawn_is_one() {
    let desk = Desk::new("drawn witnesses");
    let sheets = [
        "schnorr m=65267 q=32633 h=3",
        "okamoto m=65267 q=32633 h=3,4",
        "root m=64507 e=257",
        "table=1,2/2,3 m=23 q=11",
    ];
    for sheet in sheets {
        let make = format!("dimkhoros make {sheet} x=random -o sheet.bin --force");
        let mut drawn = BTreeSet::new();
        for _ in 0..20 {
            let printed = desk.print(&make);
            let x = witness(&printed).trim_matches(['(', ')']).replace(", ", ",");
            let checked = desk.print(&format!("dimkhoros check sheet.bin x={x}"));
            assert!(checked.contains("is the statement"), "{printed}{checked}");
            drawn.insert(x);
        }
        assert!(drawn.len() > 5, "{sheet} draws {drawn:?}");
    }
    let both = desk.print("dimkhoros make schnorr m=23 q=11 h=2 x=random z=13 -o both.bin");
    assert!(both.contains("x=random and z= are both there") && both.ends_with("[2]\n"), "{both}");
}

#[test]
fn rounds_that_are_drawn_are_accepted_and_differ() {
    let desk = Desk::new("drawn rounds");
    desk.print("dimkhoros make schnorr m=4294967087 q=2147483543 h=2 x=7 -o sheet.bin");
    let made = desk.print("dimkhoros rounds make sheet.bin x=7 --draw 20 -o rounds.bin");
    assert_eq!(made, "rounds.bin has 20 rounds (247 bytes)\n");
    let listed = desk.print("dimkhoros rounds list sheet.bin rounds.bin");
    let rounds: BTreeSet<&str> = listed.lines().skip(1).collect();
    assert_eq!(rounds.len(), 20, "{listed}");
    assert!(rounds.iter().all(|round| round.ends_with("accepted")), "{listed}");
    let column = |place: usize| -> BTreeSet<&str> {
        rounds.iter().filter_map(|round| round.split_whitespace().nth(place)).collect()
    };
    assert!(column(1).len() > 15 && column(2).len() > 15, "{listed}");
}

#[test]
fn wrong_words_beside_draw_are_told() {
    let desk = Desk::new("wrong draws");
    desk.print("dimkhoros make schnorr m=23 q=11 h=2 x=7 -o sheet.bin");
    for words in
        ["x=7 --draw 0", "x=7 --draw 513", "x=7 --draw many", "--draw 3", "x=7 k=1 --draw 3"]
    {
        let printed = desk.print(&format!("dimkhoros rounds make sheet.bin {words} -o rounds.bin"));
        assert!(printed.ends_with("[2]\n"), "{words}: {printed}");
    }
    let refused = desk.print("dimkhoros rounds make sheet.bin x=8 --draw 3 -o rounds.bin");
    assert!(refused.contains("(17)"), "{refused}");
}
