//! The command `ledger` on the shipped text and on random ones: what it says that lines open to are openings, and what others see
//! is accepted too.

use crate::desk::Desk;
use crate::generator::Random;
use std::fmt::Write;
use std::fs;
use std::path::Path;

/// What all lines of a text share.
#[derive(Clone, Copy)]
struct Base {
    g: u64,
    h: u64,
    modulus: u64,
    order: u64,
    challenges: u64,
}

const BASES: [Base; 4] = [
    Base { g: 2, h: 3, modulus: 23, order: 11, challenges: 11 },
    Base { g: 4, h: 9, modulus: 143, order: 30, challenges: 2 },
    Base { g: 1, h: 2, modulus: 3, order: 2, challenges: 2 },
    Base { g: 7, h: 49, modulus: 2_147_483_647, order: 2_147_483_646, challenges: 2 },
];

/// A text of some lines over a base. Every third line is a commitment, a sum or a product.
fn text(base: &Base, lines: usize, random: &mut Random) -> String {
    let Base { g, h, modulus, order, challenges } = base;
    let mut text = format!("g={g} h={h} m={modulus} q={order} K={challenges}\n");
    for line in 0..lines {
        let mut below = |bound: u64| random.below(bound as usize);
        let (v, b, c) = (below(*order), below(*order), below(*challenges));
        let k: Vec<String> = (0..3).map(|_| below(*order).to_string()).collect();
        let [first, second] = [below(line.max(1) as u64), below(line.max(1) as u64)];
        let _ = match line % 3 {
            0 => writeln!(text, "commitment v={v} b={b}"),
            1 => writeln!(text, "sum {first} {second}"),
            _ => writeln!(text, "product {first} {second} b={b} k={} c={c}", k.join(",")),
        };
    }
    text
}

/// a^e modulo m.
fn power(a: u64, mut e: u64, m: u64) -> u64 {
    let (mut rest, mut square) = (1 % m, a % m);
    while e > 0 {
        rest = if e % 2 == 1 { rest * square % m } else { rest };
        square = square * square % m;
        e /= 2;
    }
    rest
}

/// The rows of a table that is printed: their words, of which the pair of lines is left out.
fn rows(printed: &str) -> Vec<Vec<&str>> {
    let rows = printed.lines().skip(3).take_while(|line| !line.is_empty());
    rows.map(|row| row.split_whitespace().collect()).collect()
}

/// In each row the commitment is that to the value with the blinding number.
fn are_openings(base: &Base, printed: &str) {
    for row in rows(printed) {
        let place = if row[1] == "commitment" { 2 } else { 4 };
        let [v, b, c] = [0, 1, 2].map(|next| row[place + next].parse::<u64>().unwrap());
        let committed = power(base.g, v, base.modulus) * power(base.h, b, base.modulus);
        assert_eq!(committed % base.modulus, c, "{row:?} in\n{printed}");
    }
}

#[test]
fn lines_open_to_what_the_table_says_and_others_accept_them() {
    let desk = Desk::new("ledgers");
    for case in 0..24 {
        let mut random = Random::of_case(3, case);
        let (base, lines) = (BASES[case % BASES.len()], [1, 3, 12, 64][case / BASES.len() % 4]);
        fs::write(desk.folder.join("lines.txt"), text(&base, lines, &mut random)).unwrap();
        let printed = desk.print("dimkhoros ledger lines.txt");
        assert!(printed.ends_with("; accepted\n"), "{printed}");
        assert_eq!(rows(&printed).len(), lines);
        are_openings(&base, &printed);
        let public = desk.print("dimkhoros ledger lines.txt --public > public.txt; cat public.txt");
        assert!(!public.contains("v=") && !public.contains("k="), "{public}");
        let seen = desk.print("dimkhoros ledger public.txt");
        assert_eq!(seen.lines().last(), printed.lines().last());
        if lines > 2 {
            let c: u64 = rows(&printed)[2][9].parse().unwrap();
            let other = (c + 1) % base.challenges;
            let worked = desk.print(&format!("dimkhoros ledger lines.txt extract=2 c={other}"));
            assert!(worked.contains("\n7. And line "), "{worked}");
        }
    }
}

#[test]
fn the_shipped_text_is_accepted() {
    let desk = Desk::new("shipped ledger");
    let shipped = Path::new(env!("CARGO_MANIFEST_DIR")).join("../../share/ledger.txt");
    let printed = desk.print(&format!("dimkhoros ledger {}", shipped.display()));
    assert!(
        printed.ends_with("\n5 lines: 3 commitments, 1 sum, 1 product; accepted\n"),
        "{printed}"
    );
    are_openings(&BASES[0], &printed);
}
