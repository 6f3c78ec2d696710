//! A ledger computes on commitments.

use dimkhoros::{
    Base, Checked, Entries, Instance, Ledger, LedgerParts, Line, LineParts, MOST_LINES, Product,
    Refusal, Round, Rows, Verdict, places,
};

const BASE: Base = Base { g: 2, h: 3, modulus: 23, order: 11, challenges: 11 };

/// The same with an order that is not prime.
const COMPOSITE: Base = Base { g: 4, h: 9, modulus: 143, order: 30, challenges: 2 };

/// The entries of the worked page: 2, 3, their sum, and their product by a round with this challenge.
fn page(challenge: u32) -> Entries {
    let mut entries = Entries::new();
    entries.commitment(2, 1).unwrap();
    entries.commitment(3, 0).unwrap();
    entries.sum(0, 1).unwrap();
    entries.product(0, 1, 4, [1, 2, 3], challenge).unwrap();
    entries
}

/// Entries of all 64 lines: commitments, sums of sums, products of products, and lines that are named twice.
fn full(base: &Base) -> Entries {
    let mut entries = Entries::new();
    entries.commitment(5 % base.order, 1).unwrap();
    for i in 1..MOST_LINES {
        let below = |number: usize| number as u32 % base.order;
        match i % 4 {
            0 => entries.commitment(below(3 * i), below(i + 2)).unwrap(),
            1 => entries.sum(i - 1, i / 2).unwrap(),
            2 => {
                let nonce = [below(i), below(i + 1), below(7 * i)];
                let challenge = i as u32 % base.challenges;
                entries.product(i - 1, i / 3, below(5 * i), nonce, challenge).unwrap()
            }
            _ => entries.product(i - 1, i - 1, below(i), [below(2 * i), 0, 1], 1).unwrap(),
        };
    }
    entries
}

/// a^e modulo m.
fn power(a: u32, e: u32, m: u32) -> u64 {
    (0..e).fold(1, |product, _| product * u64::from(a) % u64::from(m))
}

/// The commitment to a value with a blinding number.
fn committed(base: &Base, value: u32, blinding: u32) -> u32 {
    let product = power(base.g, value, base.modulus) * power(base.h, blinding, base.modulus);
    (product % u64::from(base.modulus)) as u32
}

#[test]
fn the_worked_page() {
    let ledger = Ledger::write(&BASE, &page(3)).unwrap();
    let product = |challenge, response| Line::Product {
        first: 0,
        second: 1,
        commitment: 9,
        t: [18, 9],
        challenge,
        response,
    };
    let above = [
        Line::Commitment { commitment: 12 },
        Line::Commitment { commitment: 8 },
        Line::Sum { first: 0, second: 1 },
    ];
    assert!(ledger.lines().eq(above.into_iter().chain([product(3, [7, 5, 4])])));
    assert_eq!(ledger.commitments().unwrap()[..5], [12, 8, 4, 9, 0]);
    assert_eq!(ledger.check(), Ok(Checked::Accepted));
    let other = Ledger::write(&BASE, &page(5)).unwrap();
    assert_eq!(other.lines().nth(3), Some(product(5, [0, 7, 1])));

    let first = ledger.product(3).unwrap().unwrap();
    let second = other.product(3).unwrap().unwrap();
    assert_eq!(first.instance, second.instance);
    for (one, two) in [(first.round, second.round), (second.round, first.round)] {
        assert_eq!(first.instance.extract(&one, &two), Ok(places([2, 1, 4])));
    }
}

/// A page whose factors have other values and blinding numbers, and a line that is multiplied by itself.
#[test]
fn a_page_with_unequal_factors() {
    let mut entries = Entries::new();
    entries.commitment(2, 1).unwrap();
    entries.commitment(5, 4).unwrap();
    entries.sum(0, 1).unwrap();
    entries.product(2, 0, 6, [3, 4, 5], 7).unwrap();
    entries.product(1, 1, 0, [1, 0, 2], 3).unwrap();
    let ledger = Ledger::write(&BASE, &entries).unwrap();
    assert_eq!(ledger.commitments().unwrap()[..5], [12, 16, 8, 13, 8]);
    let rounds = [([4, 16], 7, [8, 6, 9]), ([2, 6], 3, [5, 1, 8])];
    let found = ledger.lines().filter_map(|line| match line {
        Line::Product { t, challenge, response, .. } => Some((t, challenge, response)),
        _ => None,
    });
    assert!(found.eq(rounds));
    assert_eq!(ledger.check(), Ok(Checked::Accepted));
    let mut lines: Vec<Line> = ledger.lines().collect();
    let Line::Product { first, second, .. } = &mut lines[3] else { panic!("no product") };
    (*first, *second) = (*second, *first);
    let exchanged = Ledger::from_lines(&BASE, &lines).unwrap();
    assert_eq!(exchanged.check(), Ok(Checked::Rejected { line: 3 }));
    let Product { instance, round } = ledger.product(3).unwrap().unwrap();
    let second = Round { challenge: 2, response: places([6, 3, 3]), ..round };
    assert_eq!(instance.extract(&round, &second), Ok(places([7, 5, 10])));
}

/// What is made is accepted, each product's round on its own sheet too, and its numbers are those of the lines.
#[test]
fn what_is_made_is_accepted() {
    for base in [BASE, COMPOSITE] {
        let ledger = Ledger::write(&base, &full(&base)).unwrap();
        assert_eq!(ledger.check(), Ok(Checked::Accepted));
        let commitments = ledger.commitments().unwrap();
        for (number, line) in ledger.lines().enumerate() {
            let found = ledger.product(number).unwrap();
            let Line::Product { first, second, commitment, .. } = line else {
                assert_eq!(found, None);
                continue;
            };
            let Product { instance, round } = found.unwrap();
            assert_eq!(instance.judge(&round), Ok(Verdict::Accepted));
            let values = instance.values();
            assert_eq!(values.entries[0], places([base.g, base.h, 1]));
            assert_eq!(values.entries[1], places([commitments[second], 1, base.h]));
            assert_eq!(values.statement, places([commitments[first], commitment]));
        }
        let lines: Vec<Line> = ledger.lines().collect();
        assert_eq!(Ledger::from_lines(&base, &lines), Ok(ledger.clone()));
        let (same, parts) = ledger.clone().into_parts();
        assert_eq!(Ledger::from_parts(same, parts), ledger);
        assert_eq!(ledger.base(), &base);
    }
}

/// A sum of sums commits to the sum of all values, and a product to the product modulo q.
#[test]
fn commitments_are_those_of_the_values() {
    for base in [BASE, COMPOSITE] {
        let q = base.order;
        let mut entries = Entries::new();
        let a = entries.commitment(q - 1, q - 2).unwrap();
        let b = entries.commitment(7, 5).unwrap();
        let sum = entries.sum(a, b).unwrap();
        let twice = entries.sum(sum, sum).unwrap();
        let product = entries.product(twice, b, 3, [q - 1; 3], 1).unwrap();
        entries.product(product, product, 9, [0; 3], 0).unwrap();
        let found = Ledger::write(&base, &entries).unwrap().commitments().unwrap();
        let value = 12 % q * 7 % q;
        let expected =
            [(q - 1, q - 2), (7, 5), (6, 3), (12 % q, 6), (value, 3), (value * value % q, 9)];
        for (number, (value, blinding)) in expected.into_iter().enumerate() {
            assert_eq!(found[number], committed(&base, value, blinding), "line {number}");
        }
        assert_eq!(found[6..], [0; 58]);
    }
}

/// The extracted numbers open the first factor, and with an opening of the second they open the product.
#[test]
fn two_challenges_open_a_product() {
    for base in [BASE, COMPOSITE] {
        for (b, beta) in [(0, 0), (3, 0), (7, 5), (base.order - 1, base.order - 1)] {
            let product = |challenge| {
                let mut entries = Entries::new();
                entries.commitment(6, 2).unwrap();
                entries.commitment(b, beta).unwrap();
                entries.product(0, 1, 4, [1, 2, 3], challenge).unwrap();
                Ledger::write(&base, &entries).unwrap().product(2).unwrap().unwrap()
            };
            let (one, two) = (product(0), product(1));
            let [x, alpha, delta, ..] = one.instance.extract(&one.round, &two.round).unwrap();
            assert_eq!((x, alpha), (6, 2));
            let opened = committed(&base, x * b % base.order, (x * beta + delta) % base.order);
            assert_eq!(one.instance.values().statement, places([committed(&base, 6, 2), opened]));
        }
    }
}

/// The worked page's ledger with a line changed.
fn changed(change: impl Fn(&mut LedgerParts)) -> Result<Checked, Refusal> {
    let (base, mut parts) = Ledger::write(&BASE, &page(3)).unwrap().into_parts();
    change(&mut parts);
    let ledger = Ledger::from_parts(base, parts);
    let checked = ledger.check();
    match checked {
        Err(refusal) => {
            assert_eq!(ledger.commitments(), Err(refusal));
            assert_eq!(ledger.product(3), Err(refusal));
        }
        Ok(checked) => {
            let Some(product) = ledger.product(3).unwrap() else {
                return Ok(checked);
            };
            let verdict = product.instance.judge(&product.round).unwrap();
            assert_eq!(verdict.is_accepted(), checked.is_accepted());
        }
    }
    checked
}

#[test]
fn the_first_rejected_product_is_named() {
    let rejected = |line| Ok(Checked::Rejected { line });
    assert_eq!(changed(|parts| parts.lines[3].response[2] = 5), rejected(3));
    assert_eq!(changed(|parts| parts.lines[3].challenge = 4), rejected(3));
    assert_eq!(changed(|parts| parts.lines[3].first = 1), rejected(3));
    let (base, mut parts) = Ledger::write(&BASE, &full(&BASE)).unwrap().into_parts();
    for line in [62, 31, 11, 3] {
        parts.lines[line].t[1] = if parts.lines[line].t[1] == 2 { 3 } else { 2 };
        assert_eq!(Ledger::from_parts(base, parts).check(), rejected(line));
    }
}

#[test]
fn what_is_checked_is_refused_by_number() {
    let refused = |change: fn(&mut LedgerParts)| changed(change).unwrap_err();
    assert_eq!(refused(|parts| parts.count = 65), Refusal::LedgerSize);
    assert_eq!(refused(|parts| parts.count = u32::MAX), Refusal::LedgerSize);
    assert_eq!(refused(|parts| parts.lines[3].kind = 4), Refusal::LineKind);
    assert_eq!(refused(|parts| parts.lines[0].kind = 0), Refusal::LineKind);
    assert_eq!(refused(|parts| parts.lines[2].second = 2), Refusal::LineNotAbove);
    assert_eq!(refused(|parts| parts.lines[3].first = u32::MAX), Refusal::LineNotAbove);
    assert_eq!(refused(|parts| parts.lines[1].commitment = 5), Refusal::Commitment);
    assert_eq!(refused(|parts| parts.lines[3].t[1] = 23), Refusal::Commitment);
    assert_eq!(refused(|parts| parts.lines[3].challenge = 11), Refusal::Challenge);
    assert_eq!(refused(|parts| parts.lines[3].response[2] = 11), Refusal::Coordinate);
}

/// A number is asked of all lines before the next, and all before a round is judged.
#[test]
fn the_number_that_stands_first_is_given() {
    let both = |one: fn(&mut LedgerParts), other: fn(&mut LedgerParts)| {
        changed(|parts| {
            one(parts);
            other(parts);
        })
    };
    let kind = |parts: &mut LedgerParts| parts.lines[3].kind = 9;
    let above = |parts: &mut LedgerParts| parts.lines[2].first = 2;
    let outside = |parts: &mut LedgerParts| parts.lines[0].commitment = 0;
    let rejected = |parts: &mut LedgerParts| parts.lines[3].response[0] = 8;
    let large = |parts: &mut LedgerParts| parts.lines[3].response[1] = 99;
    assert_eq!(both(kind, |parts| parts.count = 65), Err(Refusal::LedgerSize));
    assert_eq!(both(above, kind), Err(Refusal::LineKind));
    assert_eq!(both(outside, above), Err(Refusal::LineNotAbove));
    assert_eq!(both(large, outside), Err(Refusal::Commitment));
    assert_eq!(both(large, |parts| parts.lines[3].challenge = 11), Err(Refusal::Challenge));
    assert_eq!(both(rejected, large), Err(Refusal::Coordinate));
    let late = |parts: &mut LedgerParts| {
        parts.lines[4] = LineParts { kind: 1, ..LineParts::default() };
        parts.count = 5;
    };
    assert_eq!(both(rejected, late), Err(Refusal::Commitment));
}

#[test]
fn a_base_that_is_none_is_refused() {
    let bases = [
        (Base { modulus: 2, ..BASE }, Refusal::Modulus),
        (Base { order: 1, ..BASE }, Refusal::Order),
        (Base { challenges: 12, ..BASE }, Refusal::Challenges),
        (Base { g: 5, ..BASE }, Refusal::Entry),
        (Base { h: 23, ..BASE }, Refusal::Entry),
    ];
    for (base, refusal) in bases {
        assert_eq!(Ledger::write(&base, &page(3)), Err(refusal));
        assert_eq!(Ledger::from_lines(&base, &[]).unwrap().check(), Err(refusal));
    }
}

#[test]
fn what_is_made_is_refused_by_number() {
    let refused = |change: fn(&mut Entries)| {
        let mut entries = page(3);
        change(&mut entries);
        Ledger::write(&BASE, &entries).unwrap_err()
    };
    assert_eq!(refused(|entries| _ = entries.commitment(11, 0)), Refusal::Coordinate);
    assert_eq!(refused(|entries| _ = entries.commitment(0, 11)), Refusal::Coordinate);
    assert_eq!(refused(|entries| _ = entries.product(0, 0, 11, [0; 3], 0)), Refusal::Coordinate);
    for place in 0..3 {
        let mut nonce = [0; 3];
        nonce[place] = 11;
        let mut entries = page(3);
        entries.product(0, 0, 0, nonce, 0).unwrap();
        assert_eq!(Ledger::write(&BASE, &entries), Err(Refusal::Coordinate));
    }
    let both = |entries: &mut Entries| {
        entries.commitment(11, 0).unwrap();
        entries.product(0, 0, 0, [0; 3], 11).unwrap();
    };
    assert_eq!(refused(both), Refusal::Challenge);
}

/// A line is taken only if there is room for it and what it names is above. One that is not taken leaves the entries as they were.
#[test]
fn entries_name_lines_above() {
    let mut entries = page(3);
    let before = entries.clone();
    for (first, second) in [(4, 0), (0, 4), (usize::MAX, 0), (1 << 32, 1)] {
        assert_eq!(entries.sum(first, second), Err(Refusal::LineNotAbove));
        assert_eq!(entries.product(first, second, 0, [0; 3], 0), Err(Refusal::LineNotAbove));
    }
    assert_eq!(entries, before);
    assert_eq!((entries.len(), entries.sum(3, 3)), (4, Ok(4)));
    let mut entries = full(&BASE);
    let before = entries.clone();
    assert_eq!(entries.commitment(0, 0), Err(Refusal::LedgerSize));
    assert_eq!(entries.sum(0, 0), Err(Refusal::LedgerSize));
    assert_eq!(entries.product(64, 0, 0, [0; 3], 0), Err(Refusal::LedgerSize));
    assert_eq!((entries.len(), entries), (64, before));
}

/// A ledger that is received may name lines by any numbers: none is cut to one that is above.
#[test]
fn numbers_of_lines_are_not_cut() {
    let two = Line::Commitment { commitment: 12 };
    for second in [1, 1 << 32, usize::MAX] {
        let ledger = Ledger::from_lines(&BASE, &[two, Line::Sum { first: 0, second }]).unwrap();
        assert_eq!(ledger.check(), Err(Refusal::LineNotAbove));
    }
    let unknown = Ledger::from_lines(&BASE, &[Line::Unknown { kind: 4 }]).unwrap();
    assert_eq!(unknown.check(), Err(Refusal::LineKind));
    assert_eq!(Ledger::from_lines(&BASE, &[two; 65]), Err(Refusal::LedgerSize));
    assert_eq!(Ledger::from_lines(&BASE, &[two; 64]).unwrap().check(), Ok(Checked::Accepted));
}

/// What is not read plays no part.
#[test]
fn unused_numbers_are_not_read() {
    let (base, made) = Ledger::write(&BASE, &page(3)).unwrap().into_parts();
    let mut odd = made;
    odd.lines[0] = LineParts { kind: 1, commitment: 12, first: 77, ..made.lines[3] };
    odd.lines[2] = LineParts { kind: 2, commitment: 0, challenge: 99, ..made.lines[2] };
    odd.lines[4..].fill(LineParts { kind: 55, ..made.lines[3] });
    let odd = Ledger::from_parts(base, odd);
    assert_eq!(odd.check(), Ok(Checked::Accepted));
    assert_eq!(odd.commitments().unwrap()[..5], [12, 8, 4, 9, 0]);
    assert!(odd.lines().eq(Ledger::from_parts(base, made).lines()));
    assert_eq!(made.lines[4..], [LineParts::default(); 60]);
}

/// A rejected round tells its rows on its own sheet.
#[test]
fn a_rejected_product_has_its_rows() {
    let (base, mut parts) = Ledger::write(&BASE, &page(3)).unwrap().into_parts();
    parts.lines[3].response[2] = 5;
    let product = Ledger::from_parts(base, parts).product(3).unwrap().unwrap();
    let verdict = product.instance.judge(&product.round);
    assert_eq!(verdict, Ok(Verdict::Rejected { rows: Rows::from_mask(2) }));
    assert_eq!(Instance::load(product.instance.bytes()), Ok(product.instance));
}

#[test]
fn entries_are_shown_without_their_numbers() {
    let mut entries = Entries::new();
    entries.commitment(1_234_567, 7_654_321).unwrap();
    assert_eq!(format!("{entries:?}"), "Entries { lines: 1, .. }");
    let ledger = Ledger::from_lines(&BASE, &[Line::Commitment { commitment: 12 }]).unwrap();
    let base = "Base { g: 2, h: 3, modulus: 23, order: 11, challenges: 11 }";
    let expected =
        format!("Ledger {{ base: {base}, lines: [Commitment {{ commitment: 12 }}], .. }}");
    assert_eq!(format!("{ledger:?}"), expected);
}
