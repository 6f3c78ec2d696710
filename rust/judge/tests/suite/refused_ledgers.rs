//! Refusals 5, 6, 8, 10, 37, 35, 36 and 14 to 16 of the ledger's two calls.

use judge::ledger::*;

use crate::ledgers::*;

/// The refusal of the checker, 0 where there is none.
fn checked(base: &Base, ledger: &Ledger) -> u32 {
    check(base, ledger).err().unwrap_or(0)
}

/// The refusal of the writer, 0 where there is none.
fn written(base: &Base, wishes: &Wishes) -> u32 {
    write(base, wishes).err().unwrap_or(0)
}

/// The refusals of both calls for a base, with no lines and with one line.
fn of_base(base: &Base) -> u32 {
    let number = checked(base, &ledger(&[]));
    assert_eq!(checked(base, &ledger(&[committed(1)])), number);
    assert_eq!(written(base, &wishes(&[])), number);
    assert_eq!(written(base, &wishes(&[value(0, 1)])), number);
    number
}

#[test]
fn bounds_of_5() {
    for (modulus, number) in [(0, 5), (1, 5), (2, 5), (3, 0), (4, 0), (u32::MAX, 0)] {
        assert_eq!(of_base(&base([1, 1, modulus, 11, 11])), number);
    }
}

#[test]
fn bounds_of_6() {
    for (order, number) in [(0, 6), (1, 6), (2, 0), (3, 0), (u32::MAX, 0)] {
        assert_eq!(of_base(&base([1, 1, 23, order, 2])), number);
    }
}

#[test]
fn bounds_of_8() {
    for q in 2..40_u32 {
        let smallest = (2..=q).find(|d| q % *d == 0).unwrap();
        for k in 0..45 {
            let good = 2 <= k && k <= smallest;
            let number = if good { 0 } else { 8 };
            assert_eq!(of_base(&base([1, 1, 23, q, k])), number);
        }
    }
    let prime = 4_294_967_291;
    for (k, number) in [(65_536, 0), (65_537, 8), (u32::MAX, 8)] {
        assert_eq!(of_base(&base([1, 1, 23, prime, k])), number);
    }
}

#[test]
fn bounds_of_10() {
    let elements = [1, 2, 3, 4, 6, 8, 9, 12, 13, 16, 18];
    for v in (0..50).chain([u32::MAX - 22, u32::MAX]) {
        let number = if elements.contains(&v) { 0 } else { 10 };
        assert_eq!(of_base(&base([v, 3, 23, 11, 11])), number);
        assert_eq!(of_base(&base([2, v, 23, 11, 11])), number);
    }
    // A composite m: the elements of order 3 or 1 mod 9 are 1, 4 and 7.
    for v in 0..20 {
        let number = if [1, 4, 7].contains(&v) { 0 } else { 10 };
        assert_eq!(of_base(&base([v, 4, 9, 3, 3])), number);
        assert_eq!(of_base(&base([7, v, 9, 3, 3])), number);
    }
}

#[test]
fn bounds_of_37() {
    let full = [committed(1); 64];
    let wished = [value(0, 0); 64];
    let counts = [0, 1, 63, 64, 65, 66, 128, 256, 257, 320, 65_536, 65_600];
    for count in counts.into_iter().chain([1 << 31, u32::MAX]) {
        let number = if count <= 64 { 0 } else { 37 };
        let mut lines = ledger(&full);
        lines.count = count;
        assert_eq!(checked(&page_base(), &lines), number);
        let mut list = wishes(&wished);
        list.count = count;
        assert_eq!(written(&page_base(), &list), number);
    }
}

#[test]
fn bounds_of_35() {
    for place in [0, 1, 31, 62, 63] {
        for kind in [0, 1, 4, 5, 255, 256, 257, 258, 259, 1 << 31, u32::MAX] {
            let number = if kind == 1 { 0 } else { 35 };
            let mut lines = ledger(&[committed(1); 64]);
            lines.lines[place].kind = kind;
            assert_eq!(checked(&page_base(), &lines), number);
            let mut list = wishes(&[value(0, 0); 64]);
            list.entries[place].kind = kind;
            assert_eq!(written(&page_base(), &list), number);
            // The line is beyond the count.
            lines.count = place as u32;
            list.count = place as u32;
            assert_eq!(checked(&page_base(), &lines), 0);
            assert_eq!(written(&page_base(), &list), 0);
        }
    }
}

#[test]
fn bounds_of_36() {
    for place in [0, 1, 2, 31, 62, 63] {
        for line in (0..70).chain([256, 1 << 31, u32::MAX]) {
            let number = if line < place { 0 } else { 36 };
            // With the other line as 0, which is above all but line 0.
            for pair in [[line, 0], [0, line], [line, line]] {
                let [first, second] = pair;
                let mut lines = ledger(&[committed(1); 64]);
                let mut list = wishes(&[value(0, 0); 64]);
                let at = place as usize;
                lines.lines[at] = sum(first, second);
                list.entries[at] = sum_of(first, second);
                assert_eq!(checked(&page_base(), &lines), number);
                assert_eq!(written(&page_base(), &list), number);
                lines.lines[at] = product(pair, 1, ([1, 1], 0, [0; 3]));
                list.entries[at] = product_of(pair, 0, [0; 3], 0);
                assert_eq!(checked(&page_base(), &lines), number);
                assert_eq!(written(&page_base(), &list), number);
                // A commitment uses no other line.
                lines.lines[at].kind = 1;
                list.entries[at].kind = 1;
                assert_eq!(checked(&page_base(), &lines), 0);
                assert_eq!(written(&page_base(), &list), 0);
            }
        }
    }
}

#[test]
fn bounds_of_14() {
    let elements = [1, 2, 3, 4, 6, 8, 9, 12, 13, 16, 18];
    for v in (0..50).chain([u32::MAX - 22, u32::MAX]) {
        let number = if elements.contains(&v) { 0 } else { 14 };
        let changed = |change: &dyn Fn(&mut [Line; 64])| {
            let mut lines = page_ledger();
            change(&mut lines.lines);
            checked(&page_base(), &lines)
        };
        // The commitments of A, B and E, also where no product uses them.
        assert_eq!(changed(&|lines| lines[0].commitment = v), number);
        assert_eq!(changed(&|lines| lines[1].commitment = v), number);
        assert_eq!(changed(&|lines| lines[3].commitment = v), number);
        assert_eq!(checked(&page_base(), &ledger(&[committed(v)])), number);
        assert_eq!(changed(&|lines| lines[3].t[0] = v), number);
        assert_eq!(changed(&|lines| lines[3].t[1] = v), number);
        // Those that are not read.
        assert_eq!(changed(&|lines| lines[2].commitment = v), 0);
        assert_eq!(changed(&|lines| lines[0].t = [v; 2]), 0);
        assert_eq!(changed(&|lines| lines[2].t = [v; 2]), 0);
        assert_eq!(changed(&|lines| lines[4].commitment = v), 0);
    }
}

#[test]
fn bounds_of_15() {
    // K is q on the page, and below q with K 5.
    for k in [5, 11] {
        let base = base([2, 3, 23, 11, k]);
        for c in (0..30).chain([65_536, 1 << 31, u32::MAX]) {
            let number = if c < k { 0 } else { 15 };
            let mut lines = page_ledger();
            lines.lines[3].challenge = c;
            assert_eq!(checked(&base, &lines), number);
            let mut list = page_wishes();
            list.entries[3].challenge = c;
            assert_eq!(written(&base, &list), number);
            // A challenge of another kind is not read.
            for place in [0, 2, 4] {
                let mut lines = page_ledger();
                lines.lines[place].challenge = c;
                assert_eq!(checked(&base, &lines), 0);
                let mut list = page_wishes();
                list.entries[place].challenge = c;
                assert_eq!(written(&base, &list), 0);
            }
        }
    }
}

#[test]
fn bounds_of_16() {
    // q is below m on the page. With q 33 it is above m, and K is 3.
    for (q, k) in [(11, 11), (33, 3)] {
        let base = base([2, 3, 23, q, k]);
        let mut list = page_wishes();
        list.entries[3].challenge = 2;
        let mut lines = page_ledger();
        lines.lines[3].challenge = 2;
        for v in (0..40).chain([1 << 31, u32::MAX]) {
            let number = if v < q { 0 } else { 16 };
            for slot in 0..3 {
                let mut other = lines;
                other.lines[3].response[slot] = v;
                assert_eq!(checked(&base, &other), number);
                let mut other = list;
                other.entries[3].nonce[slot] = v;
                assert_eq!(written(&base, &other), number);
                // Those that are not read.
                for place in [0, 2, 4] {
                    let mut other = lines;
                    other.lines[place].response[slot] = v;
                    assert_eq!(checked(&base, &other), 0);
                    let mut other = list;
                    other.entries[place].nonce[slot] = v;
                    assert_eq!(written(&base, &other), 0);
                }
            }
            for (place, reads_value, reads_rho) in [
                (0, true, true),
                (1, true, true),
                (2, false, false),
                (3, false, true),
                (4, false, false),
            ] {
                let mut other = list;
                other.entries[place].value = v;
                let expected = if reads_value { number } else { 0 };
                assert_eq!(written(&base, &other), expected);
                let mut other = list;
                other.entries[place].blinding = v;
                let expected = if reads_rho { number } else { 0 };
                assert_eq!(written(&base, &other), expected);
            }
        }
    }
}

/// A way to break one rule in a base, in a line and in its wish.
type Flaw = (u32, fn(&mut Base, &mut Ledger, &mut Wishes, usize));

/// The flaws in the order of their numbers. A line's flaw is made in the product
/// line with this number.
fn flaws() -> Vec<Flaw> {
    vec![
        (5, |base, _, _, _| base.modulus = 2),
        (6, |base, _, _, _| base.order = 1),
        (8, |base, _, _, _| base.challenges = 12),
        (10, |base, _, _, _| base.g = 5),
        (37, |_, lines, list, _| {
            lines.count = 65;
            list.count = 65;
        }),
        (35, |_, lines, list, at| {
            lines.lines[at].kind = 4;
            list.entries[at].kind = 4;
        }),
        (36, |_, lines, list, at| {
            lines.lines[at].second = at as u32;
            list.entries[at].second = at as u32;
        }),
        (14, |_, lines, _, at| lines.lines[at].t[1] = 5),
        (14, |_, lines, _, at| lines.lines[at].commitment = 22),
        (15, |_, lines, list, at| {
            lines.lines[at].challenge = 11;
            list.entries[at].challenge = 11;
        }),
        (16, |_, lines, list, at| {
            lines.lines[at].response[2] = 11;
            list.entries[at].nonce[2] = 11;
        }),
        (16, |_, lines, list, at| {
            lines.lines[at].response[0] = 11;
            list.entries[at].blinding = 11;
        }),
    ]
}

/// The page with its product three times, as the lines 3 to 5.
fn three_products() -> (Base, Ledger, Wishes) {
    let (mut lines, mut list) = (page_ledger(), page_wishes());
    for at in 3..6 {
        lines.lines[at] = lines.lines[3];
        list.entries[at] = list.entries[3];
    }
    (lines.count, list.count) = (6, 6);
    (page_base(), lines, list)
}

#[test]
fn each_flaw_alone_and_each_two_in_order() {
    let flaws = flaws();
    for (later, (higher, break_higher)) in flaws.iter().enumerate() {
        for (lower, break_lower) in &flaws[..=later] {
            for first in 3..6 {
                for second in 3..6 {
                    let (mut base, mut lines, mut list) = three_products();
                    assert_eq!(checked(&base, &lines), 0);
                    assert_eq!(written(&base, &list), 0);
                    break_higher(&mut base, &mut lines, &mut list, first);
                    break_lower(&mut base, &mut lines, &mut list, second);
                    assert_eq!(checked(&base, &lines), *lower);
                    // The writer is given no group elements but g and h.
                    let expected = match (*lower, *higher) {
                        (14, 14) => 0,
                        (14, other) => other,
                        (number, _) => number,
                    };
                    assert_eq!(written(&base, &list), expected);
                }
            }
        }
    }
}

#[test]
fn all_flaws_mended_one_by_one() {
    let flaws = flaws();
    for from in 0..flaws.len() {
        let (mut base, mut lines, mut list) = three_products();
        for (place, (_, break_it)) in flaws[from..].iter().enumerate() {
            break_it(&mut base, &mut lines, &mut list, 3 + place % 3);
        }
        assert_eq!(checked(&base, &lines), flaws[from].0);
        let brought: Vec<u32> = flaws[from..].iter().map(|flaw| flaw.0).collect();
        let first = brought.iter().find(|number| **number != 14);
        assert_eq!(written(&base, &list), *first.unwrap());
    }
}

#[test]
fn a_refusal_stands_before_a_rejection() {
    let (base, mut lines, _) = three_products();
    lines.lines[3].response[0] = 0;
    assert_eq!(check(&base, &lines), Ok(Checked::Rejected { line: 3 }));
    for (number, break_it) in flaws() {
        for at in 3..6 {
            let (mut base, _, mut list) = three_products();
            let mut lines = lines;
            break_it(&mut base, &mut lines, &mut list, at);
            assert_eq!(check(&base, &lines), Err(number));
        }
    }
}

#[test]
fn commitments_and_rounds_are_one_rule_over_all_lines() {
    // A commitment after a product: its 14 stands before the product's 15 and
    // 16, and a value's 16 after a later challenge's 15.
    let mut lines = three_products().1;
    lines.lines[3].challenge = 11;
    lines.lines[3].response[0] = 11;
    lines.lines[5] = committed(5);
    assert_eq!(checked(&page_base(), &lines), 14);
    lines.lines[5] = committed(2);
    assert_eq!(checked(&page_base(), &lines), 15);
    lines.lines[3].challenge = 10;
    assert_eq!(checked(&page_base(), &lines), 16);
    let mut list = three_products().2;
    list.entries[0].value = 11;
    list.entries[5].challenge = 11;
    assert_eq!(written(&page_base(), &list), 15);
    list.entries[5].challenge = 10;
    assert_eq!(written(&page_base(), &list), 16);
}
