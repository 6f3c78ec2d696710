//! Random ledgers against the slow rules, round trips, extraction and wide
//! numbers.

use std::collections::BTreeSet;

use judge::ledger::*;
use judge::{Round, extract};

use crate::ledgers::*;
use crate::naive::*;
use crate::tools::*;

/// The numbers of both calls, in the order of the documents.
const ORDER: [u32; 10] = [5, 6, 8, 10, 37, 35, 36, 14, 15, 16];

/// Whether the slow rules call v a group element of the base.
fn is_element(base: &Base, v: u32) -> bool {
    slow_element(&header(base), v)
}

/// The first of these numbers in the order of the documents.
fn earliest(broken: &BTreeSet<u32>) -> Option<u32> {
    ORDER.into_iter().find(|number| broken.contains(number))
}

/// The rules that a base breaks. 10 is asked where 5 and 6 allow it.
fn slow_base(base: &Base) -> BTreeSet<u32> {
    let mut broken = BTreeSet::new();
    let (q, k) = (base.order, base.challenges);
    if base.modulus <= 2 {
        broken.insert(5);
    }
    if q <= 1 {
        broken.insert(6);
    }
    if k <= 1 || k > 65_536 || (2..k).any(|d| q % d == 0) {
        broken.insert(8);
    }
    if broken.is_empty() && !(is_element(base, base.g) && is_element(base, base.h)) {
        broken.insert(10);
    }
    broken
}

/// The rules that a line's kind and its two lines break.
fn slow_form(number: usize, kind: u32, first: u32, second: u32) -> BTreeSet<u32> {
    let mut broken = BTreeSet::new();
    match kind {
        1 => {}
        2 | 3 if first.max(second) as usize >= number => drop(broken.insert(36)),
        2 | 3 => {}
        _ => drop(broken.insert(35)),
    }
    broken
}

/// What the checker answers by the slow rules: all broken rules of all lines
/// are gathered, and the earliest is given.
fn slow_check(base: &Base, ledger: &Ledger) -> Result<Checked, u32> {
    let mut broken = slow_base(base);
    if let Some(number) = earliest(&broken) {
        return Err(number);
    }
    if ledger.count >= 65 {
        return Err(37);
    }
    let lines = &ledger.lines[..ledger.count as usize];
    for (number, line) in lines.iter().enumerate() {
        broken.extend(slow_form(number, line.kind, line.first, line.second));
        let (elements, slots) = match line.kind {
            1 => (vec![line.commitment], vec![]),
            3 => {
                let elements = vec![line.commitment, line.t[0], line.t[1]];
                if line.challenge > base.challenges - 1 {
                    broken.insert(15);
                }
                (elements, line.response.to_vec())
            }
            _ => (vec![], vec![]),
        };
        if elements.iter().any(|v| !is_element(base, *v)) {
            broken.insert(14);
        }
        if slots.iter().any(|slot| *slot > base.order - 1) {
            broken.insert(16);
        }
    }
    if let Some(number) = earliest(&broken) {
        return Err(number);
    }
    let all = slow_commitments(base, ledger);
    let rejects = |line: &Line| {
        let factors = [line.first, line.second].map(|place| all[place as usize]);
        let abe = [factors[0], factors[1], line.commitment];
        !slow_accepts(base, abe, line)
    };
    let rejected = lines.iter().position(|line| line.kind == 3 && rejects(line));
    Ok(match rejected {
        Some(number) => Checked::Rejected { line: number as u32 },
        None => Checked::Accepted,
    })
}

/// The opening of every wished line, as wide numbers below q.
fn slow_openings(base: &Base, wishes: &Wishes) -> Vec<[u64; 2]> {
    let q = u64::from(base.order);
    let mut openings: Vec<[u64; 2]> = Vec::new();
    for wish in &wishes.entries[..wishes.count as usize] {
        let factor = |line: u32| openings[line as usize];
        let rho = u64::from(wish.blinding);
        openings.push(match wish.kind {
            1 => [u64::from(wish.value), rho],
            2 => {
                let [[a, alpha], [b, beta]] = [wish.first, wish.second].map(factor);
                [(a + b) % q, (alpha + beta) % q]
            }
            _ => {
                let [[a, _], [b, _]] = [wish.first, wish.second].map(factor);
                [a * b % q, rho]
            }
        });
    }
    openings
}

/// What the writer answers by the slow rules.
fn slow_write(base: &Base, wishes: &Wishes) -> Result<Ledger, u32> {
    let mut broken = slow_base(base);
    if let Some(number) = earliest(&broken) {
        return Err(number);
    }
    if wishes.count >= 65 {
        return Err(37);
    }
    let used = &wishes.entries[..wishes.count as usize];
    for (number, wish) in used.iter().enumerate() {
        broken.extend(slow_form(number, wish.kind, wish.first, wish.second));
        let slots = match wish.kind {
            1 => vec![wish.value, wish.blinding],
            3 => [vec![wish.blinding], wish.nonce.to_vec()].concat(),
            _ => vec![],
        };
        if slots.iter().any(|slot| *slot > base.order - 1) {
            broken.insert(16);
        }
        if wish.kind == 3 && wish.challenge > base.challenges - 1 {
            broken.insert(15);
        }
    }
    if let Some(number) = earliest(&broken) {
        return Err(number);
    }
    let openings = slow_openings(base, wishes);
    let (m, q) = (u64::from(base.modulus), u64::from(base.order));
    let mut lines = Vec::new();
    for (wish, own) in used.iter().zip(&openings) {
        let commitment = slow_commitment(base, own[0] as u32, own[1] as u32);
        lines.push(match wish.kind {
            1 => committed(commitment),
            2 => sum(wish.first, wish.second),
            _ => {
                let [a, alpha] = openings[wish.first as usize];
                let [b, beta] = openings[wish.second as usize];
                let second = slow_commitment(base, b as u32, beta as u32);
                let [k0, k1, k2] = wish.nonce;
                let left = u64::from(slow_power(second, k0, base.modulus));
                let right = u64::from(slow_power(base.h, k2, base.modulus));
                let t = [slow_commitment(base, k0, k1), (left * right % m) as u32];
                // ε − aβ, with a multiple of q that keeps it above 0.
                let rest = u64::from(wish.blinding) + q * q - a * beta;
                let c = u64::from(wish.challenge);
                let answer = |k: u32, x: u64| ((u64::from(k) + c * (x % q)) % q) as u32;
                let response = [answer(k0, a), answer(k1, alpha), answer(k2, rest)];
                let round = (t, wish.challenge, response);
                product([wish.first, wish.second], commitment, round)
            }
        });
    }
    Ok(ledger(&lines))
}

/// Pairs of m and q, prime and composite, that have more elements than 1.
const GROUPS: [[u32; 2]; 16] = [
    [23, 11],
    [47, 23],
    [59, 29],
    [31, 15],
    [31, 5],
    [7, 9],
    [9, 3],
    [77, 15],
    [91, 9],
    [49, 21],
    [101, 25],
    [121, 55],
    [253, 11],
    [15, 4],
    [35, 12],
    [23, 33],
];

/// A random base that is refused by nothing.
fn random_base(shifts: &mut Shifts) -> Base {
    let mut group = GROUPS[shifts.below(16) as usize];
    if shifts.below(4) == 0 {
        group = [3 + shifts.below(80) as u32, 2 + shifts.below(40) as u32];
    }
    let [m, q] = group;
    let most = (2..=q).find(|d| q % *d == 0).unwrap();
    let k = 2 + shifts.below(u64::from(most) - 1) as u32;
    let mut found = base([1, 1, m, q, k]);
    let elements = elements(&header(&found));
    [found.g, found.h] = [shifts.pick(&elements), shifts.pick(&elements)];
    found
}

/// A random wish that is refused by nothing as the line of this number, with 0
/// in what its kind doesn't use.
fn random_wish(shifts: &mut Shifts, base: &Base, number: u32) -> Wish {
    let mut slot = || shifts.below(u64::from(base.order)) as u32;
    let [v, rho, k0, k1, k2] = [(); 5].map(|()| slot());
    let mut line = || shifts.below(u64::from(number)) as u32;
    if number == 0 {
        return value(v, rho);
    }
    let pair = [line(), line()];
    let c = shifts.below(u64::from(base.challenges)) as u32;
    match shifts.below(3) {
        0 => value(v, rho),
        1 => sum_of(pair[0], pair[1]),
        _ => product_of(pair, rho, [k0, k1, k2], c),
    }
}

/// Random wishes that are refused by nothing, at times 64.
fn random_wishes(shifts: &mut Shifts, base: &Base) -> Wishes {
    let count = match shifts.below(10) {
        0 => 64,
        _ => shifts.below(12) as u32,
    };
    let list: Vec<Wish> = (0..count).map(|number| random_wish(shifts, base, number)).collect();
    wishes(&list)
}

/// Puts any numbers where the kind doesn't use them and beyond the count.
fn litter_wishes(shifts: &mut Shifts, wishes: &mut Wishes) {
    for (number, wish) in (0..).zip(&mut wishes.entries) {
        let mut any = || shifts.edge();
        if number >= wishes.count {
            wish.kind = any();
            wish.blinding = any();
        }
        if number >= wishes.count || wish.kind == 1 {
            [wish.first, wish.second] = [any(), any()];
        }
        if number >= wishes.count || wish.kind != 1 {
            wish.value = any();
        }
        if number < wishes.count && wish.kind == 2 {
            wish.blinding = any();
        }
        if number >= wishes.count || wish.kind != 3 {
            wish.nonce = [any(), any(), any()];
            wish.challenge = any();
        }
    }
}

/// Puts any numbers where the kind doesn't use them and beyond the count.
fn litter_lines(shifts: &mut Shifts, ledger: &mut Ledger) {
    for (number, line) in (0..).zip(&mut ledger.lines) {
        let mut any = || shifts.edge();
        if number >= ledger.count {
            line.kind = any();
            line.commitment = any();
        }
        if number >= ledger.count || line.kind == 1 {
            [line.first, line.second] = [any(), any()];
        }
        if number < ledger.count && line.kind == 2 {
            line.commitment = any();
        }
        if number >= ledger.count || line.kind != 3 {
            line.t = [any(), any()];
            line.challenge = any();
            line.response = [any(), any(), any()];
        }
    }
}

#[test]
fn written_ledgers_are_the_slow_ones_and_are_accepted() {
    let mut shifts = Shifts(0x1ED6_E214_1ED6_E215);
    let mut products = 0;
    for _ in 0..1200 {
        let base = random_base(&mut shifts);
        let mut list = random_wishes(&mut shifts, &base);
        let expected = slow_write(&base, &list).unwrap();
        assert_eq!(write(&base, &list), Ok(expected));
        assert_eq!(check(&base, &expected), Ok(Checked::Accepted));
        // Every line has the commitment of its opening, the sums too.
        let all = slow_commitments(&base, &expected);
        for ([v, rho], commitment) in slow_openings(&base, &list).into_iter().zip(all) {
            assert!(opens(&base, v, rho, commitment));
        }
        // What is not read changes nothing, and is 0 in what is made.
        litter_wishes(&mut shifts, &mut list);
        assert_eq!(write(&base, &list), Ok(expected));
        let mut littered = expected;
        litter_lines(&mut shifts, &mut littered);
        assert_eq!(check(&base, &littered), Ok(Checked::Accepted));
        products += expected.lines.iter().filter(|line| line.kind == 3).count();
    }
    assert!(products > 3000);
}

#[test]
fn the_first_wishes_give_the_first_lines() {
    let mut shifts = Shifts(0x0A6A_1214_0A6A_1215);
    for _ in 0..300 {
        let base = random_base(&mut shifts);
        let list = random_wishes(&mut shifts, &base);
        let made = write(&base, &list).unwrap();
        // A ledger of the first lines is the start of the whole one.
        let cut = shifts.below(u64::from(list.count) + 1) as usize;
        let start = write(&base, &wishes(&list.entries[..cut])).unwrap();
        assert_eq!(start, ledger(&made.lines[..cut]));
        assert_eq!(check(&base, &start), Ok(Checked::Accepted));
    }
}

/// Changes one number of a base, often to one close by.
fn spoil_base(shifts: &mut Shifts, base: &mut Base) {
    let value = shifts.below(40) as u32;
    match shifts.below(5) {
        0 => base.modulus = value % 8,
        1 => base.order = value % 4,
        2 => base.challenges = value % 16,
        3 => base.g = value,
        _ => base.h = value,
    }
}

/// Changes one number of a ledger, mostly in a line in use.
fn spoil_ledger(shifts: &mut Shifts, ledger: &mut Ledger) {
    let value = match shifts.below(8) {
        0 => shifts.edge(),
        _ => shifts.below(26) as u32,
    };
    let room = u64::from(ledger.count.clamp(1, 63)) + 1;
    let line = &mut ledger.lines[shifts.below(room) as usize];
    match shifts.below(14) {
        0 => ledger.count = 62 + value % 6,
        1 => line.kind = value % 5,
        2 => line.first = value % 9,
        3 => line.second = value % 9,
        4 | 5 => line.commitment = value,
        6 | 7 => line.t[shifts.below(2) as usize] = value,
        8 | 9 => line.challenge = value % 13,
        _ => line.response[shifts.below(3) as usize] = value % 13,
    }
}

/// Changes one number of the wishes, mostly in one in use.
fn spoil_wishes(shifts: &mut Shifts, wishes: &mut Wishes) {
    let value = match shifts.below(8) {
        0 => shifts.edge(),
        _ => shifts.below(26) as u32,
    };
    let room = u64::from(wishes.count.clamp(1, 63)) + 1;
    let wish = &mut wishes.entries[shifts.below(room) as usize];
    match shifts.below(10) {
        0 => wishes.count = 62 + value % 6,
        1 => wish.kind = value % 5,
        2 => wish.first = value % 9,
        3 => wish.second = value % 9,
        4 | 5 => wish.value = value,
        6 => wish.blinding = value,
        7 => wish.challenge = value % 13,
        _ => wish.nonce[shifts.below(3) as usize] = value,
    }
}

#[test]
fn spoilt_ledgers_are_checked_by_the_slow_rules() {
    let mut shifts = Shifts(0x5901_1ED6_5901_1ED7);
    let mut met = BTreeSet::new();
    let (mut accepted, mut rejected) = (0, BTreeSet::new());
    for _ in 0..9000 {
        let mut base = random_base(&mut shifts);
        let list = random_wishes(&mut shifts, &base);
        let mut made = write(&base, &list).unwrap();
        litter_lines(&mut shifts, &mut made);
        for _ in 0..shifts.below(4) {
            spoil_ledger(&mut shifts, &mut made);
        }
        if shifts.below(5) == 0 {
            spoil_base(&mut shifts, &mut base);
        }
        let expected = slow_check(&base, &made);
        assert_eq!(check(&base, &made), expected);
        match expected {
            Ok(Checked::Accepted) => accepted += 1,
            Ok(Checked::Rejected { line }) => drop(rejected.insert(line)),
            Err(number) => drop(met.insert(number)),
        }
    }
    let all = BTreeSet::from(ORDER);
    assert_eq!(met, all);
    assert!(accepted > 1000 && rejected.len() > 10);
}

#[test]
fn spoilt_wishes_are_written_by_the_slow_rules() {
    let mut shifts = Shifts(0x5901_7715_5901_7715);
    let mut met = BTreeSet::new();
    for _ in 0..5000 {
        let mut base = random_base(&mut shifts);
        let mut list = random_wishes(&mut shifts, &base);
        litter_wishes(&mut shifts, &mut list);
        for _ in 0..shifts.below(4) {
            spoil_wishes(&mut shifts, &mut list);
        }
        if shifts.below(5) == 0 {
            spoil_base(&mut shifts, &mut base);
        }
        let expected = slow_write(&base, &list);
        assert_eq!(write(&base, &list), expected);
        match expected {
            Ok(made) => assert_eq!(check(&base, &made), Ok(Checked::Accepted)),
            Err(number) => drop(met.insert(number)),
        }
    }
    let mut all = BTreeSet::from(ORDER);
    all.remove(&14);
    assert_eq!(met, all);
}

/// The round of a product line.
fn round_of(line: &Line) -> Round {
    round(&line.t, line.challenge, &line.response)
}

#[test]
fn two_rounds_of_a_product_open_its_factor_and_itself() {
    let mut shifts = Shifts(0x0B3A_1ED6_0B3A_1ED7);
    let mut pairs = 0;
    for _ in 0..600 {
        let base = random_base(&mut shifts);
        let list = random_wishes(&mut shifts, &base);
        let made = write(&base, &list).unwrap();
        let mut again = list;
        for wish in &mut again.entries {
            let away = 1 + shifts.below(u64::from(base.challenges) - 1) as u32;
            wish.challenge = (wish.challenge + away) % base.challenges;
        }
        let second = write(&base, &again).unwrap();
        let all = slow_commitments(&base, &made);
        let openings = slow_openings(&base, &list);
        for (number, line) in made.lines.iter().enumerate() {
            if line.kind != 3 {
                continue;
            }
            let other = &second.lines[number];
            // The second round in place of the first leaves all accepted.
            let mut swapped = made;
            swapped.lines[number] = *other;
            assert_eq!(check(&base, &swapped), Ok(Checked::Accepted));
            let [first, factor] = [line.first, line.second].map(|at| at as usize);
            let abe = [all[first], all[factor], line.commitment];
            let opening = openings[factor].map(|slot| slot as u32);
            let x = assert_extracted(&base, abe, [&round_of(line), &round_of(other)], opening);
            // The honest rounds give the very witness (a, α, ε − aβ).
            let q = u64::from(base.order);
            let [a, alpha] = openings[first];
            let rest = (openings[number][1] + q * q - a * openings[factor][1]) % q;
            assert_eq!(x, eight(&[a, alpha, rest].map(|slot| slot as u32)));
            pairs += 1;
        }
    }
    assert!(pairs > 1000);
}

/// A power by squaring, with nothing shared with the judge.
fn wide_power(base: u32, exponent: u64, m: u32) -> u128 {
    let m = u128::from(m);
    let mut product = 1;
    for bit in (0..64).rev() {
        product = product * product % m;
        if exponent >> bit & 1 == 1 {
            product = product * u128::from(base) % m;
        }
    }
    product
}

#[test]
fn wide_numbers() {
    // 4294967087 = 2 · 2147483543 + 1, both prime; and 4251949249 = 65267 ·
    // 65147 with q = 32633 · 32573.
    let bases = [
        base([1_703_988_234, 3_278_751_099, 4_294_967_087, 2_147_483_543, 65_536]),
        base([559_663_012, 2_204_875_751, 4_251_949_249, 1_062_954_709, 32_573]),
    ];
    let mut shifts = Shifts(0x071D_E1ED_071D_E1ED);
    for base in bases {
        let (m, q, k) = (base.modulus, base.order, base.challenges);
        let top = q - 1;
        let rounds = [top, shifts.word() % q, shifts.word() % q];
        let list = wishes(&[
            value(top, top),
            value(shifts.word() % q, shifts.word() % q),
            sum_of(0, 1),
            product_of([0, 0], top, [top; 3], k - 1),
            product_of([2, 1], shifts.word() % q, rounds, k - 1),
            product_of([4, 3], 0, [0; 3], 1),
        ]);
        let made = write(&base, &list).unwrap();
        assert_eq!(check(&base, &made), Ok(Checked::Accepted));
        // C(q − 1, q − 1) times g · h is 1.
        let first = u128::from(made.lines[0].commitment);
        let gh = u128::from(base.g) * u128::from(base.h) % u128::from(m);
        assert_eq!(first * gh % u128::from(m), 1);
        // (q − 1)^2 is 1 mod q, so line 3 is C(1, q − 1), and the witness is
        // (q − 1, q − 1, q − 1 − 1).
        let third = u128::from(made.lines[3].commitment);
        assert_eq!(third * u128::from(base.h) % u128::from(m), u128::from(base.g));
        let answer = |x: u64| ((u64::from(top) + u64::from(k - 1) * x) % u64::from(q)) as u32;
        let [high, less] = [u64::from(top), u64::from(top) - 1];
        let expected = [answer(high), answer(high), answer(less)];
        assert_eq!(made.lines[3].response, expected);
        let t = wide_power(base.g, high, m) * wide_power(base.h, high, m) % u128::from(m);
        assert_eq!(u128::from(made.lines[3].t[0]), t);
        // One off in any response slot is rejected.
        for line in 3..6 {
            for slot in 0..3 {
                let mut other = made;
                let place = &mut other.lines[line].response[slot];
                *place = (*place + 1) % q;
                let rejected = Checked::Rejected { line: line as u32 };
                assert_eq!(check(&base, &other), Ok(rejected));
                other.lines[line].response[slot] = q;
                assert_eq!(check(&base, &other), Err(16));
            }
            let mut other = made;
            other.lines[line].challenge = k;
            assert_eq!(check(&base, &other), Err(15));
        }
        // A second round of line 4 gives its witness.
        let mut again = list;
        again.entries[4].challenge = 0;
        let second = write(&base, &again).unwrap();
        let all = slow_sums(&made, m);
        let sheet = product_sheet(&base, [all[2], all[1], all[4]]);
        let pair = [made.lines[4], second.lines[4]].map(|line| round_of(&line));
        let x = extract(&sheet, &pair[0], &pair[1]).unwrap();
        let [a, alpha] = [list.entries[1].value, list.entries[1].blinding]
            .map(|slot| (u64::from(slot) + u64::from(top)) % u64::from(q));
        assert_eq!([u64::from(x[0]), u64::from(x[1])], [a, alpha]);
        let opened = wide_power(base.g, a, m) * wide_power(base.h, alpha, m);
        assert_eq!(opened % u128::from(m), u128::from(all[2]));
    }
}

/// The commitments of the lines by products of wide numbers.
fn slow_sums(ledger: &Ledger, m: u32) -> Vec<u32> {
    let mut all: Vec<u32> = Vec::new();
    for line in &ledger.lines[..ledger.count as usize] {
        let factor = |at: u32| u64::from(all[at as usize]);
        all.push(match line.kind {
            2 => (factor(line.first) * factor(line.second) % u64::from(m)) as u32,
            _ => line.commitment,
        });
    }
    all
}

#[test]
fn no_numbers_make_it_panic() {
    let mut shifts = Shifts(0x7EA2_1ED6_7EA2_1ED7);
    for round in 0..3000 {
        let mut base = base(std::array::from_fn(|_| shifts.edge()));
        if round % 2 == 0 {
            base = random_base(&mut shifts);
        }
        let count = match shifts.below(3) {
            0 => shifts.edge(),
            _ => shifts.below(66) as u32,
        };
        let mut any = |bound: u64| match shifts.below(200) {
            0 => shifts.edge(),
            _ => shifts.below(bound) as u32,
        };
        let lines = std::array::from_fn(|_| Line {
            kind: any(3).wrapping_add(1),
            first: any(3),
            second: any(3),
            commitment: any(40),
            t: [any(40), any(40)],
            challenge: any(3),
            response: [any(40), any(40), any(40)],
        });
        let entries = std::array::from_fn(|_| Wish {
            kind: any(3).wrapping_add(1),
            first: any(3),
            second: any(3),
            value: any(40),
            blinding: any(40),
            nonce: [any(40), any(40), any(40)],
            challenge: any(3),
        });
        let answer = check(&base, &Ledger { lines, count });
        assert!(answer.err().is_none_or(|number| ORDER.contains(&number)));
        let answer = write(&base, &Wishes { entries, count });
        assert!(answer.err().is_none_or(|number| ORDER.contains(&number)));
    }
}
