//! Ledgers of committed values, with numbers worked by hand and over all
//! choices.

use judge::ledger::*;
use judge::{Round, Sheet, extract, simulate};

use crate::naive::*;
use crate::tools::*;

/// The line that has 0 everywhere.
pub const NO_LINE: Line =
    Line { kind: 0, first: 0, second: 0, commitment: 0, t: [0; 2], challenge: 0, response: [0; 3] };

/// The wish that has 0 everywhere.
pub const NO_WISH: Wish =
    Wish { kind: 0, first: 0, second: 0, value: 0, blinding: 0, nonce: [0; 3], challenge: 0 };

/// A base of g, h, m, q and K.
pub fn base([g, h, modulus, order, challenges]: [u32; 5]) -> Base {
    Base { g, h, modulus, order, challenges }
}

/// The base of the computed page.
pub fn page_base() -> Base {
    base([2, 3, 23, 11, 11])
}

pub fn committed(commitment: u32) -> Line {
    Line { kind: 1, commitment, ..NO_LINE }
}

pub fn sum(first: u32, second: u32) -> Line {
    Line { kind: 2, first, second, ..NO_LINE }
}

/// A product line of two lines, with its commitment and its round.
pub fn product(
    [first, second]: [u32; 2],
    commitment: u32,
    (t, challenge, response): ([u32; 2], u32, [u32; 3]),
) -> Line {
    Line { kind: 3, first, second, commitment, t, challenge, response }
}

/// A ledger of these lines, with 0 beyond them.
pub fn ledger(lines: &[Line]) -> Ledger {
    let mut room = [NO_LINE; 64];
    room[..lines.len()].copy_from_slice(lines);
    Ledger { lines: room, count: lines.len() as u32 }
}

pub fn value(value: u32, blinding: u32) -> Wish {
    Wish { kind: 1, value, blinding, ..NO_WISH }
}

pub fn sum_of(first: u32, second: u32) -> Wish {
    Wish { kind: 2, first, second, ..NO_WISH }
}

/// A wish for a product of two lines with this ρ, nonce and challenge.
pub fn product_of(
    [first, second]: [u32; 2],
    blinding: u32,
    nonce: [u32; 3],
    challenge: u32,
) -> Wish {
    Wish { kind: 3, first, second, blinding, nonce, challenge, ..NO_WISH }
}

/// These wishes, with 0 beyond them.
pub fn wishes(entries: &[Wish]) -> Wishes {
    let mut room = [NO_WISH; 64];
    room[..entries.len()].copy_from_slice(entries);
    Wishes { entries: room, count: entries.len() as u32 }
}

/// The computed page: C(2,1), C(3,0), their sum and their product with ρ 4.
pub fn page_wishes() -> Wishes {
    wishes(&[value(2, 1), value(3, 0), sum_of(0, 1), product_of([0, 1], 4, [1, 2, 3], 3)])
}

/// The ledger of the computed page. The commitments are 4 · 3 = 12, 8 and
/// 2^6 · 3^4 = 18 · 12 = 9, and that of the sum is 12 · 8 = 4. The witness is
/// (2, 1, 4 − 2 · 0). So t is (2 · 9, 8 · 27) = (18, 9) and r is
/// (1 + 6, 2 + 3, 3 + 12) = (7, 5, 4).
pub fn page_ledger() -> Ledger {
    ledger(&[committed(12), committed(8), sum(0, 1), product([0, 1], 9, ([18, 9], 3, [7, 5, 4]))])
}

/// A sheet of kind 1 with the base's numbers, for the slow rules.
pub fn header(base: &Base) -> Sheet {
    Sheet {
        kind: 1,
        modulus: base.modulus,
        order: base.order,
        challenges: base.challenges,
        rows: 1,
        columns: 1,
        entries: [[0; 8]; 8],
        statement: [0; 8],
    }
}

/// C(v, ρ) = g^v h^ρ in the slowest form.
pub fn slow_commitment(base: &Base, v: u32, rho: u32) -> u32 {
    let m = base.modulus;
    let [left, right] = [slow_power(base.g, v, m), slow_power(base.h, rho, m)];
    (u64::from(left) * u64::from(right) % u64::from(m)) as u32
}

/// The commitments of a ledger's lines, those of the sums too.
pub fn slow_commitments(base: &Base, ledger: &Ledger) -> Vec<u32> {
    let mut all: Vec<u32> = Vec::new();
    for line in &ledger.lines[..ledger.count as usize] {
        let mut commitment = u64::from(line.commitment);
        if line.kind == 2 {
            commitment = u64::from(all[line.first as usize]);
            commitment *= u64::from(all[line.second as usize]);
        }
        all.push((commitment % u64::from(base.modulus)) as u32);
    }
    all
}

/// The sheet of 01's product statement for A, B and E, byte by byte.
pub fn product_sheet(base: &Base, [a, b, e]: [u32; 3]) -> Vec<u8> {
    let table: [&[u32]; 2] = [&[base.g, base.h, 1], &[b, 1, base.h]];
    exponent(base.modulus, base.order, base.challenges, &table, &[a, e]).bytes()
}

/// Whether (v, ρ) of wide numbers opens the commitment.
pub fn opens(base: &Base, v: u64, rho: u64, commitment: u32) -> bool {
    let q = u64::from(base.order);
    slow_commitment(base, (v % q) as u32, (rho % q) as u32) == commitment
}

/// Asserts that what two rounds extract opens the first factor A and opens the
/// product E to the two values multiplied, for an opening of the factor B.
pub fn assert_extracted(
    base: &Base,
    [a, b, e]: [u32; 3],
    rounds: [&Round; 2],
    opening: [u32; 2],
) -> [u32; 8] {
    let [v, rho] = opening.map(u64::from);
    assert!(opens(base, v, rho, b));
    let sheet = product_sheet(base, [a, b, e]);
    let x = extract(&sheet, rounds[0], rounds[1]).unwrap();
    assert_eq!(extract(&sheet, rounds[1], rounds[0]), Ok(x));
    let [first, second, third] = [x[0], x[1], x[2]].map(u64::from);
    assert!(opens(base, first, second, a));
    assert!(opens(base, first * v, first * rho + third, e));
    x
}

#[test]
fn the_page_is_written_and_accepted() {
    assert_eq!(write(&page_base(), &page_wishes()), Ok(page_ledger()));
    let checked = check(&page_base(), &page_ledger());
    assert_eq!(checked, Ok(Checked::Accepted));
    let all = slow_commitments(&page_base(), &page_ledger());
    assert_eq!(all, [12, 8, 4, 9]);
}

#[test]
fn a_sum_is_a_factor_and_a_line_stands_twice() {
    let mut list = page_wishes().entries[..4].to_vec();
    // (5, 1) times (2, 1) with ρ 0: the witness is (5, 1, 0 − 5) = (5, 1, 6).
    list.push(product_of([2, 0], 0, [0, 0, 0], 1));
    // (2, 1) times itself with ρ 3: the witness is (2, 1, 3 − 2).
    list.push(product_of([0, 0], 3, [10, 10, 10], 10));
    // 12 · 12 = 6 opens to (4, 2). Times (6, 4) with ρ 10 it is 24 = 2, and
    // the witness is (4, 2, 10 − 16) = (4, 2, 5).
    list.push(sum_of(0, 0));
    list.push(product_of([6, 3], 10, [0, 0, 1], 2));
    let mut lines = page_ledger().lines[..4].to_vec();
    lines.push(product([2, 0], 12, ([1, 1], 1, [5, 1, 6])));
    lines.push(product([0, 0], 18, ([4, 16], 10, [8, 9, 9])));
    lines.push(sum(0, 0));
    // C(2, 10) = 4 · 8 = 9.
    lines.push(product([6, 3], 9, ([1, 3], 2, [8, 4, 0])));
    let made = ledger(&lines);
    assert_eq!(write(&page_base(), &wishes(&list)), Ok(made));
    assert_eq!(check(&page_base(), &made), Ok(Checked::Accepted));
    let all = slow_commitments(&page_base(), &made);
    assert_eq!(all, [12, 8, 4, 9, 12, 18, 6, 9]);
}

#[test]
fn a_ledger_of_no_lines_is_accepted() {
    let made = write(&page_base(), &wishes(&[]));
    assert_eq!(made, Ok(ledger(&[])));
    assert_eq!(check(&page_base(), &ledger(&[])), Ok(Checked::Accepted));
}

#[test]
fn a_ledger_without_products_is_accepted() {
    // No one need know an opening of these.
    let lines = [committed(13), sum(0, 0), sum(1, 0), committed(1)];
    assert_eq!(check(&page_base(), &ledger(&lines)), Ok(Checked::Accepted));
}

#[test]
fn every_other_number_of_the_page_is_rejected() {
    let elements = [1, 2, 3, 4, 6, 8, 9, 12, 13, 16, 18];
    let rejected = Ok(Checked::Rejected { line: 3 });
    let verdict = |change: &dyn Fn(&mut [Line; 64])| {
        let mut other = page_ledger();
        change(&mut other.lines);
        let same = other == page_ledger();
        let expected = if same { Ok(Checked::Accepted) } else { rejected };
        assert_eq!(check(&page_base(), &other), expected);
    };
    for v in elements {
        verdict(&|lines| lines[0].commitment = v);
        verdict(&|lines| lines[1].commitment = v);
        verdict(&|lines| lines[3].commitment = v);
        verdict(&|lines| lines[3].t[0] = v);
        verdict(&|lines| lines[3].t[1] = v);
    }
    for v in 0..11 {
        verdict(&|lines| lines[3].challenge = v);
        for slot in 0..3 {
            verdict(&|lines| lines[3].response[slot] = v);
        }
    }
    // Other factors, and the two factors swapped.
    for first in 0..3 {
        for second in 0..3 {
            verdict(&|lines| (lines[3].first, lines[3].second) = (first, second));
        }
    }
}

#[test]
fn the_first_rejected_product_is_named() {
    let good = page_ledger().lines[3];
    let mut bad = good;
    bad.t[1] = 18;
    for pattern in 0..32_u32 {
        let mut lines = page_ledger().lines[..3].to_vec();
        for place in 0..5 {
            lines.push(if pattern >> place & 1 == 1 { bad } else { good });
        }
        let expected = match pattern.trailing_zeros() {
            32 => Checked::Accepted,
            place => Checked::Rejected { line: 3 + place },
        };
        assert_eq!(check(&page_base(), &ledger(&lines)), Ok(expected));
    }
    // The last line of a full ledger.
    let mut full = ledger(&[good; 64]);
    full.lines[..3].copy_from_slice(&page_ledger().lines[..3]);
    assert_eq!(check(&page_base(), &full), Ok(Checked::Accepted));
    full.lines[63] = bad;
    let last = Checked::Rejected { line: 63 };
    assert_eq!(check(&page_base(), &full), Ok(last));
    // It is beyond the count.
    full.count = 63;
    assert_eq!(check(&page_base(), &full), Ok(Checked::Accepted));
}

#[test]
fn a_rejected_product_is_still_a_factor() {
    // The first product is of no use as a proof, and the second is honest
    // about the commitments as they stand.
    let mut list = page_wishes().entries[..4].to_vec();
    list.push(product_of([3, 0], 7, [4, 5, 6], 8));
    let mut made = write(&page_base(), &wishes(&list)).unwrap();
    made.lines[3].response[2] = 5;
    let checked = check(&page_base(), &made);
    assert_eq!(checked, Ok(Checked::Rejected { line: 3 }));
    made.lines[3].response[2] = 4;
    assert_eq!(check(&page_base(), &made), Ok(Checked::Accepted));
    // Another E in line 3 with a challenge 0 there: line 3 doesn't bind it,
    // but line 4 has it as its first factor.
    made.lines[3] = product([0, 1], 12, ([18, 9], 0, [1, 2, 3]));
    let checked = check(&page_base(), &made);
    assert_eq!(checked, Ok(Checked::Rejected { line: 4 }));
}

#[test]
fn the_page_extracts_its_openings() {
    // The same nonce with c 5 gives r (1 + 10, 2 + 5, 3 + 20) = (0, 7, 1).
    let mut list = page_wishes();
    list.entries[3].challenge = 5;
    let other = write(&page_base(), &list).unwrap();
    let expected = product([0, 1], 9, ([18, 9], 5, [0, 7, 1]));
    assert_eq!(other.lines[3], expected);
    assert_eq!(check(&page_base(), &other), Ok(Checked::Accepted));
    let rounds = [round(&[18, 9], 3, &[7, 5, 4]), round(&[18, 9], 5, &[0, 7, 1])];
    let pair = [&rounds[0], &rounds[1]];
    let x = assert_extracted(&page_base(), [12, 8, 9], pair, [3, 0]);
    assert_eq!(x, eight(&[2, 1, 4]));
    // 8 is 3^10 too, so (0, 10) opens it. Then 9 opens to 0 as C(0, 2 · 10 + 4).
    assert_extracted(&page_base(), [12, 8, 9], pair, [0, 10]);
}

/// The verdict on one product line by its two equations, for the commitments A,
/// B and E.
pub fn slow_accepts(base: &Base, [a, b, e]: [u32; 3], line: &Line) -> bool {
    let m = base.modulus;
    let times = |one: u32, other: u32| (u64::from(one) * u64::from(other) % u64::from(m)) as u32;
    let [r, s, w] = line.response;
    let c = line.challenge;
    let first = slow_commitment(base, r, s);
    let second = times(slow_power(b, r, m), slow_power(base.h, w, m));
    first == times(line.t[0], slow_power(a, c, m))
        && second == times(line.t[1], slow_power(e, c, m))
}

/// Small bases: m, q, K and pairs g, h, with prime and composite m and q.
fn tiny_bases() -> Vec<Base> {
    vec![
        base([2, 4, 7, 3, 3]),
        base([4, 1, 7, 3, 2]),
        base([2, 2, 7, 3, 3]),
        base([1, 1, 7, 3, 3]),
        // Composite m: 9 and 15. Composite q: 4, 9.
        base([4, 7, 9, 3, 3]),
        base([2, 7, 15, 4, 2]),
        base([2, 4, 7, 9, 3]),
    ]
}

#[test]
fn all_small_product_lines() {
    let mut met = [0; 2];
    for base in tiny_bases().into_iter().take(5) {
        let group = elements(&header(&base));
        assert_eq!(group.len(), 3);
        for places in choices(&group, 5) {
            let [a, b, e, t0, t1] = [0, 1, 2, 3, 4].map(|place| places[place]);
            for c in 0..base.challenges {
                for r in choices(&[0, 1, 2], 3) {
                    let line = product([0, 1], e, ([t0, t1], c, [r[0], r[1], r[2]]));
                    let lines = ledger(&[committed(a), committed(b), line]);
                    let accepts = slow_accepts(&base, [a, b, e], &line);
                    let expected =
                        if accepts { Checked::Accepted } else { Checked::Rejected { line: 2 } };
                    assert_eq!(check(&base, &lines), Ok(expected));
                    met[usize::from(accepts)] += 1;
                }
            }
        }
    }
    assert!(met[0] > met[1] && met[1] > 1000);
}

#[test]
fn all_small_pairs_of_rounds_extract() {
    let mut pairs = 0;
    for base in tiny_bases() {
        // In the group of m 15 and for q 9 only some statements are taken.
        let group = elements(&header(&base));
        let few = base.order > 3;
        let slots: Vec<u32> =
            if few { (0..base.order).step_by(2).collect() } else { (0..base.order).collect() };
        for places in choices(&group, 3).iter().step_by(if few { 5 } else { 1 }) {
            let abe = [places[0], places[1], places[2]];
            let sheet = product_sheet(&base, abe);
            // All openings of B, which may be none.
            let all = choices(&(0..base.order).collect::<Vec<u32>>(), 2);
            let openings: Vec<[u32; 2]> = all
                .iter()
                .map(|x| [x[0], x[1]])
                .filter(|x| slow_commitment(&base, x[0], x[1]) == abe[1])
                .collect();
            // All accepted rounds: one t for each c and r.
            let mut rounds = Vec::new();
            for c in 0..base.challenges {
                for r in choices(&slots, 3) {
                    let t = simulate(&sheet, c, &r).unwrap();
                    let line = product([0, 1], abe[2], ([t[0], t[1]], c, [r[0], r[1], r[2]]));
                    let lines = ledger(&[committed(abe[0]), committed(abe[1]), line]);
                    assert_eq!(check(&base, &lines), Ok(Checked::Accepted));
                    rounds.push(round(&t, c, &r));
                }
            }
            for first in &rounds {
                // Two partners are enough for each round.
                let partners = rounds.iter().filter(|second| {
                    second.commitment == first.commitment && second.challenge != first.challenge
                });
                for second in partners.take(2) {
                    for opening in openings.iter().take(3) {
                        assert_extracted(&base, abe, [first, second], *opening);
                        pairs += 1;
                    }
                }
            }
        }
    }
    assert!(pairs > 5000);
}
