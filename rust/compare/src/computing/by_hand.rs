//! Ledgers made by hand: worked pages, counts, kinds, the names of lines, and each refusal
//! beside each other one.

use super::{ACCEPTED, Both, refused, rejected};
use crate::ledgers::{
    commitment, entries_of, ledger_of, line_of, places, product, round, sheet, sum,
};
use crate::library::lines::{COMMITMENT, PRODUCT, SUM};
use crate::library::{Base, Checked, Entries, Entry, Ledger, Library, Line, MOST_LINES};

/// g 2, h 3, m 23, q 11, K 11.
const BASE: Base = Base { g: 2, h: 3, modulus: 23, order: 11, challenges: 11 };

/// Counts of lines: those that there is room for, and more.
const COUNTS: [u32; 11] = [0, 1, 2, 63, 64, 65, 66, 0x100, 0x101, 0x1_0040, u32::MAX];

/// Numbers that are no kind.
const NO_KINDS: [u32; 7] = [0, 4, 5, 0x101, 0x102, 0x1_0003, u32::MAX];

/// Lines that sums and products stand at.
const NUMBERS: [u32; 5] = [0, 1, 2, 62, 63];

/// The numbers of the checker in their order, and 0 for a rejected round.
const CHECKED: [u32; 11] = [5, 6, 8, 10, 37, 35, 36, 14, 15, 16, 0];

/// The numbers of the writer in their order.
const WRITTEN: [u32; 9] = [5, 6, 8, 10, 37, 35, 36, 15, 16];

/// Tries all.
pub fn check(both: &mut Both) -> Result<(), String> {
    pages(both)?;
    counts(both)?;
    kinds(both)?;
    names(both)?;
    checked_pairs(both)?;
    written_pairs(both)?;
    bases(both)
}

/// 2 with 1, 3 with 0, their sum, and their product with 4.
fn page(challenge: u32) -> Vec<Entry> {
    vec![commitment(2, 1), commitment(3, 0), sum(0, 1), product([0, 1], 4, [1, 2, 3], challenge)]
}

/// The lines of that page.
fn page_lines(challenge: u32, response: [u32; 3]) -> Vec<Line> {
    let [r1, r2, r3] = response;
    vec![
        line_of([1, 0, 0, 12, 0, 0, 0, 0, 0, 0]),
        line_of([1, 0, 0, 8, 0, 0, 0, 0, 0, 0]),
        line_of([2, 0, 1, 0, 0, 0, 0, 0, 0, 0]),
        line_of([3, 0, 1, 9, 18, 9, challenge, r1, r2, r3]),
    ]
}

/// 2 with 1, 5 with 4, their sum, the sum times the first, and the second times itself.
fn unequal() -> Vec<Entry> {
    vec![
        commitment(2, 1),
        commitment(5, 4),
        sum(0, 1),
        product([2, 0], 6, [3, 4, 5], 7),
        product([1, 1], 0, [1, 0, 2], 3),
    ]
}

/// The lines of that page.
fn unequal_lines() -> Vec<Line> {
    vec![
        line_of([1, 0, 0, 12, 0, 0, 0, 0, 0, 0]),
        line_of([1, 0, 0, 16, 0, 0, 0, 0, 0, 0]),
        line_of([2, 0, 1, 0, 0, 0, 0, 0, 0, 0]),
        line_of([3, 2, 0, 13, 4, 16, 7, 8, 6, 9]),
        line_of([3, 1, 1, 8, 2, 6, 3, 5, 1, 8]),
    ]
}

/// Pages whose every number is worked out, and what their rounds give away.
fn pages(both: &mut Both) -> Result<(), String> {
    let mut longer = page(3);
    longer.push(product([2, 0], 0, [0, 0, 0], 1));
    let mut longer_lines = page_lines(3, [7, 5, 4]);
    longer_lines.push(line_of([3, 2, 0, 12, 1, 1, 1, 5, 1, 6]));
    for (of, lines) in [
        (page(3), page_lines(3, [7, 5, 4])),
        (page(5), page_lines(5, [0, 7, 1])),
        (longer, longer_lines),
        (unequal(), unequal_lines()),
    ] {
        let made = both.expect_made(BASE, &entries_of(&of), 0)?;
        if made != ledger_of(&lines) {
            return Err(format!("card 14 fails: {made:?} is not {lines:?}"));
        }
    }
    let mut exchanged = ledger_of(&unequal_lines());
    (exchanged.lines[3].first, exchanged.lines[3].second) = (0, 2);
    both.expect(BASE, &exchanged, rejected(3))?;
    let [first, second] = [page_lines(3, [7, 5, 4])[3], page_lines(5, [0, 7, 1])[3]];
    extracts(both.library, [12, 8, 9], [first, second], [2, 1, 4])?;
    let first = unequal_lines()[3];
    let mut second = first;
    (second.challenge, second.response) = (2, [6, 3, 3]);
    extracts(both.library, [8, 12, 13], [first, second], [7, 5, 10])
}

/// The two rounds of a product on A, B and E give this witness.
fn extracts(
    library: Library,
    of: [u32; 3],
    [first, second]: [Line; 2],
    witness: [u32; 3],
) -> Result<(), String> {
    let sheet = sheet(library, &BASE, of);
    let found = library.extract(&sheet, &round(&first), &round(&second));
    match (found.refusal, found.values == places(&witness)) {
        (0, true) => Ok(()),
        _ => Err(format!("card 14 fails: {found:?} is not {witness:?}")),
    }
}

/// What 64 lines are made of: a commitment, and then sums and a last product.
fn sixty_four() -> Entries {
    let mut list = vec![commitment(10, 0), commitment(0, 10)];
    while list.len() + 1 < MOST_LINES {
        let above = list.len() as u32;
        list.push(sum(above - 1, above - 2));
    }
    list.push(product([62, 61], 10, [10, 0, 10], 10));
    entries_of(&list)
}

/// Counts up to 64 are taken, whatever stands behind them, and no other.
fn counts(both: &mut Both) -> Result<(), String> {
    let mut of = sixty_four();
    let mut held = both.expect_made(BASE, &of, 0)?;
    for count in COUNTS {
        (of.count, held.count) = (count, count);
        let found = if count <= 64 { ACCEPTED } else { refused(37) };
        both.expect(BASE, &held, found)?;
        both.expect_made(BASE, &of, found.refusal)?;
    }
    Ok(())
}

/// Each number that is no kind, in the first line, in the last, and behind the last.
fn kinds(both: &mut Both) -> Result<(), String> {
    let of = sixty_four();
    let held = both.library.ledger_write(BASE, &of).ledger;
    for kind in NO_KINDS {
        for place in [0, 1, 63] {
            let (mut of, mut held) = (of, held);
            (of.entries[place].kind, held.lines[place].kind) = (kind, kind);
            both.expect(BASE, &held, refused(35))?;
            both.expect_made(BASE, &of, 35)?;
            (of.count, held.count) = (place as u32, place as u32);
            both.expect(BASE, &held, ACCEPTED)?;
            both.expect_made(BASE, &of, 0)?;
        }
    }
    Ok(())
}

/// A sum, a product or a commitment at a line, which names two lines: those above are taken,
/// the same twice too, and its own and later ones are not. A commitment may name any.
fn names(both: &mut Both) -> Result<(), String> {
    let named = NUMBERS.iter().flat_map(|number| {
        let numbers = numbers(*number);
        let pairs = numbers.into_iter();
        pairs.flat_map(move |first| numbers.map(|second| (*number, [first, second])))
    });
    for (number, names) in named {
        of_names(both, COMMITMENT, number, names)?;
        of_names(both, SUM, number, names)?;
        of_names(both, PRODUCT, number, names)?;
    }
    Ok(())
}

/// Numbers that a line of this number may name, and ones that it may not.
fn numbers(number: u32) -> [u32; 8] {
    let above = number.wrapping_sub(1);
    [0, above, number, number + 1, 63, 64, 0x100, u32::MAX]
}

/// A last line of this kind, number and names, made and checked.
fn of_names(both: &mut Both, kind: u32, number: u32, names: [u32; 2]) -> Result<(), String> {
    let mut of = sixty_four();
    of.count = number + 1;
    let entry = &mut of.entries[number as usize];
    *entry = product(names, 3, [1, 2, 3], 4);
    entry.kind = kind;
    if kind != COMMITMENT && names.iter().any(|name| *name >= number) {
        both.expect_made(BASE, &of, 36)?;
        let held = named_line(both.library, &of, kind, names);
        return both.expect(BASE, &held, refused(36));
    }
    let mut held = both.expect_made(BASE, &of, 0)?;
    let line = &mut held.lines[number as usize];
    (line.first, line.second) = (names[0], names[1]);
    both.expect(BASE, &held, ACCEPTED)
}

/// The ledger of the lines before the last of these, and a last line of this kind with these
/// names.
fn named_line(library: Library, of: &Entries, kind: u32, names: [u32; 2]) -> Ledger {
    let mut before = *of;
    before.count -= 1;
    let mut held = library.ledger_write(BASE, &before).ledger;
    let [first, second] = names;
    let line = line_of([kind, first, second, 1, 1, 1, 0, 0, 0, 0]);
    held.lines[held.count as usize] = line;
    held.count += 1;
    held
}

/// Puts a fault into the ledger of the page `unequal`, at line 3 or 4. 0 is a wrong response.
fn spoil(base: &mut Base, held: &mut Ledger, fault: u32, line: usize) {
    let number = line as u32;
    let at = &mut held.lines[line];
    match fault {
        35 => at.kind = 4,
        36 => at.second = number,
        14 => at.t[1] = 5,
        15 => at.challenge = 11,
        16 => at.response[2] = 11,
        0 => at.response[1] = (at.response[1] + 1) % 11,
        37 => held.count = 65,
        _ => spoil_base(base, fault),
    }
}

/// Puts a fault into the base.
fn spoil_base(base: &mut Base, fault: u32) {
    match fault {
        5 => base.modulus = 2,
        6 => base.order = 1,
        8 => base.challenges = 12,
        _ => base.h = 5,
    }
}

/// What is found if these faults are there, at lines 3 and 4 or the other way round.
fn first_of(faults: [(u32, usize); 2]) -> Checked {
    let mut order = CHECKED.iter();
    let first = order.find(|number| faults.iter().any(|(fault, _)| fault == *number));
    match first {
        Some(0) | None => {
            let lines = faults.iter().filter(|(fault, _)| *fault == 0);
            rejected(lines.map(|(_, line)| *line as u32).min().unwrap_or(0))
        }
        Some(number) => refused(*number),
    }
}

/// Each two of these numbers, the first of them at one line and the second at another.
fn pairs(numbers: &[u32]) -> Vec<[(u32, usize); 2]> {
    let both = numbers.iter().flat_map(|one| numbers.iter().map(move |other| (*one, *other)));
    let placed = both.flat_map(|(one, other)| {
        [[3, 4], [4, 3], [3, 3], [4, 4]].map(|[a, b]| [(one, a), (other, b)])
    });
    placed.filter(|[one, other]| one != other).collect()
}

/// Each two faults of the checker, also the same twice: the first in the order is told,
/// wherever it stands, and a rejected line after all. Of two rejected lines the first is named.
fn checked_pairs(both: &mut Both) -> Result<(), String> {
    for faults in pairs(&CHECKED) {
        let (mut base, mut held) = (BASE, ledger_of(&unequal_lines()));
        for (fault, line) in faults {
            spoil(&mut base, &mut held, fault, line);
        }
        both.expect(base, &held, first_of(faults))?;
    }
    Ok(())
}

/// The same of the writer's faults.
fn written_pairs(both: &mut Both) -> Result<(), String> {
    for faults in pairs(&WRITTEN) {
        let (mut base, mut of) = (BASE, entries_of(&unequal()));
        for (fault, line) in faults {
            spoil_entries(&mut base, &mut of, fault, line);
        }
        both.expect_made(base, &of, first_of(faults).refusal)?;
    }
    Ok(())
}

/// Puts a fault into what the page `unequal` is made of, at line 3 or 4.
fn spoil_entries(base: &mut Base, of: &mut Entries, fault: u32, line: usize) {
    let entry = &mut of.entries[line];
    match fault {
        35 => entry.kind = 4,
        36 => entry.second = line as u32,
        15 => entry.challenge = 11,
        16 => entry.nonce[2] = 11,
        37 => of.count = 65,
        _ => spoil_base(base, fault),
    }
}

/// g, h, m, q and K at the bounds of each number, and the number, 0 for none. g and h are both
/// tested, and as they stand: 25 is 2 modulo 23. q need not be prime: 15 and 9 are taken with
/// K 3.
const BASES: [([u32; 5], u32); 18] = [
    ([2, 3, 23, 11, 11], 0),
    ([1, 1, 3, 2, 2], 0),
    ([1, 1, 2, 2, 2], 5),
    ([0, 0, 0, 0, 0], 5),
    ([1, 1, 3, 1, 2], 6),
    ([1, 1, 3, 0, 2], 6),
    ([2, 3, 23, 11, 1], 8),
    ([2, 3, 23, 11, 12], 8),
    ([2, 4, 31, 15, 3], 0),
    ([2, 4, 31, 15, 4], 8),
    ([2, 4, 511, 9, 3], 0),
    ([2, 4, 511, 9, 4], 8),
    ([5, 3, 23, 11, 11], 10),
    ([2, 5, 23, 11, 11], 10),
    ([0, 3, 23, 11, 11], 10),
    ([2, 23, 23, 11, 11], 10),
    ([25, 3, 23, 11, 11], 10),
    ([2, 26, 23, 11, 11], 10),
];

/// These bases, with no line and with two.
fn bases(both: &mut Both) -> Result<(), String> {
    let square = [commitment(1, 0), product([0, 0], 1, [1, 0, 1], 1)];
    for ([g, h, modulus, order, challenges], number) in BASES {
        let base = Base { g, h, modulus, order, challenges };
        let found = match number {
            0 => ACCEPTED,
            _ => refused(number),
        };
        let held = both.expect_made(base, &entries_of(&[]), number)?;
        both.expect(base, &held, found)?;
        let held = both.expect_made(base, &entries_of(&square), number)?;
        both.expect(base, &held, found)?;
    }
    Ok(())
}
