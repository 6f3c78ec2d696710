//! Made ledgers of which each number of each line is changed, and what they are made of with
//! each number changed.

use super::{ACCEPTED, Both, of_entries, of_ledger};
use crate::groups::Group;
use crate::ledgers::{
    OF_ENTRY, OF_LINE, commitment, entries_of, entry_numbers, entry_of, entry_uses, judged,
    line_numbers, line_of, line_uses, product, sum,
};
use crate::library::{Base, Entries, Ledger};
use crate::random::Random;

/// m, q and K: primes, q composite, m composite, both, the largest m, and q near 2^32.
const GROUPS: [[u32; 3]; 7] = [
    [23, 11, 11],
    [31, 15, 3],
    [77, 15, 3],
    [91, 6, 2],
    [4_294_967_295, 65_536, 2],
    [4_294_967_291, 4_294_967_290, 2],
    [4_294_967_087, 2_147_483_543, 7],
];

/// How often something was met.
#[derive(Debug, Default)]
struct Met {
    changes: u64,
    unused: u64,
    accepted: u64,
    rejected: u64,
    refused: u64,
}

/// Tries all and answers what was met.
pub fn check(both: &mut Both) -> Result<String, String> {
    let mut met = Met::default();
    for (seed, group) in (0..).zip(GROUPS) {
        let (base, of) = made_of(&mut Random::new(seed), group);
        let held = both.expect_made(base, &of, 0)?;
        let numbers = held.lines.iter().flat_map(line_numbers);
        for change in changes(&base, numbers.take(OF_LINE * held.count as usize)) {
            lines(both, base, &held, change, &mut met)?;
        }
        let numbers = of.entries.iter().flat_map(entry_numbers);
        for change in changes(&base, numbers.take(OF_ENTRY * of.count as usize)) {
            entries(both, base, &of, change, &mut met)?;
        }
    }
    let Met { changes, unused, accepted, rejected, refused } = met;
    Ok(format!(
        "{changes} times: {unused} change nothing, {accepted} are accepted, {rejected} rejected and {refused} refused"
    ))
}

/// The places of these numbers, each with the numbers that are put there.
fn changes(base: &Base, numbers: impl Iterator<Item = u32>) -> Vec<(usize, u32)> {
    let placed = numbers.enumerate();
    let changed = placed.flat_map(|(place, number)| {
        let values = values(base, number).into_iter();
        values.map(move |value| (place, value))
    });
    changed.collect()
}

/// A ledger of seven lines: a sum of a sum, a product of a product, a line twice in a sum and
/// in a product, the value q − 1 and the blinding number 0.
fn made_of(random: &mut Random, [modulus, order, challenges]: [u32; 3]) -> (Base, Entries) {
    let group = Group::new(1, modulus, order);
    let base =
        Base { g: group.element(random), h: group.element(random), modulus, order, challenges };
    let mut nonce = || [0; 3].map(|_| random.between(0, order - 1));
    let last = challenges - 1;
    let (first, second) = (nonce(), nonce());
    let of = entries_of(&[
        commitment(order - 1, 1),
        commitment(order / 2 + 1, order - 1),
        sum(0, 1),
        product([2, 1], 0, first, last),
        sum(2, 2),
        product([3, 4], order - 1, second, 1),
        product([0, 0], 1, first, 0),
    ]);
    (base, of)
}

/// Numbers to put in the place of one: its neighbours, the bounds, and one that is the same if
/// it is reduced.
fn values(base: &Base, number: u32) -> Vec<u32> {
    let Base { modulus, order, challenges, .. } = *base;
    let mut values = vec![
        0,
        1,
        number ^ 1,
        number.wrapping_add(1),
        number.wrapping_add(modulus),
        challenges,
        order - 1,
        order,
        modulus,
        u32::MAX,
    ];
    values.sort();
    values.dedup();
    values.retain(|value| *value != number);
    values
}

/// Changes a number of a line. One that is not used changes nothing, and the line that is named
/// is the first whose round the judging call rejects.
fn lines(
    both: &mut Both,
    base: Base,
    held: &Ledger,
    (place, value): (usize, u32),
    met: &mut Met,
) -> Result<(), String> {
    let (mut changed, at) = (*held, &held.lines[place / OF_LINE]);
    let mut numbers = line_numbers(at);
    numbers[place % OF_LINE] = value;
    changed.lines[place / OF_LINE] = line_of(numbers);
    met.changes += 1;
    if !line_uses(at.kind)[place % OF_LINE] {
        met.unused += 1;
        return both.expect(base, &changed, ACCEPTED);
    }
    let found = both.checked(base, &changed)?;
    if found.refusal != 0 {
        met.refused += 1;
        return Ok(());
    }
    let judged = judged(both.library, &base, &changed);
    let first = judged.iter().find(|(_, rows)| *rows != 0);
    met.rejected += u64::from(found.accepted == 0);
    met.accepted += u64::from(found.accepted);
    if first.map_or((1, 0), |(line, _)| (0, *line)) == (found.accepted, found.line) {
        Ok(())
    } else {
        Err(of_ledger("the judging call rejects another line", base, &changed))
    }
}

/// Changes a number that a line is made of. One that is not used changes nothing.
fn entries(
    both: &mut Both,
    base: Base,
    of: &Entries,
    (place, value): (usize, u32),
    met: &mut Met,
) -> Result<(), String> {
    let (mut changed, at) = (*of, &of.entries[place / OF_ENTRY]);
    let mut numbers = entry_numbers(at);
    numbers[place % OF_ENTRY] = value;
    changed.entries[place / OF_ENTRY] = entry_of(numbers);
    let made = both.written(base, &changed)?;
    met.changes += 1;
    if made.refusal != 0 {
        met.refused += 1;
        return Ok(());
    }
    let same = made == both.library.ledger_write(base, of);
    let unused = !entry_uses(at.kind)[place % OF_ENTRY];
    met.unused += u64::from(unused);
    met.accepted += u64::from(!unused);
    if unused && !same {
        Err(of_entries("a number that is not used counts", base, &changed))
    } else {
        both.expect(base, &made.ledger, ACCEPTED)
    }
}
