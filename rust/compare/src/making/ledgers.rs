//! Cases of checking and of making a ledger.

use crate::calls::Call;
use crate::cases::{Case, LedgerCall, LedgerCase};
use crate::damage::{faults, group_of_kind};
use crate::groups::Group;
use crate::ledgers::{
    commitment, counted, entries_of, entry_numbers, entry_of, entry_uses, line_numbers, line_of,
    line_uses, product, sum,
};
use crate::library::Library::Judge;
use crate::library::lines::{COMMITMENT, PRODUCT, SUM};
use crate::library::{Base, Entries, Entry, Ledger, Line, MOST_LINES};
use crate::random::Random;

/// A case of checking.
pub fn check(random: &mut Random) -> Box<dyn Case> {
    Box::new(check_case(random))
}

/// A case of making.
pub fn write(random: &mut Random) -> Box<dyn Case> {
    Box::new(write_case(random))
}

/// The numbers of the faults to put in, the first to be tested last, and a group that can
/// have them.
fn wrong(random: &mut Random, call: Call) -> (Vec<u32>, Group) {
    let first = if random.once_in(2) { random.pick(call.others()) } else { 0 };
    let group = group_of_kind(random, 1, first);
    let faults = match first {
        0 => Vec::new(),
        _ => faults(random, call.others(), first),
    };
    (faults, group)
}

fn check_case(random: &mut Random) -> LedgerCase {
    let (faults, group) = wrong(random, Call::LedgerCheck);
    let mut base = base(random, &group);
    let count = count(random);
    let entries = entries(random, &group, &base, count);
    let mut ledger = Judge.ledger_write(base, &entries).ledger;
    if random.below(3) > 0 {
        for _ in 0..random.pick(&[1, 1, 1, 2, 3]) {
            reject(random, &group, &base, &mut ledger);
        }
    }
    let lines = ledger.lines.iter_mut();
    fill_unread(random, lines, counted(ledger.count), |random, line| {
        let uses = line.map_or([false; 10], |line| line_uses(line.kind));
        line_of(filled(random, line.map(line_numbers), uses))
    });
    for fault in &faults {
        let mut spoilt = Spoilt { random, group: &group, base: &mut base };
        spoilt.ledger(&mut ledger, *fault);
    }
    LedgerCase { base, call: LedgerCall::Check(Box::new(ledger)) }
}

fn write_case(random: &mut Random) -> LedgerCase {
    let (faults, group) = wrong(random, Call::LedgerWrite);
    let mut base = base(random, &group);
    let count = count(random);
    let mut entries = entries(random, &group, &base, count);
    let all = entries.entries.iter_mut();
    fill_unread(random, all, count, |random, entry| {
        let uses = entry.map_or([false; 9], |entry| entry_uses(entry.kind));
        entry_of(filled(random, entry.map(entry_numbers), uses))
    });
    for fault in &faults {
        let mut spoilt = Spoilt { random, group: &group, base: &mut base };
        spoilt.entries(&mut entries, *fault);
    }
    LedgerCase { base, call: LedgerCall::Write(Box::new(entries)) }
}

/// What the lines of a ledger share. g and h are any elements, now and then 1 or the same.
pub fn base(random: &mut Random, group: &Group) -> Base {
    let (g, h) = (group.element(random), group.element(random));
    let (g, h) = match random.below(20) {
        0 => (1, h),
        1 => (g, 1),
        2 => (g, g),
        _ => (g, h),
    };
    Base { g, h, modulus: group.modulus, order: group.order, challenges: group.challenges(random) }
}

/// How many lines there are, mostly a few.
fn count(random: &mut Random) -> usize {
    match random.below(20) {
        0 => 0,
        1 => 1,
        2..=14 => random.between(2, 8) as usize,
        15 => random.between(9, 63) as usize,
        _ => MOST_LINES,
    }
}

/// What so many lines are made of, without a fault. The last is mostly a product.
pub fn entries(random: &mut Random, group: &Group, base: &Base, count: usize) -> Entries {
    let mut list = Vec::with_capacity(count);
    for number in 0..count as u32 {
        let last = number as usize + 1 == count;
        let names = [0; 2].map(|_| name(random, number));
        let names = if random.once_in(6) { [names[0]; 2] } else { names };
        list.push(match random.below(8) {
            _ if number == 0 => commitment(group.slot(random), group.slot(random)),
            0..=2 if !last => commitment(group.slot(random), group.slot(random)),
            3 | 4 if !last => sum(names[0], names[1]),
            7 => sum(names[0], names[1]),
            _ => {
                let nonce = [0; 3].map(|_| group.slot(random));
                let challenge = random.between(0, base.challenges - 1);
                product(names, group.slot(random), nonce, challenge)
            }
        });
    }
    entries_of(&list)
}

/// A line above, often one of the last.
fn name(random: &mut Random, number: u32) -> u32 {
    let above = number as usize;
    if random.once_in(3) {
        above.saturating_sub(1 + random.below(above.min(3))) as u32
    } else {
        random.below(above) as u32
    }
}

/// Fills what is not read with any numbers: in half of the cases of the lines in use, and in
/// half of those behind them.
fn fill_unread<'a, T: 'a>(
    random: &mut Random,
    all: impl Iterator<Item = &'a mut T>,
    count: usize,
    fill: impl Fn(&mut Random, Option<&T>) -> T,
) {
    let [inside, behind] = [0; 2].map(|_| random.once_in(2));
    for (number, one) in all.enumerate() {
        if number < count && inside {
            *one = fill(random, Some(one));
        }
        if number >= count && behind {
            *one = fill(random, None);
        }
    }
}

/// The numbers that are used, with any others between them.
fn filled<const N: usize>(
    random: &mut Random,
    numbers: Option<[u32; N]>,
    uses: [bool; N],
) -> [u32; N] {
    std::array::from_fn(|place| match numbers {
        Some(numbers) if uses[place] => numbers[place],
        _ => random.word(),
    })
}

/// Makes the round of a product another, so that it is mostly rejected, mostly that of the last
/// product: by its challenge, a value of t, a slot of the response, its commitment, or that of
/// any commitment above.
pub fn reject(random: &mut Random, group: &Group, base: &Base, ledger: &mut Ledger) {
    let used = &mut ledger.lines[..counted(ledger.count)];
    let products: Vec<usize> = places(used, &[PRODUCT]);
    let [.., _] = products[..] else {
        return;
    };
    let place = match random.below(3) {
        0 => random.below(products.len()),
        _ => products.len() - 1,
    };
    let at = products[place];
    let line = &mut used[at];
    match random.below(7) {
        0 => line.challenge = random.between(0, base.challenges - 1),
        1 | 2 => line.t[random.below(2)] = group.element(random),
        3 | 4 => line.response[random.below(3)] = group.slot(random),
        5 => line.commitment = group.element(random),
        _ => {
            let stored = places(&used[..at], &[COMMITMENT]);
            used[random.pick(&stored)].commitment = group.element(random);
        }
    }
}

/// The places of the lines of these kinds.
fn places(lines: &[Line], kinds: &[u32]) -> Vec<usize> {
    let numbered = lines.iter().enumerate();
    let found = numbered.filter(|(_, line)| kinds.contains(&line.kind));
    found.map(|(place, _)| place).collect()
}

/// A kind that is none, often one that is right where it is cut.
fn no_kind(random: &mut Random) -> u32 {
    let kind = random.between(1, 3);
    let cut = random.pick(&[0x100, 0x1_0000, 0x8000_0000]) + kind;
    random.pick(&[0, 4, 4, 5, 255, cut, cut, u32::MAX])
}

/// The number of a line that is not above this one.
fn not_above(random: &mut Random, number: u32) -> u32 {
    let cut = random.pick(&[0x100, 0x1_0000, 0x8000_0000]) + random.between(0, number);
    random.pick(&[number, number, number, number + 1, 63, 64, cut, u32::MAX]).max(number)
}

/// What a fault is put into.
struct Spoilt<'a> {
    random: &'a mut Random,
    group: &'a Group,
    base: &'a mut Base,
}

impl Spoilt<'_> {
    /// Puts a fault with the number 5, 6, 8 or 10 into the base.
    fn base(&mut self, number: u32) {
        let (random, base) = (&mut *self.random, &mut *self.base);
        match number {
            5 => base.modulus = random.between(0, 2),
            6 => base.order = random.between(0, 1),
            8 => base.challenges = self.group.wrong_challenges(random),
            _ => {
                let other = self.group.other(random);
                if random.once_in(2) { base.g = other } else { base.h = other }
            }
        }
    }

    /// A count above 64.
    fn count(&mut self, count: u32) -> u32 {
        let cut = self.random.pick(&[0x100, 0x1_0000, 0x8000_0000]) + count;
        let counts = [65, 65, 65, 66, 128, cut, cut, u32::MAX];
        self.random.pick(&counts)
    }

    /// A challenge of K or more.
    fn challenge(&mut self) -> u32 {
        let count = self.base.challenges;
        let wrong = [count, count, 0x1_0000 + count - 1, u32::MAX];
        self.random.pick(&wrong).max(count)
    }

    /// A kind and two lines that are refused with 35 or 36. A commitment becomes a sum.
    fn form(&mut self, fault: u32, number: u32, form: [u32; 3]) -> [u32; 3] {
        let [kind, first, second] = form;
        let random = &mut *self.random;
        if fault == 35 {
            return [no_kind(random), first, second];
        }
        let kind = if kind == PRODUCT { PRODUCT } else { SUM };
        let (wrong, above) = (not_above(random, number), number.saturating_sub(1));
        match random.below(3) {
            0 => [kind, wrong, above.min(second)],
            1 => [kind, above.min(first), wrong],
            _ => [kind, wrong, wrong],
        }
    }

    fn ledger(&mut self, ledger: &mut Ledger, fault: u32) {
        let used = &mut ledger.lines[..counted(ledger.count)];
        match fault {
            5 | 6 | 8 | 10 => self.base(fault),
            37 => ledger.count = self.count(ledger.count),
            35 | 36 if !used.is_empty() => {
                let at = self.random.place(used.len());
                let line = &mut used[at];
                let form = [line.kind, line.first, line.second];
                [line.kind, line.first, line.second] = self.form(fault, at as u32, form);
            }
            14 => self.values(used),
            15 | 16 => {
                let products = places(used, &[PRODUCT]);
                if let [.., _] = products[..] {
                    let line = &mut used[products[self.random.place(products.len())]];
                    match fault {
                        15 => line.challenge = self.challenge(),
                        _ => {
                            let slot = self.random.below(3);
                            line.response[slot] = self.group.no_slot(self.random);
                        }
                    }
                }
            }
            _ => {}
        }
    }

    /// Makes a stored commitment of kinds 1 and 3, or a value of t, no group element.
    fn values(&mut self, lines: &mut [Line]) {
        let stored = places(lines, &[COMMITMENT, PRODUCT]);
        let [.., _] = stored[..] else {
            return;
        };
        let line = &mut lines[stored[self.random.place(stored.len())]];
        let other = self.group.other(self.random);
        match self.random.below(3) {
            place @ 0..2 if line.kind == PRODUCT => line.t[place] = other,
            _ => line.commitment = other,
        }
    }

    fn entries(&mut self, entries: &mut Entries, fault: u32) {
        let used = &mut entries.entries[..counted(entries.count)];
        match fault {
            5 | 6 | 8 | 10 => self.base(fault),
            37 => entries.count = self.count(entries.count),
            35 | 36 if !used.is_empty() => {
                let at = self.random.place(used.len());
                let entry = &mut used[at];
                let form = [entry.kind, entry.first, entry.second];
                [entry.kind, entry.first, entry.second] = self.form(fault, at as u32, form);
            }
            15 => {
                let products = used.iter_mut().filter(|entry| entry.kind == PRODUCT);
                if let Some(entry) = products.last() {
                    entry.challenge = self.challenge();
                }
            }
            16 => {
                let slots = used.iter_mut().filter(|entry| entry.kind != SUM);
                let mut slots: Vec<&mut Entry> = slots.collect();
                if let [.., _] = slots[..] {
                    let at = self.random.place(slots.len());
                    self.slot(slots[at]);
                }
            }
            _ => {}
        }
    }

    /// Makes a value, a blinding number or a nonce slot that the kind uses one of q or more.
    fn slot(&mut self, entry: &mut Entry) {
        let wrong = self.group.no_slot(self.random);
        match (entry.kind, self.random.below(6)) {
            (COMMITMENT, 0..3) => entry.value = wrong,
            (PRODUCT, place @ 0..3) => entry.nonce[place] = wrong,
            _ => entry.blinding = wrong,
        }
    }
}

#[cfg(test)]
mod tests {
    use std::collections::BTreeMap;

    use super::*;
    use crate::ledgers::judged;

    /// What stands out in a ledger that is checked.
    fn shapes(base: &Base, ledger: &Ledger, number: u32) -> Vec<(bool, &'static str)> {
        let used = &ledger.lines[..counted(ledger.count)];
        let any = |holds: &dyn Fn(usize, &Line) -> bool| {
            let mut lines = used.iter().enumerate();
            lines.any(|(at, line)| holds(at, line))
        };
        let of = |line: &Line, at: usize| [line.first, line.second].map(|name| name == at as u32);
        let group = Group::new(1, base.modulus.max(3), base.order.max(2));
        let is_element = |v: u32| group.is_element(v);
        let rejected = match number {
            0 => judged(Judge, base, ledger).iter().filter(|it| it.1 != 0).count(),
            _ => 0,
        };
        let twice = |kind: u32| any(&|_, line| line.kind == kind && line.first == line.second);
        let unused = |line: &Line| line_numbers(line).into_iter().zip(line_uses(line.kind));
        vec![
            (ledger.count == 65, "65 lines"),
            (ledger.count == u32::MAX, "2^32 - 1 lines"),
            (any(&|at, line| of(line, at) == [true, false]), "own first"),
            (any(&|at, line| of(line, at) == [false, true]), "own second"),
            (any(&|_, line| line.kind == 4), "kind 4"),
            (
                any(&|_, line| {
                    line.kind == PRODUCT && is_element(line.t[0]) && !is_element(line.t[1])
                }),
                "second t",
            ),
            (twice(SUM), "a sum of one line"),
            (twice(PRODUCT), "a product of one line"),
            (rejected == 1, "one rejected"),
            (rejected > 1, "several rejected"),
            (any(&|_, line| unused(line).any(|(value, used)| !used && value != 0)), "junk"),
            (ledger.lines[counted(ledger.count)..].iter().any(|line| line.kind > 3), "junk behind"),
        ]
    }

    #[test]
    fn ledgers_at_every_bound_are_met() {
        let mut met = BTreeMap::new();
        for seed in 0..6000 {
            let LedgerCase { base, call } = check_case(&mut Random::new(seed));
            let LedgerCall::Check(ledger) = call else {
                continue;
            };
            let number = Judge.ledger_check(base, &ledger).refusal;
            let shapes = shapes(&base, &ledger, number).into_iter();
            for (_, shape) in shapes.filter(|(met, _)| *met) {
                *met.entry((number, shape)).or_insert(0) += 1;
            }
        }
        for wanted in [
            (37, "65 lines"),
            (37, "2^32 - 1 lines"),
            (36, "own first"),
            (36, "own second"),
            (35, "kind 4"),
            (14, "second t"),
            (0, "a sum of one line"),
            (0, "a product of one line"),
            (0, "one rejected"),
            (0, "several rejected"),
            (0, "junk"),
            (0, "junk behind"),
        ] {
            assert!(met.get(&wanted) > Some(&20), "{wanted:?}: {met:#?}");
        }
    }
}
