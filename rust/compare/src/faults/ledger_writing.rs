//! Faults of making a ledger.

use crate::arithmetic::{multiply, power};
use crate::faults::Fault;
use crate::ledgers::counted;
use crate::library::Library::Judge;
use crate::library::lines::{COMMITMENT, PRODUCT, SUM};
use crate::library::{Base, Entries, Entry, Ledger, LedgerWritten, Line, MOST_LINES};

pub fn ledger_write(fault: Fault, base: Base, entries: &Entries) -> LedgerWritten {
    let right = Judge.ledger_write(base, entries);
    let mut answer = match right.refusal {
        0 => made(fault, base, entries, right),
        5 | 6 | 8 | 10 => right,
        _ => let_through(fault, base, entries, right),
    };
    if let Some(number) = asked_too(fault, &base, entries, answer.refusal) {
        answer = refused(number);
    }
    match (fault, answer.refusal) {
        (Fault::WriteRefusedCount, 1..) => answer.ledger.count = entries.count,
        (Fault::WriteRefusedKind, 1..) => answer.ledger.lines[0].kind = COMMITMENT,
        _ => {}
    }
    answer
}

/// A refusal with this number.
fn refused(refusal: u32) -> LedgerWritten {
    LedgerWritten { refusal, ..LedgerWritten::default() }
}

fn used(entries: &Entries) -> impl Iterator<Item = (u32, &Entry)> {
    (0..).zip(&entries.entries[..counted(entries.count)])
}

/// A number that is asked of what is not to be asked, if it comes before the right one.
fn asked_too(fault: Fault, base: &Base, entries: &Entries, right: u32) -> Option<u32> {
    let mut entries = used(entries);
    let (q, k) = (base.order, base.challenges);
    let (number, applies) = match fault {
        Fault::WriteCommitmentNames => (
            36,
            entries.any(|(number, entry)| {
                entry.kind == COMMITMENT && number > 0 && entry.first.max(entry.second) >= number
            }),
        ),
        Fault::WriteCommitmentChallenge => {
            (15, entries.any(|(_, entry)| entry.kind == COMMITMENT && entry.challenge >= k))
        }
        Fault::WriteCommitmentNonce => (
            16,
            entries
                .any(|(_, entry)| entry.kind == COMMITMENT && entry.nonce.iter().any(|k| *k >= q)),
        ),
        Fault::WriteSumTested => (
            16,
            entries.any(|(_, entry)| entry.kind == SUM && entry.value.max(entry.blinding) >= q),
        ),
        Fault::WriteProductValue => {
            (16, entries.any(|(_, entry)| entry.kind == PRODUCT && entry.value >= q))
        }
        _ => return None,
    };
    let earlier: &[u32] = match number {
        36 => &[0, 15, 16],
        15 => &[0, 16],
        _ => &[0],
    };
    (applies && earlier.contains(&right)).then_some(number)
}

/// What is answered in the place of a number that the entries are refused with.
fn let_through(fault: Fault, base: Base, entries: &Entries, right: LedgerWritten) -> LedgerWritten {
    let mut mended = *entries;
    match (fault, right.refusal) {
        (Fault::WriteSixtyFive, 37) if entries.count == 65 => mended.count = 64,
        (Fault::WriteCountCut, 37) => mended.count &= 0xff,
        (Fault::WriteByLine, 15 | 16) => {
            mended.count = first_refused(base, entries);
        }
        _ => {}
    }
    let later = match fault {
        Fault::WriteNamesFirst => 36,
        Fault::WriteSlotsFirst => 16,
        _ => 0,
    };
    let all = &mut mended.entries[..counted(mended.count)];
    for (number, entry) in (0..).zip(all) {
        mend(fault, &base, number, entry);
    }
    let answer = Judge.ledger_write(base, &mended);
    match later {
        0 => answer,
        number if answer.refusal == number => answer,
        _ => right,
    }
}

/// How many entries there are up to the first that is refused.
fn first_refused(base: Base, entries: &Entries) -> u32 {
    let is_refused = |count: &u32| {
        let front = Entries { count: *count, ..*entries };
        Judge.ledger_write(base, &front).refusal != 0
    };
    (1..=entries.count).find(is_refused).unwrap_or(entries.count)
}

/// Takes out what this fault lets through or asks later.
fn mend(fault: Fault, base: &Base, number: u32, entry: &mut Entry) {
    let one = Entry { kind: COMMITMENT, ..Entry::default() };
    let [_, _, third] = &mut entry.nonce;
    match (fault, entry.kind) {
        (Fault::WriteOwnFirst, SUM | PRODUCT) if entry.first == number => *entry = one,
        (Fault::WriteOwnSecond, SUM | PRODUCT) if entry.second == number => *entry = one,
        (Fault::WriteKindFour, 4) => entry.kind = PRODUCT,
        (Fault::WriteNamesFirst, 0 | 4..) => *entry = one,
        (Fault::WriteValueUntested, COMMITMENT) => entry.value %= base.order,
        (Fault::WriteBlindingUntested, COMMITMENT) => entry.blinding %= base.order,
        (Fault::WriteProductUntested, PRODUCT) => entry.blinding %= base.order,
        (Fault::WriteThirdNonce, PRODUCT) => *third %= base.order,
        (Fault::WriteChallengeUntested | Fault::WriteSlotsFirst, PRODUCT) => {
            entry.challenge %= base.challenges;
        }
        _ => {}
    }
}

/// What becomes of a ledger that is made.
fn made(fault: Fault, base: Base, entries: &Entries, right: LedgerWritten) -> LedgerWritten {
    let mut ledger = match fault {
        Fault::WriteUnreduced
        | Fault::WriteModM
        | Fault::WriteSumUnreduced
        | Fault::WriteSumBlinding
        | Fault::WriteFirstBlinding
        | Fault::WriteBlindingAdded
        | Fault::WriteExchanged
        | Fault::WriteProductOpening
        | Fault::WriteKeepsSum => written(fault, &base, entries),
        _ => right.ledger,
    };
    for (number, entry) in used(entries) {
        let line = &mut ledger.lines[number as usize];
        match (fault, entry.kind) {
            (Fault::WriteKeepsNames, COMMITMENT) => {
                (line.first, line.second) = (entry.first, entry.second);
            }
            (Fault::WriteKeepsChallenge, COMMITMENT | SUM) => line.challenge = entry.challenge,
            (Fault::WriteKeepsNonce, COMMITMENT | SUM) => line.response = entry.nonce,
            _ => {}
        }
    }
    let count = ledger.count as usize;
    match fault {
        Fault::WriteBeyond if count < MOST_LINES => {
            ledger.lines[count].kind = entries.entries[count].kind;
        }
        Fault::WriteFull => ledger.count = 64,
        _ => {}
    }
    LedgerWritten { ledger, refusal: 0 }
}

/// A value with its blinding number.
#[derive(Clone, Copy)]
struct Opening {
    value: u32,
    blinding: u32,
}

/// g^v h^ρ mod m.
fn commitment(base: &Base, opening: Opening) -> u32 {
    image(base, base.g, opening.value, opening.blinding)
}

/// b^x h^y mod m.
fn image(base: &Base, b: u32, x: u32, y: u32) -> u32 {
    let m = base.modulus;
    multiply(power(b, x, m), power(base.h, y, m), m)
}

/// The sum mod q.
fn add(a: u32, b: u32, q: u32) -> u32 {
    ((u64::from(a) + u64::from(b)) % u64::from(q)) as u32
}

/// The ledger of entries that are taken, made in another way.
fn written(fault: Fault, base: &Base, entries: &Entries) -> Ledger {
    let (mut ledger, mut openings) = (Ledger::default(), Vec::new());
    ledger.count = entries.count;
    for (number, entry) in used(entries) {
        let of = |number: u32| openings[number as usize];
        let (own, line) = match entry.kind {
            COMMITMENT => committed(base, entry),
            SUM => added(fault, base, entry, of(entry.first), of(entry.second)),
            _ => multiplied(fault, base, entry, of(entry.first), of(entry.second)),
        };
        ledger.lines[number as usize] = line;
        openings.push(own);
    }
    ledger
}

fn committed(base: &Base, entry: &Entry) -> (Opening, Line) {
    let own = Opening { value: entry.value, blinding: entry.blinding };
    let line = Line { kind: COMMITMENT, commitment: commitment(base, own), ..Line::default() };
    (own, line)
}

fn added(fault: Fault, base: &Base, entry: &Entry, a: Opening, b: Opening) -> (Opening, Line) {
    let q = base.order;
    let value = match fault {
        Fault::WriteSumUnreduced => a.value.wrapping_add(b.value),
        _ => add(a.value, b.value, q),
    };
    let blinding = match fault {
        Fault::WriteSumBlinding => a.blinding,
        _ => add(a.blinding, b.blinding, q),
    };
    let own = Opening { value, blinding };
    let stored = match fault {
        Fault::WriteKeepsSum => commitment(base, own),
        _ => 0,
    };
    let line = Line {
        kind: SUM,
        first: entry.first,
        second: entry.second,
        commitment: stored,
        ..Line::default()
    };
    (own, line)
}

/// The witness of a product.
fn witness(fault: Fault, base: &Base, blinding: u32, a: Opening, b: Opening) -> [u32; 3] {
    let q = base.order;
    let taken = match fault {
        Fault::WriteFirstBlinding => multiply(b.value, a.blinding, q),
        _ => multiply(a.value, b.blinding, q),
    };
    let third = match fault {
        Fault::WriteBlindingAdded => add(blinding, taken, q),
        _ => add(blinding, q - taken, q),
    };
    [a.value, a.blinding, third]
}

fn multiplied(fault: Fault, base: &Base, entry: &Entry, a: Opening, b: Opening) -> (Opening, Line) {
    let (q, c, [k1, k2, k3]) = (base.order, entry.challenge, entry.nonce);
    let (a, b) = match fault {
        Fault::WriteExchanged => (b, a),
        _ => (a, b),
    };
    let value = match fault {
        Fault::WriteUnreduced => a.value.wrapping_mul(b.value),
        Fault::WriteModM => multiply(a.value, b.value, base.modulus),
        _ => multiply(a.value, b.value, q),
    };
    let own = Opening { value, blinding: entry.blinding };
    let witness = witness(fault, base, entry.blinding, a, b);
    let slot = |place: usize| add(entry.nonce[place], multiply(c, witness[place], q), q);
    let second = commitment(base, b);
    let line = Line {
        kind: PRODUCT,
        first: entry.first,
        second: entry.second,
        commitment: commitment(base, own),
        t: [image(base, base.g, k1, k2), image(base, second, k1, k3)],
        challenge: c,
        response: [0, 1, 2].map(slot),
    };
    match fault {
        Fault::WriteProductOpening => (a, line),
        _ => (own, line),
    }
}
