//! A ledger of committed values: refusals 5, 6, 8, 10, 14 to 16 and 35 to 37.

use dimkhoros_sys::lines::{COMMITMENT, PRODUCT, SUM};
use dimkhoros_sys::{Base, Entries, Entry, Ledger, Line, MOST_LINES};

use super::arithmetic::{Arithmetic, Idiomatic, mul_mod, pow_mod};
use super::sheet::{Header, Kind};

/// What a checked ledger is found to be.
pub enum Checked {
    Accepted,
    /// The first product whose round is rejected.
    Rejected(usize),
}

/// Checks a ledger.
#[inline(never)]
pub fn ledger_check(base: &Base, ledger: &Ledger) -> Result<Checked, u32> {
    test_base(base)?;
    let lines = ledger.lines.get(..ledger.count as usize).ok_or(37u32)?;
    test_form(lines.iter().map(|line| [line.kind, line.first, line.second]))?;
    test_lines(base, lines)?;
    let mut commitments = [0; MOST_LINES];
    for (i, line) in lines.iter().enumerate() {
        let named = || [line.first, line.second].map(|named| commitments[named as usize]);
        let commitment = match line.kind {
            SUM => {
                let [a, b] = named();
                mul_mod(a, b, base.modulus)
            }
            PRODUCT if !is_accepted(base, named(), line) => return Ok(Checked::Rejected(i)),
            _ => line.commitment,
        };
        commitments[i] = commitment;
    }
    Ok(Checked::Accepted)
}

/// Makes the ledger of these entries. A refused call leaves the ledger as it is.
#[inline(never)]
pub fn ledger_write(base: &Base, entries: &Entries, ledger: &mut Ledger) -> Result<(), u32> {
    test_base(base)?;
    let used = entries.entries.get(..entries.count as usize).ok_or(37u32)?;
    test_form(used.iter().map(|entry| [entry.kind, entry.first, entry.second]))?;
    test_entries(base, used)?;
    let mut opened = [Opened::default(); MOST_LINES];
    for (i, entry) in used.iter().enumerate() {
        (opened[i], ledger.lines[i]) = made(base, entry, &opened);
    }
    ledger.lines[used.len()..].fill(Line::default());
    ledger.count = entries.count;
    Ok(())
}

/// Refusals 5, 6, 8 and 10.
fn test_base(base: &Base) -> Result<(), u32> {
    let &Base { g, h, modulus, order, challenges } = base;
    let kind = Kind::Exponent;
    Header { kind, modulus, order, challenges, rows: 2, columns: 3 }.tested::<Idiomatic>()?;
    if Idiomatic::have_order(&[g, h], order, modulus) { Ok(()) } else { Err(10) }
}

/// Refusals 35 and 36 of lines that are given by their kind and the two lines that
/// they name, the first of all before the second.
fn test_form(lines: impl Iterator<Item = [u32; 3]> + Clone) -> Result<(), u32> {
    if lines.clone().any(|[kind, ..]| ![COMMITMENT, SUM, PRODUCT].contains(&kind)) {
        return Err(35);
    }
    let is_above = |i: u32, [kind, a, b]: [u32; 3]| kind == COMMITMENT || a < i && b < i;
    if (0..).zip(lines).all(|(i, line)| is_above(i, line)) { Ok(()) } else { Err(36) }
}

/// Refusals 14 to 16 of a ledger's lines, each of all lines before the next.
fn test_lines(base: &Base, lines: &[Line]) -> Result<(), u32> {
    let elements = |values: &[u32]| Idiomatic::have_order(values, base.order, base.modulus);
    if !lines.iter().all(|line| match line.kind {
        COMMITMENT => elements(&[line.commitment]),
        PRODUCT => elements(&[line.commitment, line.t[0], line.t[1]]),
        _ => true,
    }) {
        return Err(14);
    }
    let mut products = lines.iter().filter(|line| line.kind == PRODUCT);
    if products.clone().any(|line| line.challenge >= base.challenges) {
        return Err(15);
    }
    if products.any(|line| line.response.iter().any(|&slot| slot >= base.order)) {
        return Err(16);
    }
    Ok(())
}

/// Refusals 15 and 16 of the entries, the first of all entries before the second.
fn test_entries(base: &Base, entries: &[Entry]) -> Result<(), u32> {
    let high = |slots: &[u32]| slots.iter().any(|&slot| slot >= base.order);
    if entries.iter().any(|entry| entry.kind == PRODUCT && entry.challenge >= base.challenges) {
        return Err(15);
    }
    if entries.iter().any(|entry| match entry.kind {
        COMMITMENT => high(&[entry.value, entry.blinding]),
        PRODUCT => high(&[entry.blinding]) || high(&entry.nonce),
        _ => false,
    }) {
        return Err(16);
    }
    Ok(())
}

/// The product of a to the power of x and b to the power of y, modulo m.
fn product(a: u32, x: u32, b: u32, y: u32, m: u32) -> u32 {
    mul_mod(pow_mod(a, x, m), pow_mod(b, y, m), m)
}

/// Whether the round of a product of lines with the commitments a and b is accepted.
fn is_accepted(base: &Base, [a, b]: [u32; 2], line: &Line) -> bool {
    let &Base { g, h, modulus: m, .. } = base;
    let ([t0, t1], [r0, r1, r2]) = (line.t, line.response);
    let expected = |t: u32, z: u32| mul_mod(t, pow_mod(z, line.challenge, m), m);
    product(g, r0, h, r1, m) == expected(t0, a)
        && product(b, r0, h, r2, m) == expected(t1, line.commitment)
}

/// What a line opens to, and its commitment.
#[derive(Clone, Copy, Default)]
struct Opened {
    value: u32,
    blinding: u32,
    commitment: u32,
}

/// What a line opens to, and the line, of an entry and what the lines above it open to.
fn made(base: &Base, entry: &Entry, above: &[Opened; MOST_LINES]) -> (Opened, Line) {
    let &Base { g, h, modulus: m, order: q, .. } = base;
    let &Entry { kind, first, second, value, blinding, nonce: [k0, k1, k2], challenge } = entry;
    let sum = |a: u32, b: u32| ((u64::from(a) + u64::from(b)) % u64::from(q)) as u32;
    let open = |value| Opened { value, blinding, commitment: product(g, value, h, blinding, m) };
    if kind == COMMITMENT {
        let opened = open(value);
        return (opened, Line { kind, commitment: opened.commitment, ..Line::default() });
    }
    let (a, b) = (&above[first as usize], &above[second as usize]);
    if kind == SUM {
        let opened = Opened {
            value: sum(a.value, b.value),
            blinding: sum(a.blinding, b.blinding),
            commitment: mul_mod(a.commitment, b.commitment, m),
        };
        return (opened, Line { kind, first, second, ..Line::default() });
    }
    let opened = open(mul_mod(a.value, b.value, q));
    let rest = sum(blinding, q - mul_mod(a.value, b.blinding, q));
    let respond = |k, x| sum(k, mul_mod(challenge, x, q));
    let line = Line {
        kind,
        first,
        second,
        commitment: opened.commitment,
        t: [product(g, k0, h, k1, m), product(b.commitment, k0, h, k2, m)],
        challenge,
        response: [respond(k0, a.value), respond(k1, a.blinding), respond(k2, rest)],
    };
    (opened, line)
}
