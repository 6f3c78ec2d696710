//! A ledger of committed values.
//!
//! Exercise 10.3 of document 001 computes on commitments C(v, ρ) = g^v h^ρ. A
//! line of a ledger is a commitment (kind 1), the sum of two earlier lines (2)
//! or the product of two earlier lines (3). The product of the commitments A
//! and B has a commitment E of its own and a round of the product statement,
//! which is pattern 5 with the public values g, h, B and the statement (A, E).
//!
//! The sum's commitment is the product of the two commitments and is not
//! stored. The numbers that a kind does not use, and the lines beyond the
//! count, are not read, and they are 0 in a ledger that is written.

use crate::arithmetic::{multiply, power, reduce};
use crate::pattern::make;
use crate::protocol::{Round, Verdict, judge, test_challenge};
use crate::sessions::{Prover, commit, respond};
use crate::sheet::{Sheet, load};

/// The room for lines.
const ROOM: usize = 64;

/// The kinds of lines.
const COMMITMENT: u32 = 1;
const SUM: u32 = 2;
const PRODUCT: u32 = 3;

/// The bytes of a sheet of pattern 5: 20, 2 × 3 entries and 2 statement values.
const SHEET: usize = 52;

/// What all lines of a ledger share.
#[derive(Clone, Copy, PartialEq, Eq, Debug)]
pub struct Base {
    /// The base g of the value.
    pub g: u32,
    /// The base h of the blinding ρ.
    pub h: u32,
    /// The modulus m.
    pub modulus: u32,
    /// The order q.
    pub order: u32,
    /// The challenge count K.
    pub challenges: u32,
}

/// A line of a ledger.
#[derive(Clone, Copy, PartialEq, Eq, Debug)]
pub struct Line {
    /// 1 for a commitment, 2 for a sum, 3 for a product.
    pub kind: u32,
    /// The number of the first line, from 0. Kinds 2 and 3 use it.
    pub first: u32,
    /// The number of the second line, from 0. Kinds 2 and 3 use it.
    pub second: u32,
    /// The line's own commitment. Kinds 1 and 3 use it.
    pub commitment: u32,
    /// The round's commitment t. Kind 3 uses it.
    pub t: [u32; 2],
    /// The round's challenge c. Kind 3 uses it.
    pub challenge: u32,
    /// The round's response r. Kind 3 uses it.
    pub response: [u32; 3],
}

/// A ledger: the lines and how many of them are in use.
#[derive(Clone, Copy, PartialEq, Eq, Debug)]
pub struct Ledger {
    /// The lines, from 0. Those at or beyond the count are not read.
    pub lines: [Line; 64],
    /// How many lines there are.
    pub count: u32,
}

/// What a checked ledger comes to.
#[derive(Clone, Copy, PartialEq, Eq, Debug)]
pub enum Checked {
    /// The round of every product line is accepted.
    Accepted,
    /// The first product line whose round is rejected.
    Rejected {
        /// Its number, from 0.
        line: u32,
    },
}

/// What the writer takes for a line.
#[derive(Clone, Copy, PartialEq, Eq, Debug)]
pub struct Wish {
    /// 1 for a commitment, 2 for a sum, 3 for a product.
    pub kind: u32,
    /// The number of the first line, from 0. Kinds 2 and 3 use it.
    pub first: u32,
    /// The number of the second line, from 0. Kinds 2 and 3 use it.
    pub second: u32,
    /// The value. Kind 1 uses it.
    pub value: u32,
    /// The blinding ρ. Kinds 1 and 3 use it.
    pub blinding: u32,
    /// The nonce of the round. Kind 3 uses it.
    pub nonce: [u32; 3],
    /// The challenge of the round. Kind 3 uses it.
    pub challenge: u32,
}

/// What the writer takes for a ledger.
#[derive(Clone, Copy, PartialEq, Eq, Debug)]
pub struct Wishes {
    /// The wishes, from 0. Those at or beyond the count are not read.
    pub entries: [Wish; 64],
    /// How many wishes there are.
    pub count: u32,
}

/// The line with zeros everywhere.
const EMPTY: Line =
    Line { kind: 0, first: 0, second: 0, commitment: 0, t: [0; 2], challenge: 0, response: [0; 3] };

/// An opening (v, ρ) of a commitment C(v, ρ).
#[derive(Clone, Copy)]
struct Opening {
    value: u32,
    blinding: u32,
}

impl Base {
    /// The bytes of the product statement's sheet: pattern 5 with the public
    /// values g, h, B and the statement (A, E).
    fn statement(&self, a: u32, b: u32, e: u32) -> Result<[u8; SHEET], u32> {
        let mut sheet = [0; SHEET];
        make(
            5,
            self.modulus,
            self.order,
            self.challenges,
            &[self.g, self.h, b],
            &[a, e],
            &mut sheet,
        )?;
        Ok(sheet)
    }

    /// The product statement's sheet with 1 for A, B and E, after the tests 5,
    /// 6, 8 and 10 of the base.
    fn sheet(&self) -> Result<Sheet, u32> {
        // From 5 on, 1 is a group element. So 10 is about g and h, and 11
        // never applies.
        load(&self.statement(1, 1, 1)?)
    }

    /// The commitment C(v, ρ) = g^v h^ρ mod m.
    fn commitment(&self, opening: Opening) -> u32 {
        let m = self.modulus;
        let left = power(self.g, u128::from(opening.value), m);
        let right = power(self.h, u128::from(opening.blinding), m);
        multiply(left, right, m)
    }
}

/// Refuses with 37 for a count above 64, then with 35 for a kind outside 1 to 3
/// and with 36 for a sum or a product of a line that is not above it.
///
/// Each line is given as its kind and its two lines.
fn test_form(count: u32, lines: &[[u32; 3]; ROOM]) -> Result<(), u32> {
    if count > 64 {
        return Err(37);
    }
    let used = &lines[..count as usize];
    for [kind, _, _] in used {
        if ![COMMITMENT, SUM, PRODUCT].contains(kind) {
            return Err(35);
        }
    }
    // Decision: "a line not above" is a line that is not "earlier": the line
    // itself, a later one, or one that the ledger doesn't have.
    for (number, [kind, first, second]) in (0..).zip(used) {
        let is_above = |line: u32| line < number;
        if *kind != COMMITMENT && !(is_above(*first) && is_above(*second)) {
            return Err(36);
        }
    }
    Ok(())
}

/// Tests 14, 15 and 16 of the lines in use, each of all lines before the next.
fn test_lines(sheet: &Sheet, lines: &[Line]) -> Result<(), u32> {
    // Decision: a line's commitment and its round's t are both 14, though the
    // commitment is a statement value or a public value of a product's sheet.
    // "A line's commitment that is no group element is 14."
    for line in lines {
        if line.kind != SUM && !sheet.is_group_element(line.commitment) {
            return Err(14);
        }
        if line.kind == PRODUCT && line.t.iter().any(|v| !sheet.is_group_element(*v)) {
            return Err(14);
        }
    }
    for line in lines.iter().filter(|line| line.kind == PRODUCT) {
        test_challenge(sheet, line.challenge)?;
    }
    for line in lines.iter().filter(|line| line.kind == PRODUCT) {
        if line.response.iter().any(|slot| !sheet.is_domain_slot(*slot)) {
            return Err(16);
        }
    }
    Ok(())
}

/// The commitment of every line in use, those of the sums too.
fn commitments(base: &Base, lines: &[Line]) -> Vec<u32> {
    let mut all: Vec<u32> = Vec::new();
    for line in lines {
        all.push(match line.kind {
            SUM => {
                let (one, other) = (all[line.first as usize], all[line.second as usize]);
                multiply(one, other, base.modulus)
            }
            _ => line.commitment,
        });
    }
    all
}

/// The first places of eight, with 0 in the others.
fn padded(values: &[u32]) -> [u32; 8] {
    let mut places = [0; 8];
    places[..values.len()].copy_from_slice(values);
    places
}

/// Checks a ledger: accepted when the round of every product line is, otherwise
/// rejected with the first product line whose round is not.
///
/// Refuses with 5, 6 and 8 for the modulus, the order and the challenge count,
/// and with 10 when g or h is no group element. Then with 37 for more than 64
/// lines, 35 for an unknown kind and 36 for a line that is not above. Then with
/// 14 for a line's commitment or a value of a round's commitment that is no
/// group element, 15 for a challenge of K or more and 16 for a response slot of
/// q or more.
pub fn check(base: &Base, ledger: &Ledger) -> Result<Checked, u32> {
    let sheet = base.sheet()?;
    let form = ledger.lines.map(|line| [line.kind, line.first, line.second]);
    test_form(ledger.count, &form)?;
    let lines = &ledger.lines[..ledger.count as usize];
    test_lines(&sheet, lines)?;
    let commitments = commitments(base, lines);
    for (number, line) in (0..).zip(lines) {
        if line.kind != PRODUCT {
            continue;
        }
        let a = commitments[line.first as usize];
        let b = commitments[line.second as usize];
        let round = Round {
            commitment: padded(&line.t),
            challenge: line.challenge,
            response: padded(&line.response),
        };
        match judge(&base.statement(a, b, line.commitment)?, &round) {
            Verdict::Accepted => {}
            Verdict::Rejected(_) => return Ok(Checked::Rejected { line: number }),
            // A product of group elements is one, so the tests above leave
            // nothing to refuse.
            Verdict::Refused(refusal) => return Err(refusal),
        }
    }
    Ok(Checked::Accepted)
}

/// Tests 15 and 16 of the wishes in use, the first of all before the second.
fn test_wishes(sheet: &Sheet, wishes: &[Wish]) -> Result<(), u32> {
    for wish in wishes.iter().filter(|wish| wish.kind == PRODUCT) {
        test_challenge(sheet, wish.challenge)?;
    }
    for wish in wishes {
        let [first, second, third] = wish.nonce;
        let slots = match wish.kind {
            COMMITMENT => vec![wish.value, wish.blinding],
            PRODUCT => vec![wish.blinding, first, second, third],
            _ => vec![],
        };
        if slots.iter().any(|slot| !sheet.is_domain_slot(*slot)) {
            return Err(16);
        }
    }
    Ok(())
}

/// The product line of two lines' openings: the commitment to their product
/// and the honest round of the witness (a, α, ε − aβ).
///
/// Answers the line's own opening too. The wish has passed 15 and 16.
fn product(
    base: &Base,
    wish: &Wish,
    first: Opening,
    second: Opening,
) -> Result<(Opening, Line), u32> {
    let q = base.order;
    let own = Opening { value: multiply(first.value, second.value, q), blinding: wish.blinding };
    let [a, b, e] = [first, second, own].map(|opening| base.commitment(opening));
    let taken = i128::from(multiply(first.value, second.blinding, q));
    let witness = [first.value, first.blinding, reduce(i128::from(own.blinding) - taken, q)];
    // Nothing is refused from here on: the commitments are group elements, and
    // the witness is carried to the statement.
    let sheet = base.statement(a, b, e)?;
    let (t, session) = commit(&sheet, Prover::new(), &padded(&wish.nonce));
    let (r, _) = respond(&sheet, session, wish.challenge, &padded(&witness));
    let (t, r) = (t?, r?);
    let line = Line {
        kind: PRODUCT,
        first: wish.first,
        second: wish.second,
        commitment: e,
        t: [t[0], t[1]],
        challenge: wish.challenge,
        response: [r[0], r[1], r[2]],
    };
    Ok((own, line))
}

/// Writes the ledger of these wishes: a commitment to its value and ρ, the sum
/// of two lines, or the product of two lines with its ρ, nonce and challenge.
/// The checker accepts it.
///
/// Refuses with 5, 6 and 8 for the modulus, the order and the challenge count,
/// and with 10 when g or h is no group element. Then with 37 for more than 64
/// wishes, 35 for an unknown kind and 36 for a line that is not above. Then with
/// 15 for a challenge of K or more and 16 for a value, ρ or nonce slot of q or
/// more.
pub fn write(base: &Base, wishes: &Wishes) -> Result<Ledger, u32> {
    let sheet = base.sheet()?;
    let form = wishes.entries.map(|wish| [wish.kind, wish.first, wish.second]);
    test_form(wishes.count, &form)?;
    let used = &wishes.entries[..wishes.count as usize];
    test_wishes(&sheet, used)?;
    let mut ledger = Ledger { lines: [EMPTY; ROOM], count: wishes.count };
    let mut openings: Vec<Opening> = Vec::new();
    for (line, wish) in ledger.lines.iter_mut().zip(used) {
        if wish.kind == COMMITMENT {
            let own = Opening { value: wish.value, blinding: wish.blinding };
            line.kind = COMMITMENT;
            line.commitment = base.commitment(own);
            openings.push(own);
            continue;
        }
        let first = openings[wish.first as usize];
        let second = openings[wish.second as usize];
        if wish.kind == SUM {
            let sum = |one: u32, other: u32| {
                let whole = i128::from(one) + i128::from(other);
                reduce(whole, base.order)
            };
            line.kind = SUM;
            line.first = wish.first;
            line.second = wish.second;
            openings.push(Opening {
                value: sum(first.value, second.value),
                blinding: sum(first.blinding, second.blinding),
            });
        } else {
            let (own, made) = product(base, wish, first, second)?;
            *line = made;
            openings.push(own);
        }
    }
    Ok(ledger)
}
