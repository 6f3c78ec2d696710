//! A ledger of committed values.

use crate::{Base, Entries, Instance, LedgerParts, MOST_LINES, Pattern, Patterns, Plan};
use crate::{Refusal, Round, places};
use core::fmt;
use dimkhoros_sys::{self as sys, lines};

/// A ledger of committed values: up to 64 lines, numbered from 0, over one g, h, m, q and K. A line is a commitment, the sum of two
/// lines above, or the product of two lines above.
///
/// g^v · h^b modulo m commits to the value v with the blinding number b. Commitments multiplied are one to the sum of their
/// values. A product has a commitment of its own and a round which shows that it is one to the product of the two values. Who
/// makes a ledger knows the values and writes it of [`Entries`]; who checks it knows none of them.
///
/// ```
/// use dimkhoros::{Base, Checked, Entries, Ledger};
///
/// let base = Base { g: 2, h: 3, modulus: 23, order: 11, challenges: 11 };
/// let mut entries = Entries::new();
/// let two = entries.commitment(2, 1)?;
/// let three = entries.commitment(3, 0)?;
/// entries.sum(two, three)?;
/// let six = entries.product(two, three, 4, [1, 2, 3], 3)?;
/// let ledger = Ledger::write(&base, &entries)?;
/// assert_eq!(ledger.commitments()?[..4], [12, 8, 4, 9]);
/// assert_eq!(ledger.check()?, Checked::Accepted);
///
/// // The same nonce with another challenge gives the first value, 2, its blinding number, 1, and a third number, 4.
/// let mut entries = Entries::new();
/// entries.commitment(2, 1)?;
/// entries.commitment(3, 0)?;
/// entries.sum(two, three)?;
/// entries.product(two, three, 4, [1, 2, 3], 5)?;
/// let (first, second) = (ledger.product(six)?, Ledger::write(&base, &entries)?.product(six)?);
/// let (first, second) = (first.expect("a product"), second.expect("a product"));
/// let witness = first.instance.extract(&first.round, &second.round)?;
/// assert_eq!(witness[..3], [2, 1, 4]);
/// # Ok::<(), dimkhoros::Refusal>(())
/// ```
#[derive(Clone, PartialEq, Eq, Hash)]
pub struct Ledger {
    base: Base,
    parts: LedgerParts,
}

impl Ledger {
    /// Makes the ledger of these entries, or refuses them: with 5, 6 or 8 for m, q or K, 10 for g or h, 15 for a challenge of K or
    /// more, and 16 for a value, blinding number or nonce of q or more.
    ///
    /// [`check`](Ledger::check) accepts what this call makes: this is proved.
    ///
    /// ```
    /// use dimkhoros::{Base, Entries, Ledger, Refusal};
    ///
    /// let base = Base { g: 2, h: 3, modulus: 23, order: 11, challenges: 11 };
    /// let mut entries = Entries::new();
    /// entries.commitment(2, 11)?;
    /// assert_eq!(Ledger::write(&base, &entries), Err(Refusal::Coordinate));
    /// assert_eq!(Ledger::write(&Base { g: 5, ..base }, &entries), Err(Refusal::Entry));
    /// # Ok::<(), Refusal>(())
    /// ```
    pub fn write(base: &Base, entries: &Entries) -> Result<Ledger, Refusal> {
        let written = sys::ledger_write(*base, entries.parts());
        Refusal::check(written.refusal)?;
        Ok(Ledger { base: *base, parts: written.ledger })
    }

    /// The ledger of these lines, as it is received from another, or refusal 37 if there are more than 64. Nothing else is tested:
    /// [`check`](Ledger::check) does that.
    ///
    /// ```
    /// use dimkhoros::{Base, Checked, Ledger, Line, Refusal};
    ///
    /// let base = Base { g: 2, h: 3, modulus: 23, order: 11, challenges: 11 };
    /// let lines = [Line::Commitment { commitment: 12 }, Line::Sum { first: 0, second: 0 }];
    /// assert_eq!(Ledger::from_lines(&base, &lines)?.check(), Ok(Checked::Accepted));
    /// assert_eq!(Ledger::from_lines(&base, &[lines[0]; 65]), Err(Refusal::LedgerSize));
    /// # Ok::<(), Refusal>(())
    /// ```
    pub fn from_lines(base: &Base, lines: &[Line]) -> Result<Ledger, Refusal> {
        let mut parts = LedgerParts::default();
        let places = parts.lines.get_mut(..lines.len()).ok_or(Refusal::LedgerSize)?;
        for (place, line) in places.iter_mut().zip(lines) {
            *place = line.parts();
        }
        parts.count = lines.len() as u32;
        Ok(Ledger { base: *base, parts })
    }

    /// Checks the ledger: accepted, or the first product whose round is rejected.
    ///
    /// Refused with 5, 6 or 8 for m, q or K, 10 for g or h, 37 for more than 64 lines, 35 for an unknown kind, 36 for a line that
    /// is not above, 14 for a commitment or a value of t outside the group, 15 for a challenge of K or more, and 16 for a response
    /// of q or more. Each is asked of all lines before the next, and all before any round is judged.
    ///
    /// ```
    /// use dimkhoros::{Base, Checked, Ledger, Line, Refusal};
    ///
    /// let base = Base { g: 2, h: 3, modulus: 23, order: 11, challenges: 11 };
    /// let two = Line::Commitment { commitment: 12 };
    /// let product = |r| Line::Product {
    ///     first: 0,
    ///     second: 0,
    ///     commitment: 9,
    ///     t: [18, 9],
    ///     challenge: 3,
    ///     response: [r, 5, 4],
    /// };
    /// assert_eq!(Ledger::from_lines(&base, &[two, product(7)])?.check(), Ok(Checked::Rejected { line: 1 }));
    /// assert_eq!(Ledger::from_lines(&base, &[two, product(11)])?.check(), Err(Refusal::Coordinate));
    /// # Ok::<(), Refusal>(())
    /// ```
    pub fn check(&self) -> Result<Checked, Refusal> {
        let checked = sys::ledger_check(self.base, &self.parts);
        Refusal::check(checked.refusal)?;
        if checked.accepted == 1 {
            return Ok(Checked::Accepted);
        }
        Ok(Checked::Rejected { line: checked.line as usize })
    }

    /// The commitments of all lines, and zeros behind the last line; or a refusal of [`check`](Ledger::check). A sum's is not
    /// stored: it is the commitments of its two lines multiplied modulo m.
    ///
    /// ```
    /// use dimkhoros::{Base, Ledger, Line};
    ///
    /// let base = Base { g: 2, h: 3, modulus: 23, order: 11, challenges: 11 };
    /// let lines = [Line::Commitment { commitment: 12 }, Line::Sum { first: 0, second: 0 }];
    /// assert_eq!(Ledger::from_lines(&base, &lines)?.commitments()?[..3], [12, 6, 0]);
    /// # Ok::<(), dimkhoros::Refusal>(())
    /// ```
    pub fn commitments(&self) -> Result<[u32; MOST_LINES], Refusal> {
        Refusal::check(sys::ledger_check(self.base, &self.parts).refusal)?;
        let modulus = u64::from(self.base.modulus);
        let mut found = [0; MOST_LINES];
        // Nothing is refused, so that there are 64 lines at most and each sum names lines above.
        for (number, line) in self.lines().enumerate() {
            found[number] = match line {
                Line::Sum { first, second } => {
                    (u64::from(found[first]) * u64::from(found[second]) % modulus) as u32
                }
                Line::Commitment { commitment } | Line::Product { commitment, .. } => commitment,
                Line::Unknown { .. } => 0,
            };
        }
        Ok(found)
    }

    /// The sheet and the round of a product, or nothing if the line of this number is none; or a refusal of
    /// [`check`](Ledger::check).
    ///
    /// The sheet is that of [`Pattern::Product`] with the values g, h and B and the statement A and E, where A is the commitment of
    /// the product's first line, B that of its second and E its own. The round is judged on it, and rounds of two ledgers on one t
    /// are given to [`Instance::extract`]: it answers a, α and δ, where a with α opens A. If b with β opens B, then a · b mod q with
    /// a · β + δ mod q opens E. This is proved.
    ///
    /// ```
    /// use dimkhoros::{Base, Entries, Ledger, Verdict};
    ///
    /// let base = Base { g: 2, h: 3, modulus: 23, order: 11, challenges: 11 };
    /// let mut entries = Entries::new();
    /// let two = entries.commitment(2, 1)?;
    /// let four = entries.product(two, two, 4, [1, 2, 3], 3)?;
    /// let ledger = Ledger::write(&base, &entries)?;
    /// assert_eq!(ledger.product(two)?, None);
    /// let product = ledger.product(four)?.expect("a product");
    /// assert_eq!(product.instance.judge(&product.round)?, Verdict::Accepted);
    /// # Ok::<(), dimkhoros::Refusal>(())
    /// ```
    pub fn product(&self, line: usize) -> Result<Option<Product>, Refusal> {
        let commitments = self.commitments()?;
        let Some(Line::Product { first, second, t, challenge, response, .. }) =
            self.lines().nth(line)
        else {
            return Ok(None);
        };
        let Base { g, h, modulus, order, challenges } = self.base;
        let plan = Plan {
            pattern: Pattern::Product.number(),
            modulus,
            order,
            challenges,
            values: &[g, h, commitments[second]],
            statement: &[commitments[first], commitments[line]],
        };
        let instance = Instance::from_pattern(&Patterns::shipped(), &plan)?;
        let round = Round { commitment: places(t), challenge, response: places(response) };
        Ok(Some(Product { instance, round }))
    }

    /// What the lines share.
    ///
    /// ```
    /// use dimkhoros::{Base, Ledger};
    ///
    /// let base = Base { g: 2, h: 3, modulus: 23, order: 11, challenges: 11 };
    /// assert_eq!(Ledger::from_lines(&base, &[])?.base(), &base);
    /// # Ok::<(), dimkhoros::Refusal>(())
    /// ```
    pub fn base(&self) -> &Base {
        &self.base
    }

    /// The lines in order, 64 at most.
    ///
    /// ```
    /// use dimkhoros::{Base, Ledger, Line};
    ///
    /// let base = Base { g: 2, h: 3, modulus: 23, order: 11, challenges: 11 };
    /// let lines = [Line::Commitment { commitment: 12 }, Line::Sum { first: 0, second: 0 }];
    /// assert!(Ledger::from_lines(&base, &lines)?.lines().eq(lines));
    /// # Ok::<(), dimkhoros::Refusal>(())
    /// ```
    pub fn lines(&self) -> impl Iterator<Item = Line> + '_ {
        let count = usize::try_from(self.parts.count).unwrap_or(MOST_LINES);
        self.parts.lines[..count.min(MOST_LINES)].iter().map(Line::of)
    }

    /// Takes the ledger apart: what its lines share, and its numbers.
    ///
    /// ```
    /// use dimkhoros::{Base, Ledger, Line};
    ///
    /// let base = Base { g: 2, h: 3, modulus: 23, order: 11, challenges: 11 };
    /// let ledger = Ledger::from_lines(&base, &[Line::Commitment { commitment: 12 }])?;
    /// let (_, parts) = ledger.into_parts();
    /// assert_eq!((parts.count, parts.lines[0].kind, parts.lines[0].commitment), (1, 1, 12));
    /// # Ok::<(), dimkhoros::Refusal>(())
    /// ```
    pub fn into_parts(self) -> (Base, LedgerParts) {
        (self.base, self.parts)
    }

    /// Puts a ledger together from its numbers, which may be any: [`check`](Ledger::check) tests them.
    ///
    /// ```
    /// use dimkhoros::{Base, Ledger, LedgerParts, Refusal};
    ///
    /// let base = Base { g: 2, h: 3, modulus: 23, order: 11, challenges: 11 };
    /// let parts = LedgerParts { count: 65, ..LedgerParts::default() };
    /// assert_eq!(Ledger::from_parts(base, parts).check(), Err(Refusal::LedgerSize));
    /// ```
    pub fn from_parts(base: Base, parts: LedgerParts) -> Ledger {
        Ledger { base, parts }
    }
}

/// Shows the base and the lines.
impl fmt::Debug for Ledger {
    fn fmt(&self, f: &mut fmt::Formatter<'_>) -> fmt::Result {
        struct Lines<'a>(&'a Ledger);
        impl fmt::Debug for Lines<'_> {
            fn fmt(&self, f: &mut fmt::Formatter<'_>) -> fmt::Result {
                f.debug_list().entries(self.0.lines()).finish()
            }
        }
        f.debug_struct("Ledger")
            .field("base", &self.base)
            .field("lines", &Lines(self))
            .finish_non_exhaustive()
    }
}

/// A line of a ledger, with the numbers that its kind uses.
///
/// ```
/// use dimkhoros::Line;
///
/// assert_eq!(Line::Commitment { commitment: 12 }.to_string(), "commitment 12");
/// assert_eq!(Line::Sum { first: 0, second: 1 }.to_string(), "sum of lines 0 and 1");
/// ```
#[derive(Clone, Copy, Debug, PartialEq, Eq, Hash)]
pub enum Line {
    /// A commitment.
    Commitment {
        /// The commitment.
        commitment: u32,
    },
    /// The sum of two lines above, whose commitment is theirs multiplied and is not stored.
    Sum {
        /// The number of the first.
        first: usize,
        /// The number of the second, which may be the same.
        second: usize,
    },
    /// The product of two lines above.
    Product {
        /// The number of the first.
        first: usize,
        /// The number of the second, which may be the same.
        second: usize,
        /// The product's own commitment.
        commitment: u32,
        /// t of the round.
        t: [u32; 2],
        /// The challenge c of the round.
        challenge: u32,
        /// The response r of the round.
        response: [u32; 3],
    },
    /// A line of another kind, with which a ledger is refused with 35.
    Unknown {
        /// The kind.
        kind: u32,
    },
}

impl Line {
    /// The line of these numbers.
    fn of(parts: &sys::Line) -> Line {
        let sys::Line { kind, first, second, commitment, t, challenge, response } = *parts;
        let (first, second) = (first as usize, second as usize);
        match kind {
            lines::COMMITMENT => Line::Commitment { commitment },
            lines::SUM => Line::Sum { first, second },
            lines::PRODUCT => Line::Product { first, second, commitment, t, challenge, response },
            _ => Line::Unknown { kind },
        }
    }

    /// Its numbers, with 0 where its kind uses none.
    fn parts(self) -> sys::Line {
        let none = sys::Line::default();
        match self {
            Line::Commitment { commitment } => {
                sys::Line { kind: lines::COMMITMENT, commitment, ..none }
            }
            Line::Sum { first, second } => {
                sys::Line { kind: lines::SUM, first: number(first), second: number(second), ..none }
            }
            Line::Product { first, second, commitment, t, challenge, response } => {
                let (first, second) = (number(first), number(second));
                let kind = lines::PRODUCT;
                sys::Line { kind, first, second, commitment, t, challenge, response }
            }
            Line::Unknown { kind } => sys::Line { kind, ..none },
        }
    }
}

/// A line's number as the library takes it. One that does not fit is no line above either.
fn number(line: usize) -> u32 {
    u32::try_from(line).unwrap_or(u32::MAX)
}

impl fmt::Display for Line {
    fn fmt(&self, f: &mut fmt::Formatter<'_>) -> fmt::Result {
        match self {
            Line::Commitment { commitment } => write!(f, "commitment {commitment}"),
            Line::Sum { first, second } => write!(f, "sum of lines {first} and {second}"),
            Line::Product { first, second, commitment, .. } => {
                write!(f, "product of lines {first} and {second}, commitment {commitment}")
            }
            Line::Unknown { kind } => write!(f, "a line of the unknown kind {kind}"),
        }
    }
}

/// What a checked ledger is found to be.
///
/// ```
/// use dimkhoros::Checked;
///
/// assert_eq!(Checked::Accepted.to_string(), "accepted");
/// assert_eq!(Checked::Rejected { line: 3 }.to_string(), "rejected in line 3");
/// ```
#[derive(Clone, Copy, Debug, PartialEq, Eq, Hash)]
#[must_use]
pub enum Checked {
    /// The round of every product is accepted.
    Accepted,
    /// The round of a product is rejected.
    Rejected {
        /// The first product whose round is rejected.
        line: usize,
    },
}

impl Checked {
    /// Whether the ledger is accepted.
    ///
    /// ```
    /// use dimkhoros::Checked;
    ///
    /// assert!(Checked::Accepted.is_accepted());
    /// assert!(!Checked::Rejected { line: 3 }.is_accepted());
    /// ```
    pub fn is_accepted(self) -> bool {
        self == Checked::Accepted
    }
}

impl fmt::Display for Checked {
    fn fmt(&self, f: &mut fmt::Formatter<'_>) -> fmt::Result {
        match self {
            Checked::Accepted => f.write_str("accepted"),
            Checked::Rejected { line } => write!(f, "rejected in line {line}"),
        }
    }
}

/// The sheet and the round of a product of a ledger.
///
/// ```
/// use dimkhoros::{Base, Entries, Ledger};
///
/// let base = Base { g: 2, h: 3, modulus: 23, order: 11, challenges: 11 };
/// let mut entries = Entries::new();
/// entries.commitment(2, 1)?;
/// entries.product(0, 0, 4, [1, 2, 3], 3)?;
/// let product = Ledger::write(&base, &entries)?.product(1)?.expect("a product");
/// assert_eq!((product.instance.values().header.columns, product.round.challenge), (3, 3));
/// # Ok::<(), dimkhoros::Refusal>(())
/// ```
#[derive(Clone, Debug, PartialEq, Eq, Hash)]
pub struct Product {
    /// The sheet.
    pub instance: Instance,
    /// The round.
    pub round: Round,
}
