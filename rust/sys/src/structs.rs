//! The structs that cross, with the layout of C. A refusal is 0 where nothing is refused; beside any other number stand zeros,
//! or the session or watch as it was given.

use crate::{LONGEST_SHEET, MOST_ANSWERED, MOST_LINES, MOST_REMEMBERED, Places, SAVED_STATES};
use core::fmt;

/// The fixed fields of a sheet.
///
/// ```
/// # use dimkhoros_sys::{EXPONENT, Header};
/// let header = Header { kind: EXPONENT, modulus: 23, order: 11, challenges: 11, rows: 1, columns: 1 };
/// assert_eq!(header.order, 11);
/// ```
#[derive(Clone, Copy, Debug, Default, PartialEq, Eq, Hash)]
#[repr(C)]
pub struct Header {
    /// The kind, [`EXPONENT`](crate::EXPONENT) or [`ROOT`](crate::ROOT).
    pub kind: u32,
    /// The modulus m.
    pub modulus: u32,
    /// The order q of an exponent sheet, the exponent e of a root sheet.
    pub order: u32,
    /// The challenge count K. The challenges are 0 to K - 1.
    pub challenges: u32,
    /// The rows s.
    pub rows: u32,
    /// The columns n.
    pub columns: u32,
}

/// A loaded sheet, but for its entries.
#[derive(Clone, Copy, Debug, Default, PartialEq, Eq, Hash)]
#[repr(C)]
pub struct Loaded {
    /// The fixed fields.
    pub header: Header,
    /// The statement z.
    pub statement: Places,
    /// The refusal.
    pub refusal: u32,
}

/// What a call that writes to a buffer answers.
#[derive(Clone, Copy, Debug, Default, PartialEq, Eq, Hash)]
#[repr(C)]
pub struct Written {
    /// How many bytes of the buffer are in use.
    pub length: usize,
    /// The refusal.
    pub refusal: u32,
}

/// One run of the protocol.
///
/// ```
/// # use dimkhoros_sys::Round;
/// let round = Round { commitment: [9, 0, 0, 0, 0, 0, 0, 0], challenge: 3, response: [4, 0, 0, 0, 0, 0, 0, 0] };
/// assert_eq!(round.commitment[0], 9);
/// ```
#[derive(Clone, Copy, Debug, Default, PartialEq, Eq, Hash)]
#[repr(C)]
pub struct Round {
    /// The commitment t.
    pub commitment: Places,
    /// The challenge c.
    pub challenge: u32,
    /// The response r.
    pub response: Places,
}

/// How many rounds a round file has.
#[derive(Clone, Copy, Debug, Default, PartialEq, Eq, Hash)]
#[repr(C)]
pub struct Counted {
    /// The count.
    pub count: u32,
    /// The refusal.
    pub refusal: u32,
}

/// A round that was read from a round file.
#[derive(Clone, Copy, Debug, Default, PartialEq, Eq, Hash)]
#[repr(C)]
pub struct Fetched {
    /// The round.
    pub round: Round,
    /// The refusal.
    pub refusal: u32,
}

/// Where a round stands in the caller's file. Both numbers are 0 where it is refused.
#[derive(Clone, Copy, Debug, Default, PartialEq, Eq, Hash)]
#[repr(C)]
pub struct Part {
    /// The place of its first byte.
    pub offset: usize,
    /// How many bytes it has.
    pub length: usize,
}

/// Whether two rounds of a file have the same commitment.
#[derive(Clone, Copy, Debug, Default, PartialEq, Eq, Hash)]
#[repr(C)]
pub struct Compared {
    /// 1 if they have, else 0.
    pub same: u32,
    /// The refusal.
    pub refusal: u32,
}

/// A simulated commitment or an extracted witness.
#[derive(Clone, Copy, Debug, Default, PartialEq, Eq, Hash)]
#[repr(C)]
pub struct Computed {
    /// The commitment or the witness.
    pub values: Places,
    /// The refusal.
    pub refusal: u32,
}

/// A verdict. It is accepted only where `accepted` is 1: a refused round has 0 there too.
///
/// ```
/// # use dimkhoros_sys::Judgement;
/// let verdict = Judgement { accepted: 0, rows: 0b1000_0101, refusal: 0 };
/// let differ: Vec<u32> = (0..8).filter(|row| verdict.rows >> row & 1 == 1).collect();
/// assert_eq!(differ, [0, 2, 7]);
/// ```
#[derive(Clone, Copy, Debug, Default, PartialEq, Eq, Hash)]
#[repr(C)]
pub struct Judgement {
    /// 1 if the two sides agree in every row, else 0.
    pub accepted: u32,
    /// The mask of the rows, from 0, in which they differ: bit i, of value 2^i, is set where row i is one of them. No bit from
    /// 2^s on is set. It is 0 of an accepted and of a refused round.
    pub rows: u32,
    /// The refusal.
    pub refusal: u32,
}

/// One run of the OR proof. Side 1 has the challenge (c - c0) mod K.
///
/// ```
/// # use dimkhoros_sys::OrRound;
/// let round = OrRound { challenge: 2, challenge0: 4, ..OrRound::default() };
/// assert_eq!(round.commitment1, [0; 8]);
/// ```
#[derive(Clone, Copy, Debug, Default, PartialEq, Eq, Hash)]
#[repr(C)]
pub struct OrRound {
    /// Side 0's commitment.
    pub commitment0: Places,
    /// Side 1's commitment.
    pub commitment1: Places,
    /// Side 0's response.
    pub response0: Places,
    /// Side 1's response.
    pub response1: Places,
    /// The challenge c.
    pub challenge: u32,
    /// Side 0's challenge c0.
    pub challenge0: u32,
}

/// A verdict on a round of the OR proof. It is accepted only where `accepted` is 1: a refused round has 0 there too.
#[derive(Clone, Copy, Debug, Default, PartialEq, Eq, Hash)]
#[repr(C)]
pub struct OrJudgement {
    /// 1 if both sides are accepted, else 0.
    pub accepted: u32,
    /// The mask of the rows in which side 0's two values differ, as in [`Judgement`]. It is 0 where side 0 is accepted.
    pub rows0: u32,
    /// The same of side 1.
    pub rows1: u32,
    /// The refusal.
    pub refusal: u32,
}

/// An extracted witness of one of two sheets.
#[derive(Clone, Copy, Debug, Default, PartialEq, Eq, Hash)]
#[repr(C)]
pub struct OrExtracted {
    /// The witness.
    pub values: Places,
    /// The side that it is a witness of, 0 or 1.
    pub side: u32,
    /// The refusal.
    pub refusal: u32,
}

/// A saved state of Peggy's session: what a return brings back. It keeps its nonce, whatever the session does, and `Debug` does
/// not show it.
#[derive(Clone, Copy, Default, PartialEq, Eq, Hash)]
#[repr(C)]
pub struct Saved {
    /// The nonce.
    pub nonce: Places,
    /// The commitment.
    pub commitment: Places,
    /// The phase, a number of [`phases::prover`](crate::phases::prover). Any other is taken as Dropped.
    pub phase: u32,
    /// 0 if nothing was saved under this name, 1 after a save. Any other number is taken as 1.
    pub kept: u32,
}

/// Shows all but the nonce.
impl fmt::Debug for Saved {
    fn fmt(&self, f: &mut fmt::Formatter<'_>) -> fmt::Result {
        f.debug_struct("Saved")
            .field("commitment", &self.commitment)
            .field("phase", &self.phase)
            .field("kept", &self.kept)
            .finish_non_exhaustive()
    }
}

/// A commitment that was answered.
#[derive(Clone, Copy, Debug, Default, PartialEq, Eq, Hash)]
#[repr(C)]
pub struct Listed {
    /// The commitment.
    pub commitment: Places,
}

/// What Peggy's session keeps beside its state.
#[derive(Clone, Copy, Debug, PartialEq, Eq, Hash)]
#[repr(C)]
pub struct Memory {
    /// The saved states, by name.
    pub saved: [Saved; SAVED_STATES],
    /// The answered commitments. Those from `count` on are not read.
    pub answered: [Listed; MOST_ANSWERED],
    /// How many commitments were answered.
    pub count: u32,
}

/// Nothing saved and nothing listed.
impl Default for Memory {
    fn default() -> Memory {
        Memory { saved: Default::default(), answered: [Listed::default(); MOST_ANSWERED], count: 0 }
    }
}

/// Peggy's session.
///
/// It is a struct of numbers, and a copy of it is as good as the first: whoever answers two challenges from two copies of one
/// session gives the witness away. `Debug` shows no nonce, held or saved.
#[derive(Clone, Copy, Default, PartialEq, Eq, Hash)]
#[repr(C)]
pub struct ProverSession {
    /// The nonce, zeros where none is held.
    pub nonce: Places,
    /// The commitment.
    pub commitment: Places,
    /// The phase, a number of [`phases::prover`](crate::phases::prover) or any other. Any other is taken as Dropped: commit,
    /// respond and drop are refused, and a save writes 3, here too.
    pub phase: u32,
    /// The saved states and the answered commitments.
    pub memory: Memory,
}

/// Shows all but the nonces.
impl fmt::Debug for ProverSession {
    fn fmt(&self, f: &mut fmt::Formatter<'_>) -> fmt::Result {
        f.debug_struct("ProverSession")
            .field("commitment", &self.commitment)
            .field("phase", &self.phase)
            .field("memory", &self.memory)
            .finish_non_exhaustive()
    }
}

/// What a call on Peggy's session answers.
#[derive(Clone, Copy, Debug, Default, PartialEq, Eq, Hash)]
#[repr(C)]
pub struct ProverAnswer {
    /// The session to go on with.
    pub session: ProverSession,
    /// The commitment or the response.
    pub values: Places,
    /// The refusal.
    pub refusal: u32,
}

/// Vic's session.
#[derive(Clone, Copy, Debug, Default, PartialEq, Eq, Hash)]
#[repr(C)]
pub struct VerifierSession {
    /// The commitment.
    pub commitment: Places,
    /// The challenge.
    pub challenge: u32,
    /// The phase, a number of [`phases::verifier`](crate::phases::verifier) or any other.
    pub phase: u32,
}

/// What bringing a commitment or a challenge to Vic's session answers.
#[derive(Clone, Copy, Debug, Default, PartialEq, Eq, Hash)]
#[repr(C)]
pub struct VerifierAnswer {
    /// The session to go on with.
    pub session: VerifierSession,
    /// The refusal.
    pub refusal: u32,
}

/// What bringing a response to Vic's session answers.
#[derive(Clone, Copy, Debug, Default, PartialEq, Eq, Hash)]
#[repr(C)]
pub struct VerifierJudgement {
    /// The verdict.
    pub verdict: Judgement,
    /// The session to go on with.
    pub session: VerifierSession,
}

/// Peggy's session of the OR proof.
///
/// A copy of it is as good as the first, as with [`ProverSession`]. The side and the simulated values tell which of the two
/// witnesses she holds.
#[derive(Clone, Copy, Debug, Default, PartialEq, Eq, Hash)]
#[repr(C)]
pub struct OrSession {
    /// The nonce of the side whose witness she knows, zeros where none is held.
    pub nonce: Places,
    /// The other side's response, which is simulated.
    pub response: Places,
    /// Side 0's commitment.
    pub commitment0: Places,
    /// Side 1's commitment.
    pub commitment1: Places,
    /// The other side's challenge, which is simulated.
    pub challenge: u32,
    /// The side whose witness she knows, 0 or 1.
    pub side: u32,
    /// The phase, a number of [`phases::prover`](crate::phases::prover) or any other.
    pub phase: u32,
}

/// What a call on Peggy's session of the OR proof answers.
#[derive(Clone, Copy, Debug, Default, PartialEq, Eq, Hash)]
#[repr(C)]
pub struct OrAnswer {
    /// The session to go on with.
    pub session: OrSession,
    /// Side 0's commitment or response.
    pub values0: Places,
    /// Side 1's commitment or response.
    pub values1: Places,
    /// c0 beside the responses, 0 beside the commitments.
    pub challenge0: u32,
    /// The refusal.
    pub refusal: u32,
}

/// A watch for used nonces: the bytes of the sheet that it was opened on, and the last accepted rounds that it was given.
///
/// It is a value: two copies of a watch go on apart, and neither knows the rounds that the other is given. It may hold
/// anything: one that does not fit the sheet of a call is refused with 21.
#[derive(Clone, Copy, Debug, PartialEq, Eq, Hash)]
#[repr(C)]
pub struct Watch {
    /// The remembered rounds, the newest first. Those from `count` on are not read.
    pub rounds: [Round; MOST_REMEMBERED],
    /// The sheet. Its bytes from `length` on are not read.
    pub sheet: [u8; LONGEST_SHEET],
    /// How many bytes the sheet has.
    pub length: u32,
    /// How many rounds are remembered.
    pub count: u32,
}

/// What opening a watch answers. A refused one has a watch of no bytes, which fits no sheet.
#[derive(Clone, Copy, Debug, PartialEq, Eq, Hash)]
#[repr(C)]
pub struct Opened {
    /// The watch.
    pub watch: Watch,
    /// The refusal.
    pub refusal: u32,
}

/// What a watch answers to a round.
#[derive(Clone, Copy, Debug, PartialEq, Eq, Hash)]
#[repr(C)]
pub struct WatchAnswer {
    /// The watch to go on with.
    pub watch: Watch,
    /// The witness that the round and the named one give away, zeros if none is named.
    pub witness: Places,
    /// How many accepted rounds back the named one stands, 1 to 63, or 0 for none.
    pub back: u32,
    /// The verdict.
    pub verdict: Judgement,
}

/// What all lines of a ledger share.
///
/// ```
/// # use dimkhoros_sys::Base;
/// let base = Base { g: 2, h: 3, modulus: 23, order: 11, challenges: 11 };
/// assert_eq!(base.order, 11);
/// ```
#[derive(Clone, Copy, Debug, Default, PartialEq, Eq, Hash)]
#[repr(C)]
pub struct Base {
    /// The public value that values are exponents of.
    pub g: u32,
    /// The public value that blinding numbers are exponents of.
    pub h: u32,
    /// The modulus m.
    pub modulus: u32,
    /// The order q, which need not be prime.
    pub order: u32,
    /// The challenge count K. The challenges are 0 to K - 1.
    pub challenges: u32,
}

/// A line of a ledger. Numbers that its kind does not use are not read, and are 0 in a ledger that a call makes.
///
/// ```
/// # use dimkhoros_sys::{Line, lines};
/// let sum = Line { kind: lines::SUM, first: 0, second: 1, ..Line::default() };
/// assert_eq!(sum.commitment, 0);
/// assert_eq!(size_of::<Line>(), 40);
/// ```
#[derive(Clone, Copy, Debug, Default, PartialEq, Eq, Hash)]
#[repr(C)]
pub struct Line {
    /// The kind, a number of [`lines`](crate::lines) or any other.
    pub kind: u32,
    /// The number of the first line that a sum or product is of.
    pub first: u32,
    /// The number of the second, which may be the same.
    pub second: u32,
    /// The commitment of a commitment or product. A sum's is not stored.
    pub commitment: u32,
    /// t of the round of a product.
    pub t: [u32; 2],
    /// The challenge c of the round.
    pub challenge: u32,
    /// The response r of the round.
    pub response: [u32; 3],
}

/// A ledger: its lines in order, numbered from 0. It may hold anything.
#[derive(Clone, Copy, Debug, PartialEq, Eq, Hash)]
#[repr(C)]
pub struct Ledger {
    /// The lines. Those from `count` on are not read, and are zeros in a ledger that a call makes.
    pub lines: [Line; MOST_LINES],
    /// How many lines there are.
    pub count: u32,
}

/// A ledger of no lines.
impl Default for Ledger {
    fn default() -> Ledger {
        Ledger { lines: [Line::default(); MOST_LINES], count: 0 }
    }
}

/// What a checked ledger is found to be. It is accepted only if `accepted` is 1: a refused ledger has 0 there too.
#[derive(Clone, Copy, Debug, Default, PartialEq, Eq, Hash)]
#[repr(C)]
pub struct Checked {
    /// 1 if the round of every product is accepted, else 0.
    pub accepted: u32,
    /// The first product whose round is rejected, if nothing is refused and `accepted` is 0; else 0.
    pub line: u32,
    /// The refusal.
    pub refusal: u32,
}

/// What a line of a ledger is made of. Numbers that its kind does not use are not read. `Debug` shows no value, blinding number or
/// nonce.
///
/// ```
/// # use dimkhoros_sys::{Entry, lines};
/// let commitment = Entry { kind: lines::COMMITMENT, value: 2, blinding: 1, ..Entry::default() };
/// assert_eq!(commitment.nonce, [0; 3]);
/// ```
#[derive(Clone, Copy, Default, PartialEq, Eq, Hash)]
#[repr(C)]
pub struct Entry {
    /// The kind, a number of [`lines`](crate::lines) or any other.
    pub kind: u32,
    /// The number of the first line that a sum or product is of.
    pub first: u32,
    /// The number of the second, which may be the same.
    pub second: u32,
    /// The value of a commitment.
    pub value: u32,
    /// The blinding number of a commitment or product.
    pub blinding: u32,
    /// The nonce of the round of a product.
    pub nonce: [u32; 3],
    /// The challenge c of the round.
    pub challenge: u32,
}

/// Shows all but the value, the blinding number and the nonce.
impl fmt::Debug for Entry {
    fn fmt(&self, f: &mut fmt::Formatter<'_>) -> fmt::Result {
        f.debug_struct("Entry")
            .field("kind", &self.kind)
            .field("first", &self.first)
            .field("second", &self.second)
            .field("challenge", &self.challenge)
            .finish_non_exhaustive()
    }
}

/// What all lines of a ledger are made of, in order. Whoever reads it opens every commitment.
#[derive(Clone, Copy, Debug, PartialEq, Eq, Hash)]
#[repr(C)]
pub struct Entries {
    /// The entries. Those from `count` on are not read.
    pub entries: [Entry; MOST_LINES],
    /// How many lines there are.
    pub count: u32,
}

/// The entries of a ledger of no lines.
impl Default for Entries {
    fn default() -> Entries {
        Entries { entries: [Entry::default(); MOST_LINES], count: 0 }
    }
}

/// What making a ledger answers. A refused one has a ledger of zeros.
#[derive(Clone, Copy, Debug, Default, PartialEq, Eq, Hash)]
#[repr(C)]
pub struct LedgerWritten {
    /// The ledger.
    pub ledger: Ledger,
    /// The refusal.
    pub refusal: u32,
}
