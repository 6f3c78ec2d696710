//! What calls are refused with.

use core::error::Error;
use core::fmt;

/// Makes the enum, with its sentences as the documentation, and the list of all out of one table.
macro_rules! refusals {
    ($($number:literal, $name:ident, $sentence:literal;)*) => {
        /// Why a call was refused. Where several refusals apply, the earliest in the order 23, 24, 1 to 9, 27, 29, 30, 10, 11,
        /// 26, 37, 35, 36, 12, 25, 13 to 16, 28, 31, 17 to 21, 32 to 34, 22 is given.
        ///
        /// ```
        /// use dimkhoros::{Instance, Refusal};
        ///
        /// let refusal = Instance::load(b"HAM").unwrap_err();
        /// assert_eq!(refusal, Refusal::SheetMark);
        /// assert_eq!(refusal.number(), 2);
        /// assert_eq!(refusal.to_string(), "refusal 2: the sheet is shorter than a header or does not begin with HOM");
        /// ```
        #[derive(Clone, Copy, Debug, PartialEq, Eq, Hash)]
        #[non_exhaustive]
        #[repr(u32)]
        pub enum Refusal {
            $(
                #[doc = concat!(stringify!($number), ": ", $sentence, ".")]
                $name = $number,
            )*
        }

        /// Every refusal.
        const ALL: [Refusal; [$($number),*].len()] = [$(Refusal::$name),*];

        /// What a refusal says.
        const fn sentence_of(refusal: Refusal) -> &'static str {
            match refusal {
                $(Refusal::$name => $sentence,)*
            }
        }
    };
}

refusals! {
    1, Pattern, "the pattern file has no pattern of this number, or the pattern takes a different number of values";
    2, SheetMark, "the sheet is shorter than a header or does not begin with HOM";
    3, SheetVersion, "the sheet's version is not 1";
    4, Kind, "the kind must be 1, exponent, or 2, root";
    5, Modulus, "the modulus must be 3 or more";
    6, Order, "the order or exponent must be 2 or more";
    7, Shape, "rows and columns must be 1 to 8 each, and equal in a root sheet";
    8, Challenges, "the challenge count K must be 2 to 65536, and no number from 2 to K - 1 may divide the order or exponent";
    9, SheetLength, "the sheet is longer or shorter than its header says";
    10, Entry, "a table entry, public value or generator lies outside the group";
    11, Statement, "a value of the statement or of a player's image lies outside the group";
    12, File, "the bytes are not a round file of this sheet, the file is full, or the version asked for is not 1 or 2";
    13, RoundNumber, "the file has no round of this number";
    14, Commitment, "a commitment value lies outside the group";
    15, Challenge, "the challenge must be below the challenge count K, or at most 65535 if it is written to a round file of version 2";
    16, Coordinate, "a value of the witness, nonce, response or ledger's entry lies outside the domain";
    17, Witness, "the image of the witness is not the statement";
    18, CommitmentsDiffer, "the two rounds have different commitments";
    19, ChallengesEqual, "the two rounds have the same challenge";
    20, RoundRejected, "one of the two rounds, or both, would be rejected";
    21, Session, "the session's state does not allow the call, or what the session or watch holds does not fit this sheet";
    22, Buffer, "the buffer is too short for the result";
    23, PatternFile, "the bytes are not a pattern file: the mark, version, count, rows, columns, number of values or length is wrong";
    24, PatternDigits, "a pattern has a digit above its number of values, or a value that no digit names";
    25, Level, "the level must be one byte from 1 to 64";
    26, CountsDiffer, "the two sheets have different challenge counts";
    27, Team, "the team must have 2 to 8 players";
    28, Images, "the images of the team's players do not multiply to the statement";
    29, FormCounts, "there must be 1 to 8 generators, a coefficient for each row, generator and column, and a statement value for each row";
    30, Coefficient, "a coefficient must be below the order";
    31, GameSize, "the sheet is too large for the game, which takes q^n up to 4096, or in a root sheet m up to 4096 and one row";
    32, Answered, "the commitment that the session holds was answered before";
    33, ListFull, "the session's list of answered commitments is full: it holds 64";
    34, Name, "the name of a saved state must be 0 to 7, and a return needs one that was saved";
    35, LineKind, "the kind of a ledger's line must be 1, commitment, 2, sum, or 3, product";
    36, LineNotAbove, "a sum or product of a ledger must name two lines above its own";
    37, LedgerSize, "a ledger has at most 64 lines";
}

impl Refusal {
    /// The refusal's number, from 1 on.
    ///
    /// ```
    /// assert_eq!(dimkhoros::Refusal::Session.number(), 21);
    /// ```
    pub const fn number(self) -> u32 {
        self as u32
    }

    /// The refusal of a number, if there is one.
    ///
    /// ```
    /// use dimkhoros::Refusal;
    ///
    /// assert_eq!(Refusal::from_number(21), Some(Refusal::Session));
    /// assert_eq!(Refusal::from_number(0), None);
    /// ```
    pub fn from_number(number: u32) -> Option<Refusal> {
        ALL.into_iter().find(|refusal| refusal.number() == number)
    }

    /// What the refusal says, in one sentence without its number.
    ///
    /// ```
    /// assert_eq!(dimkhoros::Refusal::RoundNumber.sentence(), "the file has no round of this number");
    /// ```
    pub const fn sentence(self) -> &'static str {
        sentence_of(self)
    }

    /// The refusal that an answer of the library names, none where it is 0.
    pub(crate) fn of_answer(number: u32) -> Option<Refusal> {
        if number == 0 {
            return None;
        }
        let known = Refusal::from_number(number);
        assert!(
            known.is_some(),
            "the linked archive knows a refusal {number} that this crate does not"
        );
        known
    }

    /// Nothing where an answer of the library refuses nothing, else what it refuses.
    pub(crate) fn check(number: u32) -> Result<(), Refusal> {
        match Refusal::of_answer(number) {
            None => Ok(()),
            Some(refusal) => Err(refusal),
        }
    }
}

impl fmt::Display for Refusal {
    fn fmt(&self, f: &mut fmt::Formatter<'_>) -> fmt::Result {
        write!(f, "refusal {}: {}", self.number(), self.sentence())
    }
}

impl Error for Refusal {}
