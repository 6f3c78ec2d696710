//! The numbers of patterns, and plans for sheets.

/// The numbers of the patterns of the shipped file, [`Patterns::shipped`], and 0, which asks for a root sheet of any file.
///
/// ```
/// use dimkhoros::Pattern;
///
/// assert_eq!(Pattern::DiffieHellman.number(), 4);
/// ```
///
/// [`Patterns::shipped`]: crate::Patterns::shipped
#[derive(Clone, Copy, Debug, PartialEq, Eq, Hash)]
#[repr(u32)]
pub enum Pattern {
    /// 0: z = x^e. No values.
    Root = 0,
    /// 1: z = h^x. One value, h.
    Schnorr = 1,
    /// 2: z = h1^x1 · h2^x2. Two values, h1 and h2.
    Okamoto = 2,
    /// 3: z1 = h1^x and z2 = h2^x. Two values, h1 and h2.
    Equality = 3,
    /// 4: A = h^x and K' = B^x, the shared key. Two values, h and B.
    DiffieHellman = 4,
    /// 5: A = g^x1 · h^x2 and E = B^x1 · h^x3, a product of committed values. Three values, g, h and B.
    Product = 5,
}

impl Pattern {
    /// The pattern's number, 0 to 5.
    ///
    /// ```
    /// assert_eq!(dimkhoros::Pattern::Root.number(), 0);
    /// ```
    pub const fn number(self) -> u32 {
        self as u32
    }
}

/// What a sheet is made of by a pattern of a file. Any numbers can stand here; [`Instance::from_pattern`] tests them.
///
/// ```
/// use dimkhoros::{Pattern, Plan};
///
/// let plan = Plan {
///     pattern: Pattern::Schnorr.number(),
///     modulus: 23,
///     order: 11,
///     challenges: 11,
///     values: &[2],
///     statement: &[13],
/// };
/// assert_eq!(plan.pattern, 1);
/// ```
///
/// [`Instance::from_pattern`]: crate::Instance::from_pattern
#[derive(Clone, Copy, Debug, PartialEq, Eq, Hash)]
pub struct Plan<'a> {
    /// The pattern's number in its file, from 1, or 0 for a root sheet.
    pub pattern: u32,
    /// The modulus m.
    pub modulus: u32,
    /// The order q, or the exponent e of a root sheet.
    pub order: u32,
    /// The challenge count K.
    pub challenges: u32,
    /// The public values of the pattern.
    pub values: &'a [u32],
    /// The statement, a value for each row.
    pub statement: &'a [u32],
}
