//! The numbers of the kinds of sheets, and of the kinds of a ledger's lines.

/// The kind of sheets whose image multiplies powers of the entries.
///
/// ```
/// # use dimkhoros_sys::EXPONENT;
/// assert_eq!(EXPONENT, 1);
/// ```
pub const EXPONENT: u32 = 1;

/// The kind of sheets whose image is the e-th power of each value.
///
/// ```
/// # use dimkhoros_sys::ROOT;
/// assert_eq!(ROOT, 2);
/// ```
pub const ROOT: u32 = 2;

/// The kinds of a ledger's lines.
pub mod lines {
    /// A commitment.
    ///
    /// ```
    /// # use dimkhoros_sys::lines::COMMITMENT;
    /// assert_eq!(COMMITMENT, 1);
    /// ```
    pub const COMMITMENT: u32 = 1;

    /// The sum of two lines above.
    ///
    /// ```
    /// # use dimkhoros_sys::lines::SUM;
    /// assert_eq!(SUM, 2);
    /// ```
    pub const SUM: u32 = 2;

    /// The product of two lines above, with a commitment and a round of its own.
    ///
    /// ```
    /// # use dimkhoros_sys::lines::PRODUCT;
    /// assert_eq!(PRODUCT, 3);
    /// ```
    pub const PRODUCT: u32 = 3;
}
