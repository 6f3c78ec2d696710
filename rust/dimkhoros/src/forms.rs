//! Linear forms over generators, and plans for sheets of them.

/// The coefficients of linear forms: those of the form of each row and each generator, a coefficient for each column.
///
/// [`Forms::of`] takes them from an array of rows, each with a form for each generator. Where their counts are known only when the
/// program runs, they stand here one after the other. Any numbers can stand here; [`Instance::from_forms`] tests them.
///
/// ```
/// use dimkhoros::Forms;
///
/// let coefficients = [0, 0, 1, 0, 1, 0, 0, 0];
/// let forms = Forms { rows: 1, columns: 4, coefficients: &coefficients };
/// assert_eq!(forms, Forms::of(&[[[0, 0, 1, 0], [1, 0, 0, 0]]]));
/// ```
///
/// [`Instance::from_forms`]: crate::Instance::from_forms
#[derive(Clone, Copy, Debug, PartialEq, Eq, Hash)]
pub struct Forms<'a> {
    /// The rows s.
    pub rows: u32,
    /// The columns n.
    pub columns: u32,
    /// The coefficients by row, then generator, then column.
    pub coefficients: &'a [u32],
}

impl<'a> Forms<'a> {
    /// The forms of these rows, each with a form for each generator, each with a coefficient for each column.
    ///
    /// ```
    /// use dimkhoros::Forms;
    ///
    /// // h1^x3 * h2^x1 and h1^x2 * h2^x4 * h3^x1
    /// let forms = Forms::of(&[
    ///     [[0, 0, 1, 0], [1, 0, 0, 0], [0, 0, 0, 0]],
    ///     [[0, 1, 0, 0], [0, 0, 0, 1], [1, 0, 0, 0]],
    /// ]);
    /// assert_eq!((forms.rows, forms.columns, forms.coefficients.len()), (2, 4, 24));
    /// ```
    pub fn of<const N: usize, const G: usize>(rows: &'a [[[u32; N]; G]]) -> Forms<'a> {
        // A count of more than 32 bits is refused as the largest number is.
        let [s, n] = [rows.len(), N].map(|count| u32::try_from(count).unwrap_or(u32::MAX));
        Forms { rows: s, columns: n, coefficients: rows.as_flattened().as_flattened() }
    }
}

/// What a sheet is made of by linear forms over generators. Any numbers can stand here; [`Instance::from_forms`] tests them.
///
/// ```
/// use dimkhoros::{Forms, LinearPlan};
///
/// // z = h1^(x1 + 2 x2) * h2^x2
/// let plan = LinearPlan {
///     modulus: 23,
///     order: 11,
///     challenges: 11,
///     generators: &[2, 3],
///     forms: Forms::of(&[[[1, 2], [0, 1]]]),
///     statement: &[6],
/// };
/// assert_eq!(plan.forms.columns, 2);
/// ```
///
/// [`Instance::from_forms`]: crate::Instance::from_forms
#[derive(Clone, Copy, Debug, PartialEq, Eq, Hash)]
pub struct LinearPlan<'a> {
    /// The modulus m.
    pub modulus: u32,
    /// The order q.
    pub order: u32,
    /// The challenge count K.
    pub challenges: u32,
    /// The generators, 1 to 8.
    pub generators: &'a [u32],
    /// The linear forms, whose coefficients are below the order.
    pub forms: Forms<'a>,
    /// The statement, a value for each row.
    pub statement: &'a [u32],
}
