//! Sheets: loading and making them.

use crate::{Forms, Header, LONGEST_SHEET, LinearPlan, PLACES, Patterns, Places, Plan, Refusal};
use core::fmt;
use dimkhoros_sys::{self as sys, ENTRIES};

/// All values of a sheet. Any numbers can stand here; [`Instance::encode`] tests them.
///
/// ```
/// use dimkhoros::{Header, Values};
///
/// let values = Values { header: Header::default(), entries: [[0; 8]; 8], statement: [0; 8] };
/// assert_eq!(values, Values::default());
/// ```
#[derive(Clone, Copy, Debug, Default, PartialEq, Eq, Hash)]
pub struct Values {
    /// The fixed fields.
    pub header: Header,
    /// The entries by row and column, 0 outside the sheet's rows and columns and everywhere in a root sheet.
    pub entries: [Places; PLACES],
    /// The statement z.
    pub statement: Places,
}

/// A sheet that has been loaded: its bytes, which every call is given and tests again, and its values.
///
/// ```
/// use dimkhoros::Instance;
///
/// let bytes = b"HOM\x00\x01\x01\x00\x00\x00\x17\x00\x00\x00\x0b\x00\x00\x00\x0b\x01\x01\x00\x00\x00\x02\x00\x00\x00\x0d";
/// let instance = Instance::load(bytes)?;
/// assert_eq!(instance.values().header.modulus, 23);
/// assert_eq!(instance.bytes(), bytes);
/// # Ok::<(), dimkhoros::Refusal>(())
/// ```
#[derive(Clone, PartialEq, Eq, Hash)]
pub struct Instance {
    sheet: [u8; LONGEST_SHEET],
    length: usize,
    values: Values,
}

impl Instance {
    /// Loads a sheet, or refuses it with 2 to 11.
    ///
    /// ```
    /// use dimkhoros::{Instance, Refusal};
    ///
    /// assert_eq!(Instance::load(&[]), Err(Refusal::SheetMark));
    /// ```
    pub fn load(bytes: &[u8]) -> Result<Instance, Refusal> {
        let loaded = sys::load(bytes);
        Refusal::check(loaded.refusal)?;
        let mut table = [0; ENTRIES];
        Refusal::check(sys::entries(bytes, &mut table))?;
        let mut entries = [[0; PLACES]; PLACES];
        entries.as_flattened_mut().copy_from_slice(&table);
        let mut sheet = [0; LONGEST_SHEET];
        sheet[..bytes.len()].copy_from_slice(bytes);
        let values = Values { header: loaded.header, entries, statement: loaded.statement };
        Ok(Instance { sheet, length: bytes.len(), values })
    }

    /// Makes a sheet by a pattern of a file, or refuses the plan with 1, 5, 6, 8, 10 or 11.
    ///
    /// ```
    /// use dimkhoros::{Instance, Patterns, Plan, Refusal};
    ///
    /// let shipped = Patterns::shipped();
    /// let plan = Plan { pattern: 1, modulus: 23, order: 11, challenges: 11, values: &[2], statement: &[13] };
    /// let instance = Instance::from_pattern(&shipped, &plan)?;
    /// assert_eq!(instance.bytes().len(), 28);
    ///
    /// let wrong = Plan { challenges: 12, ..plan };
    /// assert_eq!(Instance::from_pattern(&shipped, &wrong), Err(Refusal::Challenges));
    /// # Ok::<(), Refusal>(())
    /// ```
    pub fn from_pattern(patterns: &Patterns, plan: &Plan<'_>) -> Result<Instance, Refusal> {
        let mut sheet = [0; LONGEST_SHEET];
        let Plan { pattern, modulus, order, challenges, values, statement } = *plan;
        let written = sys::from_pattern(
            patterns.bytes(),
            pattern,
            modulus,
            order,
            challenges,
            values,
            statement,
            &mut sheet,
        );
        Refusal::check(written.refusal)?;
        Instance::load(&sheet[..written.length])
    }

    /// Makes a sheet of linear forms over generators, or refuses the plan with 5 to 8, 29, 30, 10 or 11.
    ///
    /// Row i of the image of x is the product, over the generators, of the generator to the power of row i's form of x. Entry
    /// (i, j) of the sheet is the product over the generators of generator^coefficient modulo m. A generator is tested whether or
    /// not a coefficient uses it.
    ///
    /// ```
    /// use dimkhoros::{Forms, Instance, LinearPlan, Refusal, places};
    ///
    /// // Maurer's example, over h1 = 2, h2 = 3 and h3 = 4: z1 = h1^x3 * h2^x1 and z2 = h1^x2 * h2^x4 * h3^x1.
    /// let plan = LinearPlan {
    ///     modulus: 23,
    ///     order: 11,
    ///     challenges: 11,
    ///     generators: &[2, 3, 4],
    ///     forms: Forms::of(&[
    ///         [[0, 0, 1, 0], [1, 0, 0, 0], [0, 0, 0, 0]],
    ///         [[0, 1, 0, 0], [0, 0, 0, 1], [1, 0, 0, 0]],
    ///     ]),
    ///     statement: &[1, 8],
    /// };
    /// let instance = Instance::from_forms(&plan)?;
    /// assert_eq!(instance.values().entries[0], places([3, 1, 2, 1]));
    /// assert_eq!(instance.values().entries[1], places([4, 2, 1, 3]));
    /// assert_eq!(instance.image(&places([1, 2, 3, 4]))?, places([1, 8]));
    ///
    /// let wrong = LinearPlan { generators: &[2, 3], ..plan };
    /// assert_eq!(Instance::from_forms(&wrong), Err(Refusal::FormCounts));
    /// # Ok::<(), Refusal>(())
    /// ```
    pub fn from_forms(plan: &LinearPlan<'_>) -> Result<Instance, Refusal> {
        let mut sheet = [0; LONGEST_SHEET];
        let LinearPlan { modulus, order, challenges, generators, forms, statement } = *plan;
        let Forms { rows, columns, coefficients } = forms;
        let written = sys::linear(
            modulus,
            order,
            challenges,
            rows,
            columns,
            generators,
            coefficients,
            statement,
            &mut sheet,
        );
        Refusal::check(written.refusal)?;
        Instance::load(&sheet[..written.length])
    }

    /// Makes the sheet of these values, or refuses them with 4 to 8, 10 or 11.
    ///
    /// ```
    /// use dimkhoros::{places, Header, Instance, Values, ROOT};
    ///
    /// let header = Header { kind: ROOT, modulus: 35, order: 5, challenges: 5, rows: 1, columns: 1 };
    /// let values = Values { header, statement: places([32]), ..Values::default() };
    /// let instance = Instance::encode(&values)?;
    /// assert_eq!(instance.values(), &values);
    /// # Ok::<(), dimkhoros::Refusal>(())
    /// ```
    pub fn encode(values: &Values) -> Result<Instance, Refusal> {
        let mut table = [0; ENTRIES];
        table.copy_from_slice(values.entries.as_flattened());
        let mut sheet = [0; LONGEST_SHEET];
        let written = sys::encode(values.header, &table, &values.statement, &mut sheet);
        Refusal::check(written.refusal)?;
        Instance::load(&sheet[..written.length])
    }

    /// Makes the sheet with this statement in the place of its own, or refuses it with 11.
    ///
    /// ```
    /// use dimkhoros::{Refusal, places};
    /// # use dimkhoros::{Instance, Patterns, Plan};
    /// # let plan = Plan { pattern: 1, modulus: 23, order: 11, challenges: 11, values: &[2], statement: &[13] };
    /// # let instance = Instance::from_pattern(&Patterns::shipped(), &plan)?;
    ///
    /// let other = instance.with_statement(&places([8]))?;
    /// assert_eq!(other.values().statement, places([8]));
    /// assert_eq!(other.values().entries, instance.values().entries);
    /// assert_eq!(instance.with_statement(&places([5])), Err(Refusal::Statement));
    /// # Ok::<(), Refusal>(())
    /// ```
    pub fn with_statement(&self, statement: &Places) -> Result<Instance, Refusal> {
        Instance::encode(&Values { statement: *statement, ..self.values })
    }

    /// The sheet's bytes.
    ///
    /// ```
    /// # use dimkhoros::{Instance, Patterns, Plan};
    /// # let plan = Plan { pattern: 0, modulus: 35, order: 5, challenges: 5, values: &[], statement: &[32] };
    /// let instance = Instance::from_pattern(&Patterns::shipped(), &plan)?;
    /// assert_eq!(Instance::load(instance.bytes()), Ok(instance));
    /// # Ok::<(), dimkhoros::Refusal>(())
    /// ```
    pub fn bytes(&self) -> &[u8] {
        &self.sheet[..self.length]
    }

    /// The sheet's values.
    ///
    /// ```
    /// # use dimkhoros::{Instance, Patterns, Plan};
    /// # let plan = Plan { pattern: 3, modulus: 23, order: 11, challenges: 11, values: &[2, 3], statement: &[13, 2] };
    /// let instance = Instance::from_pattern(&Patterns::shipped(), &plan)?;
    /// assert_eq!(instance.values().entries[1][0], 3);
    /// # Ok::<(), dimkhoros::Refusal>(())
    /// ```
    pub fn values(&self) -> &Values {
        &self.values
    }
}

impl fmt::Debug for Instance {
    fn fmt(&self, f: &mut fmt::Formatter<'_>) -> fmt::Result {
        f.debug_struct("Instance").field("values", &self.values).finish_non_exhaustive()
    }
}
