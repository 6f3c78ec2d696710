//! A table of the program: calls on several inputs, on the library and in Rust.
//! Before anything is measured, the library and each version in Rust have to
//! answer alike.

/// Inputs with at most so many bits are tried with each of them changed, and
/// larger ones with one bit of each fifth byte.
const FEW: usize = 8 * 64;

/// A call on one side.
pub type Call<I> = fn(&mut I);

/// What calls take.
pub trait Inputs {
    /// What the calls are measured on.
    fn name(&self) -> &str;

    /// The bytes and the numbers of which bits are changed, one at a time, when
    /// the answers are compared.
    fn taken(&mut self) -> (&mut [u8], Vec<&mut u32>);
}

/// A call.
pub struct Case<I: 'static, const N: usize> {
    pub name: &'static str,
    /// On the library and in each version in Rust.
    pub calls: [Call<I>; N],
    /// Whether each version in Rust answers as the library does.
    pub alike: &'static [fn(&mut I) -> bool],
}

/// A table. The library is its first side.
pub struct Table<I: 'static, const N: usize> {
    pub title: &'static str,
    /// The heading of the first column.
    pub on: &'static str,
    pub sides: [&'static str; N],
    pub cases: &'static [Case<I, N>],
    /// How many inputs are measured, and what makes each of them.
    pub count: usize,
    pub make: fn(usize) -> I,
    /// The inputs that are compared and not measured.
    pub compared: fn() -> Vec<I>,
}

/// A call that a version in Rust answers differently.
pub struct Difference {
    pub on: String,
    pub call: &'static str,
    pub side: &'static str,
}

impl<I: Inputs, const N: usize> Table<I, N> {
    /// Tries each call on the inputs as they are and with a bit changed, one at a
    /// time. Answers the first call that differs.
    pub fn differing(&self, inputs: &mut I) -> Option<Difference> {
        let (bytes, numbers) = inputs.taken();
        let bits = 8 * bytes.len() + 32 * numbers.len();
        let step = if bits > FEW { 40 } else { 1 };
        self.tried(inputs).or_else(|| {
            (0..bits).step_by(step).find_map(|bit| {
                flip(inputs, bit);
                let found = self.tried(inputs);
                flip(inputs, bit);
                found
            })
        })
    }

    /// Tries each call in each version.
    fn tried(&self, inputs: &mut I) -> Option<Difference> {
        self.cases.iter().find_map(|case| {
            let version = case.alike.iter().position(|alike| !alike(inputs))?;
            let on = inputs.name().to_string();
            Some(Difference { on, call: case.name, side: self.sides[version + 1] })
        })
    }
}

/// Changes a bit of what is taken, or changes it back.
fn flip(inputs: &mut impl Inputs, bit: usize) {
    let (bytes, mut numbers) = inputs.taken();
    match bytes.get_mut(bit / 8) {
        Some(byte) => *byte ^= 1 << (bit % 8),
        None => {
            let bit = bit - 8 * bytes.len();
            *numbers[bit / 32] ^= 1 << (bit % 32);
        }
    }
}
