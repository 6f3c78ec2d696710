//! A sheet of a statement over several generators, whose exponents are linear forms of the secrets.

use super::asked::shape;
use super::formula::{self, Power, Term, place};
use crate::command_line::failure::{Failure, Outcome};
use crate::command_line::words::Words;
use crate::sheets::notation::{counted, numbered};
use dimkhoros::{Forms, Instance, LinearPlan, PLACES, Refusal};

/// The statement that is asked for.
pub struct Linear {
    /// The generators.
    pub generators: Vec<u32>,
    /// The rows, each with its powers of generators.
    rows: Vec<Vec<Power>>,
    /// How many secrets there are: the largest number of one.
    columns: usize,
}

impl Linear {
    /// The statement that the words ask for.
    pub fn read(words: &Words) -> Outcome<Linear> {
        let generators = words.needed("h", "the generators")?.numbers()?.to_vec();
        let texts = words.formulas("row");
        if texts.is_empty() {
            let such = "a row of the statement, such as row='h1^x3 h2^x1'";
            return Err(Failure::words(format!("row= is missing: {such}")));
        }
        let row = |text: &&str| {
            let wrong = |why| Failure::words(format!("row={text}: {why}"));
            let powers = formula::read(text).map_err(wrong)?;
            checked(&powers, generators.len()).map_err(wrong)?;
            Ok(powers)
        };
        let rows = texts.iter().map(row).collect::<Outcome<Vec<Vec<Power>>>>()?;
        let linear = Linear { generators, columns: columns(&rows), rows };
        if linear.terms().any(|(_, _, term)| term.secret.is_none()) && linear.columns > 1 {
            Err(Failure::words("a secret x has no number, and there are several secrets"))
        } else {
            Ok(linear)
        }
    }

    /// Every term, with its row and its generator.
    fn terms(&self) -> impl Iterator<Item = (usize, &Power, &Term)> {
        let powers = self.rows.iter().enumerate();
        let powers = powers.flat_map(|(row, powers)| powers.iter().map(move |power| (row, power)));
        powers.flat_map(|(row, power)| power.form.iter().map(move |term| (row, power, term)))
    }

    /// The coefficients by row, then generator, then column. If a count is above eight, the library refuses the count and looks
    /// at none.
    fn coefficients(&self, order: u32) -> Vec<u32> {
        let (count, columns) = (self.generators.len(), self.columns);
        if self.rows.len().max(count).max(columns) > PLACES {
            return Vec::new();
        }
        let mut all = vec![0; self.rows.len() * count * columns];
        for (row, power, term) in self.terms() {
            let form = row * count + place(power.generator);
            all[form * columns + place(term.secret)] = coefficient(term, order);
        }
        all
    }

    /// How many rows the statement has.
    pub fn row_count(&self) -> usize {
        self.rows.len()
    }

    /// The sheet with this modulus, order and challenge count, and with a statement.
    pub fn sheet(
        &self,
        [modulus, order, challenges]: [u32; 3],
        statement: &[u32],
    ) -> Result<Instance, Refusal> {
        let coefficients = self.coefficients(order);
        let [rows, columns] =
            [self.rows.len(), self.columns].map(|count| u32::try_from(count).unwrap_or(u32::MAX));
        Instance::from_forms(&LinearPlan {
            modulus,
            order,
            challenges,
            generators: &self.generators,
            forms: Forms { rows, columns, coefficients: &coefficients },
            statement,
        })
    }

    /// What is wrong with this sheet by a refusal, but for one by a generator.
    pub fn wrong(&self, refusal: Refusal, order: u32) -> Option<String> {
        match refusal {
            Refusal::Shape => Some(shape([self.rows.len(), self.columns], "secret")),
            // There is a coefficient for each place, and a one for each row of the statement.
            Refusal::FormCounts => {
                let generators = counted(self.generators.len(), "generator");
                Some(format!("{generators} in h=: at most {PLACES} are allowed"))
            }
            Refusal::Coefficient => {
                let large =
                    |(_, _, term): &(usize, &Power, &Term)| coefficient(term, order) >= order;
                let (row, _, term) = self.terms().find(large)?;
                let secret = self.secret(term);
                let factor = term.factor;
                Some(format!(
                    "{factor} before {secret} in row {row}: a coefficient must be below q = {order}"
                ))
            }
            _ => None,
        }
    }

    /// The name of a term's secret.
    fn secret(&self, term: &Term) -> String {
        numbered("x", self.columns, place(term.secret))
    }

    /// The statement row by row, as the paper writes it.
    pub fn statement(&self, sheet: &Instance) -> Vec<String> {
        let (values, m) = (sheet.values(), sheet.values().header.modulus);
        let row = |(row, z): (&Vec<Power>, u32)| format!("{z} = {} mod {m}", self.product(row));
        self.rows.iter().zip(values.statement).map(row).collect()
    }

    /// A row as a product of powers of the generators' values, such as `2^x3 · 3^(x1 + 2x2)`.
    fn product(&self, row: &[Power]) -> String {
        let power = |power: &Power| {
            let base = self.generators[place(power.generator)];
            match &power.form[..] {
                [Term { minus: false, factor: 1, .. }] => format!("{base}^{}", self.form(power)),
                _ => format!("{base}^({})", self.form(power)),
            }
        };
        match row {
            [] => "1".to_string(),
            _ => row.iter().map(power).collect::<Vec<String>>().join(" · "),
        }
    }

    /// The linear form of a power, such as `x1 + 2x2`.
    fn form(&self, power: &Power) -> String {
        let mut text = String::new();
        for (number, term) in power.form.iter().enumerate() {
            text += match (number, term.minus) {
                (0, false) => "",
                (0, true) => "-",
                (_, false) => " + ",
                (_, true) => " - ",
            };
            if term.factor != 1 {
                text += &term.factor.to_string();
            }
            text += &self.secret(term);
        }
        text
    }
}

/// How many secrets some rows have: the largest number of one.
fn columns(rows: &[Vec<Power>]) -> usize {
    let terms = rows.iter().flatten().flat_map(|power| &power.form);
    terms.map(|term| place(term.secret) + 1).max().unwrap_or(0)
}

/// The coefficient of a term: what is taken away is added as often as is left of the order. One of the order or more is left as it
/// is, for the library to refuse.
fn coefficient(term: &Term, order: u32) -> u32 {
    if term.minus && (1..order).contains(&term.factor) { order - term.factor } else { term.factor }
}

/// Says what is wrong with a row over so many generators.
fn checked(powers: &[Power], count: usize) -> Result<(), String> {
    for (number, power) in powers.iter().enumerate() {
        let (before, at) = (&powers[..number], place(power.generator));
        let name = power.generator.map_or("h".to_string(), |number| format!("h{number}"));
        if at >= count {
            return Err(format!("{name} is there, and h= has {}", counted(count, "generator")));
        }
        if power.generator.is_none() && count > 1 {
            return Err("a generator h has no number, and there are several generators".to_string());
        }
        if before.iter().any(|other| place(other.generator) == at) {
            return Err(format!("{name} is there twice; write it once, as in {name}^(x1 + x2)"));
        }
        checked_form(&power.form, &name)?;
    }
    Ok(())
}

/// Says if a secret is twice in the exponent of a generator of this name.
fn checked_form(form: &[Term], generator: &str) -> Result<(), String> {
    for (number, term) in form.iter().enumerate() {
        let at = place(term.secret);
        if form[..number].iter().any(|other| place(other.secret) == at) {
            let name = term.secret.map_or("x".to_string(), |number| format!("x{number}"));
            return Err(format!(
                "{name} is there twice in the exponent of {generator}; write it once, as in 2{name}"
            ));
        }
    }
    Ok(())
}
