//! The shipped patterns that a sheet's table has the form of, and the words that make the sheet.

use crate::commands::patterns::{NAMES, value_names};
use crate::sheets::notation::list;
use crate::sheets::{column_count, order_letter, row_count};
use dimkhoros::{Instance, Layout, Pattern, Patterns, Plan, ROOT};

/// A shipped pattern by which a sheet can be made.
pub struct Form {
    /// Its name.
    pub name: &'static str,
    /// The pattern.
    pub pattern: Pattern,
    /// The public values.
    pub values: Vec<u32>,
}

/// The shipped patterns by which a sheet can be made, root for a root sheet.
pub fn forms(sheet: &Instance) -> Vec<Form> {
    let form = |(name, pattern): &(&'static str, Pattern)| {
        let values = values(sheet, *pattern)?;
        Some(Form { name, pattern: *pattern, values })
    };
    NAMES.iter().filter_map(form).collect()
}

/// The public values with which a shipped pattern makes a sheet. The library makes it of those that stand in their places.
fn values(sheet: &Instance, pattern: Pattern) -> Option<Vec<u32>> {
    let header = sheet.values().header;
    if pattern == Pattern::Root {
        return (header.kind == ROOT).then(Vec::new);
    }
    let shipped = Patterns::shipped();
    let values = candidates(sheet, &shipped.layout(pattern.number())?)?;
    let plan = Plan {
        pattern: pattern.number(),
        modulus: header.modulus,
        order: header.order,
        challenges: header.challenges,
        values: &values,
        statement: &sheet.values().statement[..row_count(sheet)],
    };
    let made = Instance::from_pattern(&shipped, &plan).ok()?;
    (made == *sheet).then_some(values)
}

/// The entries that stand where a pattern first names each of its values.
fn candidates(sheet: &Instance, layout: &Layout<'_>) -> Option<Vec<u32>> {
    let first = |value: usize| {
        let place = layout.digits.iter().position(|digit| usize::from(*digit) == value)?;
        let entries = sheet.values().entries.get(place / layout.columns)?;
        entries.get(place % layout.columns).copied()
    };
    (1..=layout.values).map(first).collect()
}

impl Form {
    /// The name with the public values by their names, such as `schnorr with h = 2`.
    pub fn text(&self) -> String {
        let named = value_names(self.pattern).iter().zip(&self.values);
        let named: Vec<String> = named.map(|(name, value)| format!("{name} = {value}")).collect();
        if named.is_empty() {
            self.name.to_string()
        } else {
            format!("{} with {}", self.name, named.join(", "))
        }
    }
}

/// The words of the command that makes a sheet.
pub fn made_by(sheet: &Instance, form: Option<&Form>) -> String {
    let values = sheet.values();
    let header = values.header;
    let entries = values.entries.iter().take(row_count(sheet));
    let table: Vec<String> = entries.map(|row| list(&row[..column_count(sheet)], ",")).collect();
    let first = form.map_or(format!("table={}", table.join("/")), |form| form.name.to_string());
    let order = order_letter(&header);
    let public = form.filter(|form| !form.values.is_empty());
    let public = public.map_or(String::new(), |form| format!(" h={}", list(&form.values, ",")));
    format!(
        "dimkhoros make {first} m={} {order}={} K={}{public} z={} -o SHEET",
        header.modulus,
        header.order,
        header.challenges,
        list(&values.statement[..row_count(sheet)], ",")
    )
}
