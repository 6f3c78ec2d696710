//! The calls that `Demands` speaks of, and the definitions that stand for them: the fields of `ours`.

use crate::specs::{Definition, Place, Specs};

/// A call.
pub struct Call {
    /// The name of its field.
    pub name: String,
    /// The name of the definition that stands for it.
    pub definition: String,
    /// The file of that definition.
    pub defined: Place,
}

/// The calls of `ours`, of which `holds` says that they meet the demands: the fields of the records that it joins.
pub fn ours(specs: &Specs) -> Vec<Call> {
    let place = ("demands".to_string(), "Ours".to_string());
    let joined = specs.find(&place, "ours").expect("the calls are joined");
    let records = fields_of(specs, joined);
    records.iter().flat_map(|record| fields_of(specs, value_of(specs, record))).collect()
}

/// The value of a record of calls that a field stands for.
fn value_of<'a>(specs: &'a Specs, field: &Call) -> &'a Definition {
    specs.find(&field.defined, &field.definition).expect("a record of calls has a value")
}

/// The fields of a record's value.
fn fields_of(specs: &Specs, value: &Definition) -> Vec<Call> {
    let text = value.lines.join(" ");
    let fields = text
        .split_once("record {")
        .and_then(|(_, rest)| rest.split_once('}'))
        .expect("a value has fields")
        .0;
    let pairs = fields.split(';').filter_map(|field| field.trim().split_once(" = "));
    pairs.map(|(name, meant)| field_of(specs, value, name, meant)).collect()
}

/// A field of a value, and what stands for it by its name in the value's file.
fn field_of(specs: &Specs, value: &Definition, name: &str, meant: &str) -> Call {
    let imported = specs.imports.get(&value.place).and_then(|imports| imports.get(meant));
    let (definition, defined) = match imported {
        Some(import) => (import.name.clone(), import.place.clone()),
        None => (meant.to_string(), value.place.clone()),
    };
    Call { name: name.to_string(), definition, defined }
}
