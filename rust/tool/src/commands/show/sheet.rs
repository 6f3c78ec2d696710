//! A sheet in words and tables.

use super::forms::{self, Form};
use crate::command_line::table::{self, Set};
use crate::sheets::notation::{self, counted};
use crate::sheets::{column_count, largest_of, order_letter, row_count, small};
use dimkhoros::{EXPONENT, Header, Instance};

/// The most coordinates that are tried as witnesses.
const MOST: usize = 1 << 20;

/// The most elements that are listed.
const LISTED: usize = 32;

/// The text on a sheet of a name.
pub fn text(name: &str, sheet: &Instance) -> String {
    let forms = forms::forms(sheet);
    let made_by = forms::made_by(sheet, forms.first());
    [
        format!("{name} is a sheet of {} bytes.\n", sheet.bytes().len()),
        fields(sheet, &forms),
        entries(sheet),
        statement(sheet),
        witnesses(sheet),
        format!("The same sheet is made by\n    {made_by}\n"),
    ]
    .join("\n")
}

/// The table of the sheet's fields.
fn fields(sheet: &Instance, forms: &[Form]) -> String {
    let header = sheet.values().header;
    let exponent = header.kind == EXPONENT;
    let pattern: Vec<String> = forms.iter().map(Form::text).collect();
    let pattern = if pattern.is_empty() {
        "none of the shipped ones".to_string()
    } else {
        pattern.join(", or ")
    };
    let rows = [
        ("kind", if exponent { "1, exponent" } else { "2, root" }.to_string()),
        ("pattern", pattern),
        ("modulus m", header.modulus.to_string()),
        (if exponent { "order q" } else { "exponent e" }, header.order.to_string()),
        ("challenge count K", challenges(&header)),
        ("rows", header.rows.to_string()),
        ("columns", header.columns.to_string()),
        ("domain", domain(sheet)),
        ("group", group(sheet)),
    ];
    let rows = rows.map(|(field, value)| vec![field.to_string(), value]);
    table::lines("", &[Set::Left, Set::Left], &rows)
}

/// The challenge count, with the largest one that the order or exponent allows.
fn challenges(header: &Header) -> String {
    let letter = order_letter(header);
    match (header.challenges, largest_of(header)) {
        (count, largest) if count == largest => {
            format!("{count}, the largest that {letter} allows")
        }
        (count, largest) => format!("{count}; the largest that {letter} allows is {largest}"),
    }
}

/// How many values the domain has, and which they are.
fn domain(sheet: &Instance) -> String {
    let header = sheet.values().header;
    let columns = column_count(sheet);
    if header.kind == EXPONENT {
        let which = format!("0 to {}", header.order - 1);
        size(Some(header.order as usize), "value", columns, "column", &which)
    } else {
        let count = small::coordinates(sheet).map(|values| values.len());
        size(count, "value", columns, "column", "those of the group")
    }
}

/// How many elements the group has, and which they are where they are few.
fn group(sheet: &Instance) -> String {
    let elements = small::elements(sheet);
    let listed = elements.as_ref().filter(|elements| elements.len() <= LISTED);
    let listed = listed.map_or(String::new(), |elements| notation::list(elements, ", "));
    size(elements.map(|elements| elements.len()), "element", row_count(sheet), "row", &listed)
}

/// So many things, or as many in each of some places, and which they are where that is known.
fn size(each: Option<usize>, thing: &str, places: usize, place: &str, which: &str) -> String {
    let Some(each) = each else {
        return format!("not counted, since m is above {}", small::MOST);
    };
    let count = match each.checked_pow(places as u32) {
        _ if places == 1 => counted(each, thing),
        Some(all) => format!("{}, {each} in each {place}", counted(all, thing)),
        None => format!("{} in each {place}", counted(each, thing)),
    };
    if which.is_empty() { count } else { format!("{count}: {which}") }
}

/// The table of the entries, each below the coordinate to whose power it is taken, with the statement.
fn entries(sheet: &Instance) -> String {
    let values = sheet.values();
    let columns = if values.header.kind == EXPONENT { column_count(sheet) } else { 0 };
    let mut heading = vec!["row".to_string()];
    heading.extend((0..columns).map(|column| notation::coordinate(sheet, "x", column)));
    heading.push("z".to_string());
    let mut rows = vec![heading];
    for row in 0..row_count(sheet) {
        let mut cells = vec![row.to_string()];
        cells.extend(values.entries[row].iter().take(columns).map(u32::to_string));
        cells.push(values.statement[row].to_string());
        rows.push(cells);
    }
    table::lines("", &vec![Set::Right; columns + 2], &rows)
}

/// What Peggy claims, in Maurer's notation.
fn statement(sheet: &Instance) -> String {
    let z = notation::by_row(sheet, &sheet.values().statement);
    let x = notation::names(sheet, "x");
    let mut text = format!("Peggy claims to know {x} with z = [{}]:\n", notation::bare(&x));
    text += &format!("    {}\n    z = {z}\n", notation::homomorphism(sheet));
    for line in notation::statement(sheet) {
        text += &format!("    {line}\n");
    }
    text
}

/// How many witnesses there are, where all coordinates can be tried.
fn witnesses(sheet: &Instance) -> String {
    let Some(witnesses) = small::witnesses(sheet, MOST) else {
        return "Whether there is a witness was not tried, since the domain has too many values.\n"
            .to_string();
    };
    match witnesses.len() {
        0 => format!(
            "Warning: all values of the domain were tried, and there is no witness. {}\n",
            small::UNANSWERED
        ),
        1 => "All values of the domain were tried: there is 1 witness.\n".to_string(),
        count => format!("All values of the domain were tried: there are {count} witnesses.\n"),
    }
}
