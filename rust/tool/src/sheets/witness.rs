//! Whether coordinates are a witness, in a line.

use crate::command_line::colour;
use crate::command_line::failure::Failure;
use crate::sheets::notation;
use dimkhoros::{Instance, Places, Refusal};

/// Says that these coordinates, whose image is the statement, are a witness. The statement is called so.
pub fn is_witness(sheet: &Instance, x: &Places, statement: &str) -> String {
    let witness = notation::by_column(sheet, x);
    let image = notation::by_row(sheet, &sheet.values().statement);
    let bare = notation::bare(&witness);
    format!("[{bare}] = {image} is {statement}: {witness} is a {}", colour::verdict("witness"))
}

/// Refuses coordinates of the domain that are called by a letter and are not a witness.
pub fn no_witness(sheet: &Instance, letter: &str, x: &Places) -> Failure {
    let witness = notation::by_column(sheet, x);
    let bare = notation::bare(&witness);
    let image = sheet.image(x).unwrap_or_default();
    let [image, statement] =
        [&image, &sheet.values().statement].map(|values| notation::by_row(sheet, values));
    let what = format!("{letter} = {witness} is not a witness: [{bare}] = {image}");
    Failure::cause(Refusal::Witness, format!("{what}, and the statement is {statement}"))
}
