//! A round file in words and tables.

use crate::command_line::failure::{Failure, Outcome};
use crate::command_line::files;
use crate::command_line::json::Json;
use crate::sheets::notation::{self, counted};
use crate::sheets::{commitments, faults, round_table};
use dimkhoros::{Instance, Round, RoundFile};
use std::path::Path;

/// The text on a round file of a name.
pub fn text(name: &str, sheet: &Instance, file: &RoundFile<'_>) -> String {
    let (bytes, version) = (file.bytes().len(), file.version());
    let count = counted(file.count(), "round");
    let heading =
        format!("{name} is a round file of {bytes} bytes with {count}, in version {version}.\n");
    if file.count() == 0 {
        return heading;
    }
    let is_accepted = |round: &Round| sheet.judge(round).is_ok_and(|verdict| verdict.is_accepted());
    let accepted = file.rounds().filter(is_accepted).count();
    let table = round_table::of_file(sheet, file, 0..file.count());
    let mut text = heading + &equation(sheet) + "\n" + &table;
    text += &format!("\nAccepted: {accepted} of {}.\n", file.count());
    text + &repeats(sheet, file)
}

/// Where Vic accepts, in a line.
fn equation(sheet: &Instance) -> String {
    let statement = notation::by_row(sheet, &sheet.values().statement);
    let homomorphism = notation::homomorphism(sheet);
    format!("Vic accepts if [r] = t · z^c, with {homomorphism} and z = {statement}.\n")
}

/// Names the rounds with the same commitment, and says which of them give a witness away.
fn repeats(sheet: &Instance, file: &RoundFile<'_>) -> String {
    let rounds: Vec<Round> = file.rounds().collect();
    let line = |group: Vec<usize>| {
        let commitment = notation::by_row(sheet, &rounds[group[0]].commitment);
        let away = match commitments::first_pair(sheet, &rounds, &group) {
            Ok([first, second]) => format!(
                " Rounds {first} and {second} give a witness away: see `dimkhoros extract`."
            ),
            Err(_) => String::new(),
        };
        format!("Rounds {} have the same commitment {commitment}.{away}\n", notation::and(&group))
    };
    commitments::groups(file).into_iter().map(line).collect()
}

/// What the header of a round file says whose sheet is not known, as JSON.
pub fn header_json(path: &Path, bytes: &[u8]) -> Outcome<Json> {
    header(path, bytes)?;
    let [version, count] = faults::round_header(bytes).unwrap_or_default();
    Ok(Json::Object(vec![
        ("file", files::name(path).into()),
        ("type", "rounds".into()),
        ("version", version.into()),
        ("count", count.into()),
    ]))
}

/// The text on a round file whose sheet is not known: what its header says.
pub fn header(path: &Path, bytes: &[u8]) -> Outcome<String> {
    let name = files::name(path);
    if let Some(fault) = faults::in_round_header(bytes) {
        return Err(Failure::failed(fault.told(&name, "")));
    }
    let [version, count] = faults::round_header(bytes).unwrap_or_default();
    Ok(format!(
        "{name} is a round file of {} bytes with {}, in version {version}.\n\
         Its sheet is needed to read it: `dimkhoros show SHEET {name}`\n",
        bytes.len(),
        counted(count, "round")
    ))
}
