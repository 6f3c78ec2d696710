//! The part of a page that plays: what the library computes of a small sheet stands in the page as data, and a script looks it up.

mod games;
mod pair;
mod tables;
mod team;

use super::or_pair::{SIDES, Shown};
use super::run::Secrets;
use crate::command_line::failure::Outcome;
use crate::command_line::json::Json;
use crate::sheets::{row_count, small};
use dimkhoros::{EXPONENT, Instance, Places};
use tables::Tables;

/// The most cells, challenges by responses, of a sheet that plays.
const MOST_CELLS: usize = 1 << 18;

/// The most bytes that the data, the script and its style have.
const MOST_BYTES: usize = 4 << 20;

/// The script.
const SCRIPT: &str = include_str!("play/play.js");

/// The script's style sheet.
const STYLE: &str = include_str!("play/play.css");

/// What a page that plays has besides its sections, or why it does not play.
pub type Play = Result<String, String>;

/// The data of a sheet, with Peggy's witness if there is one.
pub fn of_sheet(sheet: &Instance, witness: Option<&Places>, secrets: Secrets) -> Outcome<Play> {
    if let Some(why) = too_large(sheet) {
        return Ok(Err(why));
    }
    let witnesses = small::witnesses(sheet, small::MOST as usize).unwrap_or_default();
    let tables = Tables::of(sheet)?;
    if let Some(why) = tables.too_many_pairs(&witnesses) {
        return Ok(Err(why));
    }
    let mut data = vec![("hidden", (secrets == Secrets::Hidden).into())];
    data.extend(tables.data(witness, &witnesses)?);
    data.push(("hopes", games::hopes(&tables)?));
    if let Some(witness) = witness {
        data.push(("teams", team::games(sheet, witness)?));
    }
    Ok(html(&Json::Object(data)))
}

/// The data of a pair of sheets.
pub fn of_pair(shown: &Shown<'_>) -> Outcome<Play> {
    for side in SIDES {
        if let Some(why) = too_large(shown.pair.instance(side)) {
            return Ok(Err(format!("on side {}, {why}", side.number())));
        }
    }
    let data =
        vec![("hidden", (shown.secrets == Secrets::Hidden).into()), ("pair", pair::games(shown)?)];
    Ok(html(&Json::Object(data)))
}

/// Why a sheet is too large to play on, if it is.
fn too_large(sheet: &Instance) -> Option<String> {
    let header = sheet.values().header;
    let most = small::MOST;
    let responses = small::domain(sheet, most as usize).map(|domain| domain.len());
    match responses {
        _ if header.kind != EXPONENT && row_count(sheet) > 1 => {
            Some(format!("a root sheet plays with one row, and this one has {}", header.rows))
        }
        None if header.kind == EXPONENT => {
            Some(format!("q^n = {}^{} is above {most}", header.order, header.columns))
        }
        None => Some(format!("m = {} is above {most}", header.modulus)),
        Some(count) if count * header.challenges as usize > MOST_CELLS => Some(format!(
            "{} challenges by {count} responses are more than {MOST_CELLS} cells: make the sheet with a smaller K",
            header.challenges
        )),
        Some(_) => None,
    }
}

/// The script with its data and its style, if they are not too long.
fn html(data: &Json) -> Play {
    let data = data.to_string().replace('<', "\\u003c");
    let html = format!(
        "<style>\n{STYLE}</style>\n<script type=\"application/json\" id=\"data\">{data}</script>\n<script>\n{SCRIPT}</script>\n"
    );
    if html.len() > MOST_BYTES {
        return Err(format!(
            "its data have {} bytes, and more than {MOST_BYTES} are too many: make the sheet with a smaller K",
            html.len()
        ));
    }
    Ok(html)
}

/// How many prepared games are stored of a sheet with so many challenges.
fn game_count(challenges: u32, most: u32) -> u32 {
    (4096 / challenges).clamp(4, most)
}
