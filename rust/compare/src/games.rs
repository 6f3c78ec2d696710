//! Card 12 on sheets of all small sizes, and on the largest ones.
//!
//! On each small sheet and for every t the text is to be the judge's, and these
//! texts are to be as the card says of Peggy against Vic: some t answers every
//! challenge exactly if the statement has a witness; without one each t answers at
//! most one, and with one all or none. On the largest sheets, where the judge takes
//! long, the text is to be that of a table of all responses.

mod family;
pub mod largest;

use crate::files;
use crate::library::{LONGEST_GAME, Library, Places, Round};
use crate::printing::hex;
use crate::search::{Table, is_long};
use crate::sheets::Sheet;

/// What a game answers for one commitment.
#[derive(Clone, Copy, Debug, PartialEq, Eq)]
enum Answered {
    Refused,
    None,
    One,
    All,
}

/// Sheets and texts that were tried.
#[derive(Default)]
struct Tried {
    sheets: u64,
    texts: u64,
    largest: u64,
}

/// Tries every sheet and answers the line to print. An error says what differs.
pub fn check(library: Library) -> Result<String, String> {
    let (mut tried, mut text) = (Tried::default(), vec![0; LONGEST_GAME]);
    for sheet in family::sheets() {
        let table = Table::new(sheet);
        tried.sheets += 1;
        tried.texts += meets_card(library, &table, &mut text)?;
    }
    for (sheet, commitments) in largest::sheets() {
        // The judge, and a judge with a fault, would take minutes.
        if library != Library::Proved && is_long(&sheet.header) {
            continue;
        }
        let table = Table::new(sheet);
        for commitment in commitments {
            let told = played(library, &table.sheet, &commitment, &mut text);
            same(&table.sheet, &commitment, &table.text(&commitment), &told)?;
            tried.largest += 1;
        }
    }
    let Tried { sheets, texts, largest } = tried;
    Ok(format!(
        "card 12 holds on {sheets} small sheets over all commitments, {texts} texts, and in {largest} texts of large sheets"
    ))
}

/// Tries all commitments of a sheet and answers how many there are.
fn meets_card(library: Library, table: &Table, text: &mut [u8]) -> Result<u64, String> {
    let sheet = &table.sheet;
    let mut met = Vec::new();
    for commitment in family::commitments(sheet) {
        let told = played(library, sheet, &commitment, text);
        let judged = judge::game(&sheet.bytes(), &file(sheet, &commitment));
        same(sheet, &commitment, &judged, &told)?;
        let answered = answered(&told, sheet.header.challenges);
        if answered != Some(Answered::Refused) {
            same(sheet, &commitment, &table.text(&commitment), &told)?;
        }
        met.push(answered.ok_or_else(|| format!("some challenges, not all: {told:?}"))?);
    }
    let holds = if table.has_witness() {
        met.contains(&Answered::All) && !met.contains(&Answered::One)
    } else {
        !met.contains(&Answered::All)
    };
    if holds {
        Ok(met.len() as u64)
    } else {
        Err(format!("card 12 fails on sheet {}: {met:?}", hex(&sheet.bytes())))
    }
}

/// What a text on a sheet with so many challenges comes to, where it is one of four.
fn answered(text: &str, challenges: u32) -> Option<Answered> {
    match text.lines().count() as u32 {
        _ if text.starts_with("refused ") => Some(Answered::Refused),
        _ if text == "none\n" => Some(Answered::None),
        count if count == challenges => Some(Answered::All),
        1 => Some(Answered::One),
        _ => None,
    }
}

/// The file of one round with this commitment, whose other values are out of range.
fn file(sheet: &Sheet, commitment: &Places) -> Vec<u8> {
    let round = Round { commitment: *commitment, challenge: u32::MAX, response: [u32::MAX; 8] };
    files::of_rounds(&sheet.header, 1, &[round])
}

/// The library's text on a commitment.
fn played(library: Library, sheet: &Sheet, commitment: &Places, text: &mut [u8]) -> String {
    let Some(text) = text.first_chunk_mut() else {
        panic!("there are fewer bytes than a game's text has");
    };
    let length = library.game(&sheet.bytes(), &file(sheet, commitment), text);
    let told = &text[..length.min(text.len())];
    String::from_utf8_lossy(told).into_owned()
}

/// The two texts are to be the same. The first line that differs is told.
fn same(sheet: &Sheet, commitment: &Places, wanted: &str, told: &str) -> Result<(), String> {
    if wanted == told {
        return Ok(());
    }
    let lines = wanted.lines().zip(told.lines());
    let other = lines.map(|(one, two)| format!("{one:?}, not {two:?}"));
    let mut other = other.zip(wanted.lines().zip(told.lines()).map(|(one, two)| one != two));
    let line = other.find(|(_, differs)| *differs);
    let what = line.map_or("one is longer".to_string(), |(line, _)| line);
    let bytes = hex(&sheet.bytes());
    Err(format!("card 12 differs on sheet {bytes}, commitment {commitment:?}: wanted {what}"))
}

#[cfg(test)]
mod tests {
    use super::*;
    use crate::faults::Fault;
    use crate::library::Library::{Faulty, Judge};

    #[test]
    fn the_judge_meets_card_twelve() {
        assert_eq!(check(Judge).map(|_| ()), Ok(()));
    }

    #[test]
    fn impostors_do_not_meet_card_twelve() {
        for fault in [
            Fault::GameLastResponse,
            Fault::GameLastSlot,
            Fault::GameLargerRoot,
            Fault::GameRootZero,
            Fault::GameRootModulus,
            Fault::GameNoneAfter,
            Fault::GameLastChallenge,
            Fault::GameLastCandidate,
            Fault::GameFirstCandidate,
            Fault::GameChallengeTested,
            Fault::GameResponseTested,
            Fault::GameRowZero,
            Fault::GameStatementLeft,
        ] {
            assert!(check(Faulty(fault)).is_err(), "{fault:?}");
        }
    }

    #[test]
    fn a_text_that_is_neither_is_told_apart() {
        assert_eq!(answered("refused 14\n", 3), Some(Answered::Refused));
        assert_eq!(answered("none\n", 3), Some(Answered::None));
        assert_eq!(answered("1 0\n", 3), Some(Answered::One));
        assert_eq!(answered("0 0\n1 1\n2 2\n", 3), Some(Answered::All));
        assert_eq!(answered("0 0\n1 1\n", 3), None);
    }
}
