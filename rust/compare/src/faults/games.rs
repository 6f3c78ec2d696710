//! Faults of the game.

mod answers;

use std::cell::RefCell;

use crate::faults::Fault;
use crate::files::version;
use crate::groups::Group;
use crate::library::Library::Judge;
use crate::library::{Header, LONGEST_FILE, LONGEST_GAME, LONGEST_SHEET, Places, Round};
use crate::search::{MOST, count};
use crate::sheets::Sheet;

thread_local! {
    /// A sheet and a file with the judge's text on them, since it takes long to make
    /// and each fault asks for it.
    static JUDGED: RefCell<(Vec<u8>, Vec<u8>, String)> = RefCell::default();
}

/// The judge's text.
fn judged(sheet: &[u8], file: &[u8]) -> String {
    JUDGED.with_borrow_mut(|(of_sheet, of_file, text)| {
        if of_sheet != sheet || of_file != file || text.is_empty() {
            *text = judge::game(sheet, file);
            *of_sheet = sheet.to_vec();
            *of_file = file.to_vec();
        }
        text.clone()
    })
}

pub fn game(fault: Fault, sheet: &[u8], file: &[u8], text: &mut [u8; LONGEST_GAME]) -> usize {
    let right = judged(sheet, file);
    let number = right.strip_prefix("refused ").and_then(|number| number.trim().parse().ok());
    let mut told = match (fault, number) {
        (Fault::GameSheetShort, _) => judge::game(shorter(sheet), file),
        (Fault::GameFileShort, _) => judge::game(sheet, shorter(file)),
        (_, Some(number)) => refused(fault, number, sheet, file).unwrap_or(right),
        (_, None) => {
            let number = let_through(fault, sheet, file);
            number.unwrap_or_else(|| {
                answers::told(fault, right, &Sheet::read(sheet), &rounds(sheet, file))
            })
        }
    };
    if fault == Fault::GameNoEnd {
        told.pop();
    }
    text[..told.len()].copy_from_slice(told.as_bytes());
    if let (Fault::GameByteAfter, Some(byte)) = (fault, text.get_mut(told.len())) {
        *byte = 0;
    }
    told.len()
}

/// The bytes but the last.
fn shorter(bytes: &[u8]) -> &[u8] {
    &bytes[..bytes.len().saturating_sub(1)]
}

/// The rounds of a file that reads.
fn rounds(sheet: &[u8], file: &[u8]) -> Vec<Round> {
    let count = Judge.count(sheet, file).count as usize;
    let rounds = (0..count).map(|number| Judge.read(sheet, file, number).round);
    rounds.collect()
}

/// The faulty text where the judge refuses with this number, if it is another one.
fn refused(fault: Fault, number: u32, sheet: &[u8], file: &[u8]) -> Option<String> {
    let numbered = |number: u32| Some(format!("refused {number}\n"));
    match (fault, number) {
        (Fault::GameFileFirst, 2..=11) if file.len() < 7 => numbered(12),
        (Fault::GameSheetKept, 9) if sheet.len() > LONGEST_SHEET => {
            Some(judge::game(&sheet[..LONGEST_SHEET], file))
        }
        (Fault::GameFileKept, 12) if file.len() > LONGEST_FILE => {
            Some(judge::game(sheet, &file[..LONGEST_FILE]))
        }
        (Fault::GameMarkersWords, 2..=11) => Some(format!("sheet {number}\n")),
        (Fault::GameMarkersWords, 12) => Some(String::from("file 12\n")),
        (Fault::GameNoRounds, 13) => Some(String::from("none\n")),
        (Fault::GameThirtyOneFirst, 14) if !is_small(fault, sheet) => numbered(31),
        (Fault::GameCongruent, 14) => reduced(sheet, file),
        (_, 31) if is_small(fault, sheet) => Some(String::from("none\n")),
        _ => None,
    }
}

/// The text where the first round's commitment is reduced before its test.
fn reduced(sheet: &[u8], file: &[u8]) -> Option<String> {
    let Header { kind, modulus, order, rows, .. } = Judge.load(sheet).header;
    let mut round = *rounds(sheet, file).first()?;
    let group = Group::new(kind, modulus, order);
    for value in &mut round.commitment[..rows as usize] {
        *value %= modulus;
        if !group.is_element(*value) {
            return None;
        }
    }
    let header = Judge.load(sheet).header;
    let one = crate::files::of_rounds(&header, 1, &[round]);
    Some(judge::game(sheet, &one))
}

/// Whether a sheet that loads is small, as the fault sees it.
fn is_small(fault: Fault, sheet: &[u8]) -> bool {
    let header = Judge.load(sheet).header;
    let Header { kind, order, columns, rows, .. } = header;
    let responses = match fault {
        Fault::GameOrderAlone if kind == 1 => order.into(),
        Fault::GamePowerCut if kind == 1 => order.wrapping_pow(columns).into(),
        _ => count(&header),
    };
    let most = match fault {
        Fault::GameCountLower if kind == 1 => MOST - 1,
        Fault::GameModulusLower if kind == 2 => MOST - 1,
        Fault::GameCountHigher if kind == 1 => MOST + 1,
        Fault::GameModulusHigher if kind == 2 => MOST + 1,
        _ => MOST,
    };
    let one_row = match kind {
        1 => fault != Fault::GameExponentRows,
        _ => fault != Fault::GameRootRows,
    };
    responses <= most.into()
        && (!one_row || kind == 1 || rows == 1)
        && (one_row || kind == 2 || rows == 1)
}

/// The refusal of a game that the judge plays, if the fault refuses it.
fn let_through(fault: Fault, sheet: &[u8], file: &[u8]) -> Option<String> {
    let first = Judge.read(sheet, file, 0).round;
    let alone = |round: Round, number: u32| Judge.judge(sheet, &round).refusal == number;
    let one = Places::from([1; 8]);
    let number = match fault {
        Fault::GameVersionOne if version(file) == 2 => 12,
        Fault::GameChallengeTested if alone(first, 15) => 15,
        Fault::GameResponseTested if alone(Round { challenge: 0, ..first }, 16) => 16,
        Fault::GameAllRounds
            if rounds(sheet, file)
                .into_iter()
                .any(|round| alone(Round { challenge: 0, response: one, ..round }, 14)) =>
        {
            14
        }
        _ if !is_small(fault, sheet) => 31,
        _ => return None,
    };
    Some(format!("refused {number}\n"))
}
