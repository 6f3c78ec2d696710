//! Cases of the calls on sheets alone.

use crate::calls::SHEET_NUMBERS;
use crate::cases::{Case, SheetCase, WriterCase, Writing};
use crate::damage::{self, faults, spoil};
use crate::lent::Lent;
use crate::library::Header;
use crate::random::Random;
use crate::sheets::Sheet;

/// The bytes of a sheet, and the header of the sheet that they are made of. One
/// in so many is made to be refused or is damaged.
pub fn bytes(random: &mut Random, spoilt: usize) -> (Vec<u8>, Header) {
    let sheet = Sheet::any(random);
    if !random.once_in(spoilt) {
        return (sheet.bytes(), sheet.header);
    }
    if random.once_in(3) {
        return (damage::damaged(random, sheet.bytes()), sheet.header);
    }
    let number = random.pick(&SHEET_NUMBERS);
    (damage::refused(random, number), sheet.header)
}

/// A case of loading.
pub fn load(random: &mut Random) -> Box<dyn Case> {
    let (sheet, _) = bytes(random, 2);
    Box::new(SheetCase::Load { sheet })
}

/// A case of the entries.
pub fn entries(random: &mut Random) -> Box<dyn Case> {
    let (sheet, _) = bytes(random, 2);
    let before = Box::new(random.words());
    Box::new(SheetCase::Entries { sheet, before })
}

/// A case of the second writer. Places that it may not read hold anything.
pub fn encode(random: &mut Random) -> Box<dyn Case> {
    let numbers = [4, 5, 6, 7, 8, 10, 11];
    let wrong = random.once_in(2).then(|| random.pick(&numbers));
    let group = damage::group_for(random, wrong.unwrap_or(0));
    let mut sheet = Sheet::of_group(random, &group);
    sheet.fill_unread(random);
    let needed = sheet.bytes().len();
    if let Some(first) = wrong {
        for fault in faults(random, &numbers, first) {
            spoil(random, &group, &mut sheet, fault, u32::MAX);
        }
    }
    Box::new(WriterCase {
        writing: Writing::Encode { sheet: Box::new(sheet) },
        lent: Lent::for_result(random, needed),
    })
}
