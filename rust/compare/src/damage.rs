//! Sheets that are refused.

use crate::calls::SHEET_NUMBERS;
use crate::groups::Group;
use crate::library::Header;
use crate::random::Random;
use crate::sheets::Sheet;

/// A fault with this number and, in half of the cases, some of the numbers
/// behind it in the list. The one that is tested first comes last.
pub fn faults(random: &mut Random, numbers: &[u32], first: u32) -> Vec<u32> {
    let several = random.once_in(2);
    let later = numbers.iter().rev().take_while(|number| **number != first);
    let mut faults: Vec<u32> = later.filter(|_| several && random.once_in(2)).copied().collect();
    faults.push(first);
    faults
}

/// Gives the header or a value in use a fault with the number 4 to 8, 10 or
/// 11. Row and column counts and the kind stay within `widest`.
pub fn spoil(random: &mut Random, group: &Group, sheet: &mut Sheet, number: u32, widest: u32) {
    let header = &mut sheet.header;
    match number {
        4 => header.kind = outside(random, &[1, 2], widest),
        5 => header.modulus = random.between(0, 2),
        6 => header.order = random.between(0, 1),
        7 => spoil_sides(random, header, widest),
        8 => header.challenges = group.wrong_challenges(random),
        10 => {
            let i = random.place(header.rows as usize);
            let j = random.place(header.columns as usize);
            sheet.entries[8 * i + j] = group.other(random);
        }
        _ => sheet.statement[random.place(header.rows as usize)] = group.other(random),
    }
}

/// A number up to `widest` that is none of these, now and then one that is one
/// of these when it is cut to a byte or to 16 bits.
fn outside(random: &mut Random, inside: &[u32], widest: u32) -> u32 {
    loop {
        let like = random.pick(inside);
        let number = match random.below(4) {
            0 => random.pick(&[0, 3, 9, 10, 127, 128, 255]),
            1 => random.between(0, widest),
            2 => random.pick(&[0x100, 0x1_0000, 0x100_0000, 0x8000_0000]) + like,
            _ => widest,
        };
        if number <= widest && !inside.contains(&number) {
            return number;
        }
    }
}

/// Puts rows or columns out of range, or makes them differ in kind 2.
pub fn spoil_sides(random: &mut Random, header: &mut Header, widest: u32) {
    let sides = [1, 2, 3, 4, 5, 6, 7, 8];
    match random.below(4) {
        0 => header.rows = outside(random, &sides, widest),
        1 => header.columns = outside(random, &sides, widest),
        2 if header.kind == 2 => header.columns = header.rows % 8 + 1,
        _ => {
            header.rows = outside(random, &sides, widest);
            header.columns =
                if random.once_in(2) { header.rows } else { outside(random, &sides, widest) };
        }
    }
}

/// A group that can have a sheet with this number.
pub fn group_for(random: &mut Random, number: u32) -> Group {
    let kind = if number == 10 { 1 } else { random.between(1, 2) };
    group_of_kind(random, kind, number)
}

/// A group of this kind. For 8 it mostly has an order that ends the challenge counts.
pub fn group_of_kind(random: &mut Random, kind: u32, number: u32) -> Group {
    match random.below(6) {
        0 if number == 8 => Group::wide(random, kind),
        1..=4 if number == 8 => Group::divided(random, kind),
        _ => Group::of_kind(random, kind),
    }
}

/// Bytes that loading refuses with this number.
pub fn refused(random: &mut Random, number: u32) -> Vec<u8> {
    let group = group_for(random, number);
    let sheet = Sheet::of_group(random, &group);
    let faults = faults(random, &SHEET_NUMBERS, number);
    with_faults(random, &group, sheet, &faults)
}

/// The bytes of the sheet with those of the faults that are a sheet's. Their
/// length is that of the header before or after its faults.
pub fn with_faults(
    random: &mut Random,
    group: &Group,
    mut sheet: Sheet,
    faults: &[u32],
) -> Vec<u8> {
    for fault in faults.iter().filter(|fault| [10, 11].contains(*fault)) {
        spoil(random, group, &mut sheet, *fault, 255);
    }
    let values = sheet.bytes().split_off(20);
    for fault in faults.iter().filter(|fault| (4..=8).contains(*fault)) {
        spoil(random, group, &mut sheet, *fault, 255);
    }
    let mut bytes = if random.once_in(2) && sheet.header.rows * sheet.header.columns < 2000 {
        sheet.bytes()
    } else {
        [sheet.header_bytes(), values].concat()
    };
    for fault in faults {
        match fault {
            2 if random.once_in(3) => bytes.truncate(random.below(20)),
            2 => bytes[random.below(3)] ^= random.between(1, 255) as u8,
            3 => spoil_version(random, &mut bytes),
            9 => spoil_length(random, &mut bytes, 20),
            _ => {}
        }
    }
    bytes
}

/// Puts a version other than 1 into bytes 3 and 4.
pub fn spoil_version(random: &mut Random, bytes: &mut [u8]) {
    let any = random.between(2, 0xffff) as u16;
    let version = random.pick(&[0, 2, 0x0100, 0x0101, 0xffff, any]);
    bytes[3..5].copy_from_slice(&version.to_be_bytes());
}

/// Makes the bytes longer or shorter, but not shorter than `least`.
pub fn spoil_length(random: &mut Random, bytes: &mut Vec<u8>, least: usize) {
    let length = bytes.len();
    let more = match random.below(8) {
        0 | 1 => 1,
        2 => 4,
        3 => random.between(1, 300) as usize,
        4 => random.pick(&[2, 3, 8, 65_536]),
        5 | 6 => {
            bytes.truncate(least.max(length - 1));
            return;
        }
        _ => {
            bytes.truncate(least + random.below(length - least));
            return;
        }
    };
    bytes.extend(random.bytes(more));
}

/// The bytes with some damage, which may or may not be refused.
pub fn damaged(random: &mut Random, mut bytes: Vec<u8>) -> Vec<u8> {
    let length = bytes.len();
    match random.below(8) {
        0 | 1 => bytes[random.below(length)] = random.bits() as u8,
        2 => bytes[random.below(length)] ^= 1 << random.below(8),
        3 => {
            for _ in 0..random.between(2, 5) {
                bytes[random.below(length)] = random.bits() as u8;
            }
        }
        4 => {
            let at = random.below(length);
            bytes[random.below(length.min(20))] ^= 1 << random.below(8);
            bytes[at] = random.pick(&[0, 1, 255]);
        }
        5 => spoil_length(random, &mut bytes, 0),
        6 => {
            let junk = random.below(400);
            bytes = random.bytes(junk);
        }
        _ => {
            let junk = random.below(400);
            bytes.truncate(random.below(20));
            bytes.extend(random.bytes(junk));
        }
    }
    bytes
}

#[cfg(test)]
mod tests {
    use super::*;
    use crate::library::Library::Judge;

    #[test]
    fn refused_sheets_have_the_number_they_were_made_for() {
        for number in SHEET_NUMBERS {
            for seed in 0..1500 {
                let bytes = refused(&mut Random::new(seed), number);
                assert_eq!(Judge.load(&bytes).refusal, number, "seed {seed}");
            }
        }
    }

    #[test]
    fn damage_is_met_with_and_without_a_refusal() {
        let mut met = [0; 12];
        for seed in 0..8000 {
            let mut random = Random::new(seed);
            let bytes = Sheet::any(&mut random).bytes();
            let bytes = damaged(&mut random, bytes);
            met[Judge.load(&bytes).refusal as usize] += 1;
        }
        for number in SHEET_NUMBERS {
            assert!(met[number as usize] > 0, "number {number}");
        }
        assert!(met[0] > 0);
    }
}
