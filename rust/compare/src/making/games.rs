//! Cases of the game: sheets that are small, at the bounds and beyond them, with
//! commitments that are answered or not.

use crate::calls::{Call, SHEET_NUMBERS};
use crate::cases::{Case, GameCase};
use crate::damage::{self, faults, group_for};
use crate::files;
use crate::groups::Group;
use crate::instance::Instance;
use crate::library::{Header, MOST_ROUNDS, Places, Round};
use crate::making::brought::spoil_round;
use crate::random::Random;
use crate::search::count;
use crate::sheets::Sheet;

/// Groups of kind 1 and columns with 4,096 responses.
const AT_BOUND: [(u32, u32, u32); 5] =
    [(12_289, 4096, 1), (193, 64, 2), (97, 16, 3), (73, 8, 4), (13, 4, 6)];

/// Orders and columns with a little more than 4,096 responses, and some whose
/// responses are few if they are counted in 32 or 64 bits.
const ABOVE: [(u32, u32); 13] = [
    (4098, 1),
    (4099, 1),
    (65, 2),
    (17, 3),
    (9, 4),
    (5, 6),
    (3, 8),
    (65_536, 2),
    (65_536, 4),
    (256, 8),
    (1 << 31, 2),
    (u32::MAX, 8),
    (u32::MAX, 1),
];

/// A case of the game.
pub fn game(random: &mut Random) -> Box<dyn Case> {
    Box::new(game_case(random))
}

/// A sheet and a file, each of them right or with a fault.
pub fn game_case(random: &mut Random) -> GameCase {
    if random.once_in(60) {
        return overlong(random);
    }
    let first = match random.below(6) {
        0 => random.pick(&SHEET_NUMBERS),
        1 | 2 => random.pick(Call::Game.others()),
        _ => 0,
    };
    let faults = match first {
        0 => Vec::new(),
        _ => faults(random, &Call::Game.numbers(), first),
    };
    let instance = match first {
        2..=11 => {
            let group = group_for(random, first);
            Instance::of_group(random, group)
        }
        _ if faults.contains(&31) => large(random),
        _ => small(random),
    };
    let file = file(random, &instance, &faults);
    let sheet = damage::with_faults(random, &instance.group, instance.sheet.clone(), &faults);
    GameCase { sheet, file }
}

/// The longest sheet with one response in 256, and the longest file of it, of which
/// either has a byte too many or both are right.
fn overlong(random: &mut Random) -> GameCase {
    let modulus = random.pick(&[3, 8, 24, 35]);
    let instance = sized(random, Group::new(1, modulus, 2), [8, 8]);
    let rounds = vec![round(random, &instance); MOST_ROUNDS];
    let mut file = files::of_rounds(&instance.sheet.header, 1, &rounds);
    let mut sheet = instance.sheet.bytes();
    match random.below(3) {
        0 => sheet.push(random.bits() as u8),
        1 => file.push(random.bits() as u8),
        _ => {}
    }
    GameCase { sheet, file }
}

/// A sheet whose responses can all be tried.
fn small(random: &mut Random) -> Instance {
    match random.below(40) {
        place @ 0..5 => {
            let (modulus, order, columns) = AT_BOUND[place];
            let rows = side(random);
            sized(random, Group::new(1, modulus, order), [rows, columns])
        }
        5 | 6 => {
            let order = random.pick(&[2, 3, 9, 65_537]);
            sized(random, Group::new(2, 4096, order), [1, 1])
        }
        7..=20 => {
            let modulus = random.between(3, 200);
            let order = random.pick(&[2, 3, 5, 7, 15, 35, 121, 65_537]);
            sized(random, Group::new(2, modulus, order), [1, 1])
        }
        _ => {
            let group = small_group(random);
            let most = (1..=8).take_while(|n| group.order.pow(*n) <= 1000).last();
            let columns = random.between(1, most.unwrap_or(1));
            let rows = side(random);
            sized(random, group, [rows, columns])
        }
    }
}

/// A group of kind 1 with a small order, mostly one that its modulus has.
fn small_group(random: &mut Random) -> Group {
    let (modulus, order) = random.pick(&[
        (3, 2),
        (7, 3),
        (7, 6),
        (8, 4),
        (11, 5),
        (23, 11),
        (31, 15),
        (31, 5),
        (35, 6),
        (53, 13),
        (103, 17),
        (4_294_967_291, 10),
    ]);
    if random.once_in(4) {
        Group::new(1, random.between(3, 60), random.between(2, 12))
    } else {
        Group::new(1, modulus, order)
    }
}

/// A sheet with too many responses, or a root sheet with too many rows.
fn large(random: &mut Random) -> Instance {
    let (kind, any) = (random.between(1, 2), random.below(5));
    match (kind, any) {
        (_, 0) => loop {
            let group = Group::of_kind(random, kind);
            let instance = Instance::of_group(random, group);
            if !crate::search::is_small(&instance.sheet.header) {
                return instance;
            }
        },
        (1, _) => {
            let (order, columns) = match any {
                1 => (4097, 1),
                _ => random.pick(&ABOVE),
            };
            let modulus = random.pick(&[23, 193, 12_289, 4_294_967_291]);
            let rows = side(random);
            sized(random, Group::new(1, modulus, order), [rows, columns])
        }
        (_, 1 | 2) => {
            let modulus = random.pick(&[4097, 4097, 4097, 4098, 65_537]);
            sized(random, Group::new(2, modulus, 65_537), [1, 1])
        }
        _ => {
            let (modulus, rows) = (random.pick(&[3, 35, 4096, 4097]), random.between(2, 8));
            sized(random, Group::new(2, modulus, 5), [rows, rows])
        }
    }
}

/// A row count.
fn side(random: &mut Random) -> u32 {
    random.pick(&[1, 1, 1, 2, 3, 8])
}

/// A sheet of the group with so many rows and columns, and with so many challenges
/// that the judge is quick. In some cases its witness is known, and in some a column
/// has ones, which each response can change freely.
fn sized(random: &mut Random, group: Group, [rows, columns]: [u32; 2]) -> Instance {
    let mut sheet = Sheet {
        header: Header {
            kind: group.kind,
            modulus: group.modulus,
            order: group.order,
            challenges: 2,
            rows,
            columns,
        },
        entries: [0; 64],
        statement: [0; 8],
    };
    let most = (4000 / count(&sheet.header)).max(2) as u32;
    sheet.header.challenges = group.challenges(random).min(most);
    for column in (0..columns as usize).filter(|_| group.kind == 1) {
        let ones = random.once_in(6);
        for row in 0..rows as usize {
            let entry = if ones { 1 } else { group.element(random) };
            sheet.entries[8 * row + column] = entry;
        }
    }
    let mut instance = Instance { group, sheet, witness: None };
    if random.once_in(2) {
        let witness = instance.slots(random);
        instance.sheet.statement = instance.sheet.image(&witness);
        instance.witness = Some(witness);
    } else {
        instance.sheet.statement = instance.elements(random);
    }
    instance
}

/// A file, of either version, with its faults. Rounds behind the first may have any.
fn file(random: &mut Random, instance: &Instance, faults: &[u32]) -> Vec<u8> {
    let header = &instance.sheet.header;
    let mut rounds = Vec::new();
    if !faults.contains(&13) {
        rounds.push(round(random, instance));
        if faults.contains(&14) {
            spoil_round(random, instance, &mut rounds[0], 14);
        }
        for _ in 0..random.pick(&[0, 0, 1, 3]) {
            let mut other = round(random, instance);
            let number = random.pick(&[0, 14]);
            spoil_round(random, instance, &mut other, number);
            rounds.push(other);
        }
    }
    if faults.contains(&12) {
        return files::damaged(random, header);
    }
    files::of_rounds(header, files::any_version(random), &rounds)
}

/// A round with a commitment of group elements. Its challenge and response are in
/// range or not.
fn round(random: &mut Random, instance: &Instance) -> Round {
    let mut round = Round {
        commitment: commitment(random, instance),
        challenge: instance.challenge(random),
        response: instance.slots(random),
    };
    for number in [15, 16] {
        if random.once_in(3) {
            spoil_round(random, instance, &mut round, number);
        }
    }
    round
}

/// An image, a commitment that some challenge answers, or any elements.
fn commitment(random: &mut Random, instance: &Instance) -> Places {
    match random.below(4) {
        0 => {
            let slots = instance.slots(random);
            instance.sheet.image(&slots)
        }
        1 | 2 => {
            let (challenge, slots) = (instance.challenge(random), instance.slots(random));
            instance.simulated(challenge, &slots)
        }
        _ => instance.elements(random),
    }
}

#[cfg(test)]
mod tests {
    use std::collections::BTreeMap;

    use super::*;
    use crate::library::Library::Judge;
    use crate::search::{Table, is_small};

    /// What a case shows, in a few words.
    fn shape(case: &GameCase) -> String {
        let text = judge::game(&case.sheet, &case.file);
        if text.starts_with("refused") {
            return text.trim().to_string();
        }
        let table = Table::new(Sheet::read(&case.sheet));
        let answered = match text.lines().count() {
            _ if text == "none\n" => "none",
            1 => "one",
            _ => "all",
        };
        let header = table.sheet.header;
        let kernel = table.with_image(&table.wanted(&[1; 8], 0)).len() > 1;
        let in_range = Judge.judge(&case.sheet, &Judge.read(&case.sheet, &case.file, 0).round);
        format!(
            "kind {}, witness {}, kernel {kernel}, {answered}, in range {}",
            header.kind,
            table.has_witness(),
            in_range.refusal == 0
        )
    }

    /// Every shape that there can be.
    fn wanted() -> Vec<String> {
        let numbers = Call::Game.numbers().into_iter();
        let mut all: Vec<String> = numbers.map(|number| format!("refused {number}")).collect();
        for kind in [1, 2] {
            for kernel in [false, true] {
                for answered in [(true, "none"), (true, "all"), (false, "none"), (false, "one")] {
                    let (witness, answered) = answered;
                    let start = format!("kind {kind}, witness {witness}, kernel {kernel}");
                    // A root sheet on which no two responses have one image has all of them.
                    if kind == 2 && !kernel && (!witness || answered == "none") {
                        continue;
                    }
                    for range in [false, true] {
                        all.push(format!("{start}, {answered}, in range {range}"));
                    }
                }
            }
        }
        all
    }

    #[test]
    fn every_number_and_every_outcome_is_met() {
        let mut met = BTreeMap::new();
        for seed in 0..4000 {
            let case = game_case(&mut Random::new(seed));
            *met.entry(shape(&case)).or_insert(0) += 1;
        }
        for shape in wanted() {
            assert!(met.get(&shape) > Some(&3), "{shape}: {met:?}");
        }
    }

    #[test]
    fn thirty_one_is_met_beside_fourteen() {
        let mut met = 0;
        for seed in 0..4000 {
            let case = game_case(&mut Random::new(seed));
            let header = Judge.load(&case.sheet).header;
            let number = judge::game(&case.sheet, &case.file);
            met += u32::from(number == "refused 14\n" && !is_small(&header));
        }
        assert!(met > 10, "{met}");
    }
}
