//! Cases of multiplying a team's commitments and of joining its responses.

use crate::arithmetic::multiply;
use crate::calls::Call;
use crate::cases::{Case, TeamCase};
use crate::instance::Instance;
use crate::library::{MOST_PLAYERS, PARTS, PLACES, Parts, Places};
use crate::making::brought::{change_rows, fill_unread, spoil_commitment, spoil_slots};
use crate::making::inputs::Inputs;
use crate::random::Random;

/// A case of multiplying commitments.
pub fn commitment(random: &mut Random) -> Box<dyn Case> {
    Box::new(case(random, Call::TeamCommitment))
}

/// A case of joining responses.
pub fn response(random: &mut Random) -> Box<dyn Case> {
    Box::new(case(random, Call::TeamResponse))
}

/// What the players bring, and how many of them are counted.
struct Team {
    /// The players that the team is made for. The count may be another.
    players: usize,
    count: u32,
    images: [Places; MOST_PLAYERS],
    parts: [Places; MOST_PLAYERS],
}

fn case(random: &mut Random, call: Call) -> TeamCase {
    let mut inputs = Inputs::of_call(random, call);
    let instance = &inputs.instance;
    let part = match call {
        Call::TeamCommitment => Instance::elements,
        _ => Instance::slots,
    };
    let mut team = Team::new(random, instance, part);
    for fault in &inputs.faults {
        team.spoil(random, instance, *fault);
    }
    let (rows, columns) = (instance.rows(), instance.columns());
    let used = match call {
        Call::TeamCommitment => rows,
        _ => columns,
    };
    let (images, parts) = (
        flat(random, team.players, &team.images, rows),
        flat(random, team.players, &team.parts, used),
    );
    // Of the cases with 11 some have it in an image, some in the statement and
    // some in both.
    if random.once_in(2) {
        inputs.faults.retain(|fault| *fault != 11);
    }
    TeamCase { sheet: inputs.bytes(random), call, count: team.count, images, parts }
}

/// The players' values one behind the other. In half of the cases any numbers
/// stand in a player's places beyond those in use, and in half in the places of
/// the players that the team does not have.
fn flat(
    random: &mut Random,
    players: usize,
    values: &[Places; MOST_PLAYERS],
    used: usize,
) -> Parts {
    let mut parts = [0; PARTS];
    let junk = random.once_in(2);
    for (player, (row, values)) in parts.chunks_mut(PLACES).zip(values).enumerate() {
        let mut values = *values;
        fill_unread(random, &mut values, used);
        if player >= players && junk {
            values = random.words();
        }
        row.copy_from_slice(&values);
    }
    parts
}

impl Team {
    /// A team on this sheet without a fault, with this maker of parts.
    fn new(
        random: &mut Random,
        instance: &Instance,
        part: fn(&Instance, &mut Random) -> Places,
    ) -> Team {
        let players = match random.below(4) {
            0 => 2,
            1 => MOST_PLAYERS,
            _ => random.between(2, MOST_PLAYERS as u32) as usize,
        };
        let mut team = Team {
            players,
            count: players as u32,
            images: std::array::from_fn(|_| instance.elements(random)),
            parts: std::array::from_fn(|_| part(instance, random)),
        };
        let last = random.place(players);
        team.images[last] = instance.sheet.statement;
        for other in (0..players).filter(|other| *other != last) {
            for row in 0..instance.rows() {
                let inverse = instance.group.negative_power(team.images[other][row], 1);
                let value = &mut team.images[last][row];
                *value = multiply(*value, inverse, instance.group.modulus);
            }
        }
        team
    }

    /// Puts in a fault with the number 27, 11, 14, 16 or 28.
    fn spoil(&mut self, random: &mut Random, instance: &Instance, number: u32) {
        let player = random.place(self.players);
        match number {
            27 => self.count = wrong_count(random, self.players as u32),
            11 if random.below(4) > 0 => {
                spoil_commitment(random, instance, &mut self.images[player]);
            }
            14 => spoil_commitment(random, instance, &mut self.parts[player]),
            16 => spoil_slots(random, instance, &mut self.parts[player]),
            28 => self.spoil_product(random, instance, player),
            _ => {}
        }
    }

    /// Makes the images multiply to another statement, in most cases: in one row or
    /// in several, in the last row alone, or by a player too many or too few.
    fn spoil_product(&mut self, random: &mut Random, instance: &Instance, player: usize) {
        match random.below(6) {
            0 if self.players > 2 => self.count = self.players as u32 - 1,
            1 if self.players < MOST_PLAYERS => {
                self.players += 1;
                self.count = self.players as u32;
            }
            2 => {
                let value = &mut self.images[player][instance.rows() - 1];
                let factor = instance.group.element(random);
                *value = multiply(*value, factor, instance.group.modulus);
            }
            _ => change_rows(random, instance, &mut self.images[player]),
        }
    }
}

/// A count outside 2 to 8, often one that is inside where it is cut.
fn wrong_count(random: &mut Random, players: u32) -> u32 {
    match random.below(6) {
        0 | 1 => 1,
        2 | 3 => 9,
        4 => random.pick(&[0x100, 0x1_0000, 0x100_0000, 0x8000_0000]) + players,
        _ => random.pick(&[0, 10, 16, 64, 255, 0x8000_0000, u32::MAX]),
    }
}

#[cfg(test)]
mod tests {
    use std::collections::BTreeMap;

    use super::*;
    use crate::faults::product;
    use crate::library::Library::Judge;

    /// What stands out in a case, and the number that it comes to.
    fn shapes(case: &TeamCase) -> Vec<String> {
        let number = case.run(Judge).answers[0].1.refusal();
        let loaded = Judge.load(&case.sheet);
        let header = loaded.header;
        let mut shapes = vec![format!("{number}, a team of {}", case.count)];
        let mut add = |met: bool, shape: &str| {
            if met {
                shapes.push(format!("{number}, {shape}"));
            }
        };
        add(loaded.refusal == 10, "a bad entry");
        add(loaded.refusal == 11, "a bad statement");
        add(header.kind == 2, "roots");
        if loaded.refusal != 0 || !(2..=8).contains(&case.count) {
            return shapes;
        }
        let rows = header.rows as usize;
        let ask = |image: &[u32], statement: &[u32]| {
            let mut images = [1; PARTS];
            images[..rows].copy_from_slice(&image[..rows]);
            let mut one = case.sheet.clone();
            let at = one.len() - 4 * rows;
            for (row, value) in statement[..rows].iter().enumerate() {
                one[at + 4 * row..][..4].copy_from_slice(&value.to_be_bytes());
            }
            Judge.team_commitment(&one, 2, &images, &[1; PARTS]).refusal
        };
        let is_image = |player: usize| {
            let image = &case.images[PLACES * player..][..PLACES];
            ask(image, image) == 0
        };
        add(!is_image(0), "a bad first image");
        add(is_image(0) && !is_image(1), "a bad second image");
        let whole = product(&case.images, case.count, &header);
        let differing: Vec<usize> =
            (0..rows).filter(|row| whole[*row] != loaded.statement[*row]).collect();
        add(!differing.is_empty(), "a wrong product");
        add(rows > 1 && differing == [rows - 1], "a product that is wrong in the last row");
        let behind = case.images.get(PLACES * case.count as usize);
        add(behind.is_some_and(|value| *value >= header.modulus), "junk behind the last image");
        shapes
    }

    #[test]
    fn teams_of_every_shape_are_met() {
        let mut met = BTreeMap::new();
        for seed in 0..6000 {
            let mut random = Random::new(seed);
            for call in [Call::TeamCommitment, Call::TeamResponse] {
                for shape in shapes(&case(&mut random, call)) {
                    *met.entry(shape).or_insert(0) += 1;
                }
            }
        }
        for wanted in [
            "0, a team of 2",
            "0, a team of 8",
            "0, roots",
            "0, junk behind the last image",
            "27, a team of 0",
            "27, a team of 1",
            "27, a team of 9",
            "27, a bad entry",
            "27, a bad statement",
            "27, roots",
            "10, a bad entry",
            "11, a bad statement",
            "11, a bad first image",
            "11, a bad second image",
            "11, roots",
            "14, a wrong product",
            "16, a wrong product",
            "28, a wrong product",
            "28, a product that is wrong in the last row",
            "28, junk behind the last image",
            "28, roots",
        ] {
            assert!(met.get(wanted) > Some(&10), "{wanted}: {met:#?}");
        }
    }
}
