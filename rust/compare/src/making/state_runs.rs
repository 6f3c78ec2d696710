//! Runs of Peggy's session that saves and returns, over few nonces and on two sheets.

use crate::cases::{Case, StateCase, StateStep, Step};
use crate::groups::Group;
use crate::instance::Instance;
use crate::library::Places;
use crate::making::brought::{change_slot, fill_unread, spoil_slots, wrong_challenge};
use crate::making::memories::{name, no_name};
use crate::making::watch_runs;
use crate::random::Random;
use crate::sheets::Sheet;

/// A case of a run. A long one has 30 to 300 calls, or as many as it takes to list 64
/// commitments, and more.
pub fn run(random: &mut Random) -> Box<dyn Case> {
    let (sheets, steps) = match random.below(30) {
        0 => to_the_last(random),
        1 | 2 => {
            let calls = random.between(30, 300);
            of_calls(random, calls)
        }
        _ => {
            let calls = random.between(4, 24);
            of_calls(random, calls)
        }
    };
    Box::new(StateCase { sheets, steps })
}

/// Two sheets and so many calls. New is saved under a name at the start, which is seldom
/// saved again, so that a run can begin anew.
pub fn of_calls(random: &mut Random, calls: u32) -> ([Vec<u8>; 2], Vec<StateStep>) {
    let group = Group::any(random);
    let run = Run::new(random, group);
    let mut steps = vec![StateStep { side: 0, step: Step::Save { name: run.home } }];
    for _ in 1..calls {
        steps.push(run.step(random));
    }
    (run.sheets(), steps)
}

/// Two sheets and calls that answer one commitment after the other, up to the 64th and
/// beyond. Then earlier ones come again, often the 64th, and at the end any calls.
pub fn to_the_last(random: &mut Random) -> ([Vec<u8>; 2], Vec<StateStep>) {
    let group = watch_runs::group(random);
    let run = Run::new(random, group);
    let name = run.home;
    let mut steps = vec![StateStep { side: 0, step: Step::Save { name } }];
    let mut used = Vec::new();
    for round in 0..random.between(80, 90) {
        let (side, nonce) = match random.below(3) {
            _ if round < 66 => run.slots(random),
            0 => used[63],
            1 => used[random.below(66)],
            _ => run.slots(random),
        };
        used.push((side, nonce));
        let commit = Step::Commit { nonce };
        let respond = run.respond(random, side);
        let steps_of = [commit, respond, Step::Return { name }];
        steps.extend(steps_of.map(|step| StateStep { side, step }));
    }
    steps.extend((0..20).map(|_| run.step(random)));
    (run.sheets(), steps)
}

/// What the calls of a run are made of.
struct Run {
    /// Sheets with known witnesses. Often the two have one table, so that a nonce has
    /// the same commitment on both.
    instances: [Instance; 2],
    nonces: Vec<Places>,
    /// The name under which New is saved, and others.
    home: u32,
    names: Vec<u32>,
}

impl Run {
    fn new(random: &mut Random, group: Group) -> Run {
        let first = Instance::known(random, group);
        let second = second(random, &first);
        let (count, home) = (random.between(1, 5), name(random));
        let other = |_| (home + random.between(1, 7)) % 8;
        let names = (0..count).map(other).collect();
        Run {
            nonces: (0..count).map(|_| first.slots(random)).collect(),
            home,
            names,
            instances: [first, second],
        }
    }

    /// Any nonce of one of the sheets.
    fn slots(&self, random: &mut Random) -> (usize, Places) {
        let side = random.below(2);
        (side, self.instances[side].slots(random))
    }

    fn sheets(&self) -> [Vec<u8>; 2] {
        let instances = self.instances.each_ref();
        instances.map(|instance| instance.sheet.bytes())
    }

    /// A call, on the first sheet in two of three.
    fn step(&self, random: &mut Random) -> StateStep {
        let side = usize::from(random.once_in(3));
        let under = random.pick(&self.names);
        let step = match random.below(40) {
            0..=9 => Step::Commit { nonce: random.pick(&self.nonces) },
            10..=20 => self.respond(random, side),
            21..=25 => Step::Save { name: under },
            26..=30 => Step::Return { name: under },
            31..=35 => Step::Return { name: self.home },
            36 => Step::Drop,
            37 => Step::Save { name: no_name(random) },
            38 if random.once_in(2) => Step::Return { name: no_name(random) },
            38 if random.once_in(2) => Step::Return { name: name(random) },
            38 if random.once_in(4) => Step::Save { name: self.home },
            _ => self.spoilt(random, side),
        };
        StateStep { side, step }
    }

    /// A response with the sheet's witness.
    fn respond(&self, random: &mut Random, side: usize) -> Step {
        let instance = &self.instances[side];
        let mut witness = instance.witness.unwrap_or_default();
        fill_unread(random, &mut witness, instance.columns());
        Step::Respond { challenge: instance.challenge(random), witness }
    }

    /// A call with a wrong nonce, challenge or witness.
    fn spoilt(&self, random: &mut Random, side: usize) -> Step {
        let instance = &self.instances[side];
        let mut slots = instance.witness.unwrap_or_default();
        match random.below(4) {
            0 => spoil_slots(random, instance, &mut slots),
            1 => change_slot(random, instance, &mut slots),
            _ => {}
        }
        match random.below(3) {
            0 => {
                spoil_slots(random, instance, &mut slots);
                Step::Commit { nonce: slots }
            }
            1 => Step::Respond { challenge: wrong_challenge(random, instance), witness: slots },
            _ => Step::Respond { challenge: instance.challenge(random), witness: slots },
        }
    }
}

/// The sheet with another witness, so that the table is the same, often with fewer rows,
/// or in one of four any other sheet of the group.
fn second(random: &mut Random, first: &Instance) -> Instance {
    let Group { kind, modulus, order, .. } = first.group;
    let group = Group::new(kind, modulus, order);
    if random.once_in(4) {
        return Instance::known(random, group);
    }
    let (mut sheet, mut witness) = (first.sheet.clone(), first.slots(random));
    if random.once_in(2) {
        let rows = random.between(1, sheet.header.rows);
        sheet = cut(sheet, rows);
        witness[sheet.header.columns as usize..].fill(0);
    }
    sheet.statement = sheet.image(&witness);
    Instance { group, sheet, witness: Some(witness) }
}

/// The first rows of a sheet. In kind 2 it has as many columns.
fn cut(mut sheet: Sheet, rows: u32) -> Sheet {
    sheet.header.rows = rows;
    if sheet.header.kind == 2 {
        sheet.header.columns = rows;
    }
    sheet.entries[8 * rows as usize..].fill(0);
    sheet
}
