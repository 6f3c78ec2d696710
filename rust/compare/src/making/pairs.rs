//! The two sheets of a case, and the faults that its inputs get.

use crate::calls::{Call, SHEET_NUMBERS};
use crate::damage::{self, faults};
use crate::groups::Group;
use crate::instance::Instance;
use crate::pair::Pair;
use crate::random::Random;

/// Makes a sheet of a group.
pub type Sheets = fn(&mut Random, Group) -> Instance;

/// Two sheets that load with one challenge count, and the numbers of the faults
/// to put in, the first to be tested last.
pub struct PairInputs {
    pub pair: Pair,
    /// The faults of each sheet.
    sheet_faults: [Vec<u32>; 2],
    /// All faults. Those of sheets have no effect on what is brought.
    pub faults: Vec<u32>,
}

impl PairInputs {
    /// Inputs of this call, with a maker for each sheet. In half of the cases
    /// they are to have no fault.
    pub fn of_call(random: &mut Random, call: Call, sheets: [Sheets; 2]) -> PairInputs {
        let first = match random.below(6) {
            0 => random.pick(&SHEET_NUMBERS),
            1 | 2 => random.pick(call.others()),
            _ => 0,
        };
        let numbers = [&SHEET_NUMBERS, call.others()].concat();
        let faults = if first == 0 { Vec::new() } else { faults(random, &numbers, first) };
        let spoilt = random.below(2);
        let group = damage::group_for(random, first);
        let mut groups = [Pair::beside(random, &group), group];
        if spoilt == 0 {
            groups.reverse();
        }
        let mut makers = sheets.into_iter();
        let instances = groups.map(|group| makers.next().unwrap_or(sheets[0])(random, group));
        PairInputs {
            pair: Pair::new(random, instances),
            sheet_faults: shared_out(random, &faults, spoilt),
            faults,
        }
    }

    /// The bytes of both sheets with their faults, now and then one of them with
    /// any damage.
    pub fn bytes(&self, random: &mut Random) -> [Vec<u8>; 2] {
        let mut sheets = self.pair.instances.each_ref().map(|instance| instance.sheet.clone());
        if self.faults.contains(&26) {
            let side = random.below(2);
            for side in [side, 1 - side] {
                let group = &self.pair.instances[side].group;
                if let Some(other) = group.other_challenges(random, self.pair.count()) {
                    sheets[side].header.challenges = other;
                    break;
                }
            }
        }
        let damaged = random.below(80);
        [0, 1].map(|side| {
            let group = &self.pair.instances[side].group;
            let faults = &self.sheet_faults[side];
            let bytes = damage::with_faults(random, group, sheets[side].clone(), faults);
            if side == damaged && !bytes.is_empty() {
                damage::damaged(random, bytes)
            } else {
                bytes
            }
        })
    }
}

/// Which sheet gets which of a sheet's faults: the first to be tested is this
/// one's, the others are of either sheet or of both.
fn shared_out(random: &mut Random, faults: &[u32], spoilt: usize) -> [Vec<u32>; 2] {
    let mut shared = [Vec::new(), Vec::new()];
    let of_sheets = faults.iter().filter(|fault| SHEET_NUMBERS.contains(fault));
    for fault in of_sheets {
        let first = Some(fault) == faults.last();
        let side = if first { spoilt } else { random.below(2) };
        shared[side].push(*fault);
        if random.once_in(4) {
            shared[1 - side].push(*fault);
        }
    }
    shared
}

#[cfg(test)]
mod tests {
    use std::collections::BTreeMap;

    use super::*;
    use crate::library::Library::Judge;

    /// What stands out in two sheets.
    fn shapes(sheets: &[Vec<u8>; 2]) -> Vec<&'static str> {
        let [first, second] = sheets.each_ref().map(|sheet| Judge.load(sheet));
        let (one, two) = (first.header, second.header);
        let both = first.refusal == 0 && second.refusal == 0;
        let shapes = [
            (both && one.kind != two.kind, "sheets of different kinds"),
            (
                both && (one.rows, one.columns) != (two.rows, two.columns),
                "sheets of different sizes",
            ),
            (both && one.challenges != two.challenges, "different counts"),
            (
                0 < first.refusal && first.refusal < second.refusal,
                "the first sheet's number is the lower",
            ),
            (
                0 < second.refusal && second.refusal < first.refusal,
                "the second sheet's number is the lower",
            ),
            (
                [10, 11].contains(&first.refusal) && word(&sheets[0]) != word(&sheets[1]),
                "10 or 11 and different counts",
            ),
        ];
        let met = shapes.into_iter().filter(|(met, _)| *met);
        met.map(|(_, name)| name).collect()
    }

    /// The challenge count that a sheet's bytes have.
    fn word(sheet: &[u8]) -> Option<&[u8]> {
        sheet.get(14..18)
    }

    #[test]
    fn sheets_of_every_kind_and_faults_in_both_are_met() {
        let mut met = BTreeMap::new();
        for seed in 0..4000 {
            let mut random = Random::new(seed);
            let inputs = PairInputs::of_call(&mut random, Call::OrJudge, [Instance::of_group; 2]);
            for shape in shapes(&inputs.bytes(&mut random)) {
                *met.entry(shape).or_insert(0) += 1;
            }
        }
        assert_eq!(met.len(), 6, "{met:?}");
        assert!(met.values().all(|times| *times > 20), "{met:?}");
    }
}
