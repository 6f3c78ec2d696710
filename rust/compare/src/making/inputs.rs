//! The sheet of a case, and the faults that its inputs get.

use crate::calls::{Call, SHEET_NUMBERS};
use crate::damage::{self, faults};
use crate::groups::Group;
use crate::instance::Instance;
use crate::random::Random;

/// A sheet that loads, and the numbers of the faults to put in, the first to be
/// tested last.
pub struct Inputs {
    pub instance: Instance,
    pub faults: Vec<u32>,
}

impl Inputs {
    /// Inputs of this call. In half of the cases they are to have no fault.
    pub fn of_call(random: &mut Random, call: Call) -> Inputs {
        Inputs::made(random, call, Instance::of_group)
    }

    /// Inputs of this call, with a sheet whose witness is known.
    pub fn known(random: &mut Random, call: Call) -> Inputs {
        Inputs::made(random, call, Instance::known)
    }

    fn made(
        random: &mut Random,
        call: Call,
        instance: fn(&mut Random, Group) -> Instance,
    ) -> Inputs {
        let first = match random.below(6) {
            0 => random.pick(&SHEET_NUMBERS),
            1 | 2 => random.pick(call.others()),
            _ => 0,
        };
        let group = damage::group_for(random, first);
        let instance = instance(random, group);
        let faults = if first == 0 { Vec::new() } else { faults(random, &call.numbers(), first) };
        Inputs { instance, faults }
    }

    /// The sheet's bytes with their faults, now and then with any damage.
    pub fn bytes(&self, random: &mut Random) -> Vec<u8> {
        let Instance { group, sheet, .. } = &self.instance;
        let bytes = damage::with_faults(random, group, sheet.clone(), &self.faults);
        if !bytes.is_empty() && random.once_in(40) {
            return damage::damaged(random, bytes);
        }
        bytes
    }
}
