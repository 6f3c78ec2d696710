//! A step on a watch for used nonces, which grows with the remembered rounds.

use std::collections::VecDeque;
use std::hint::black_box;

use dimkhoros_sys::{self as proved, MOST_REMEMBERED, Places, Round};

use crate::reference::{Idiomatic, Watch, load};
use crate::sheets::{SheetInputs, judgement, large_exponent, page_a};
use crate::table::{Case, Inputs, Table};

/// A step on a watch.
pub const TABLE: Table<WatchInputs, 2> = Table {
    title: "A watch",
    on: "sheet and remembered rounds",
    sides: ["library", "idiomatic"],
    cases: &[Case { name: "watch step", calls: [library, rust], alike: &[alike] }],
    count: PLANS.len(),
    make: |i| PLANS[i].inputs(),
    compared: || {
        let too_many = Plan { sheet: page_a, remembered: 64, reused: None }.inputs();
        let mut repeated = Plan { sheet: page_a, remembered: 63, reused: Some(63) }.inputs();
        repeated.handed.rounds[0] = repeated.round;
        vec![too_many, repeated]
    },
};

/// A watch and the round that it is given.
#[derive(Clone, Copy)]
struct Plan {
    sheet: fn() -> SheetInputs,
    remembered: usize,
    /// How many rounds back the nonce was used before.
    reused: Option<usize>,
}

/// The watches that are measured.
const PLANS: [Plan; 14] = [
    Plan { sheet: page_a, remembered: 0, reused: None },
    Plan { sheet: page_a, remembered: 63, reused: None },
    Plan { sheet: page_a, remembered: 1, reused: Some(1) },
    Plan { sheet: page_a, remembered: 63, reused: Some(63) },
    Plan { sheet: large_exponent, remembered: 0, reused: None },
    Plan { sheet: large_exponent, remembered: 1, reused: None },
    Plan { sheet: large_exponent, remembered: 3, reused: None },
    Plan { sheet: large_exponent, remembered: 7, reused: None },
    Plan { sheet: large_exponent, remembered: 15, reused: None },
    Plan { sheet: large_exponent, remembered: 31, reused: None },
    Plan { sheet: large_exponent, remembered: 63, reused: None },
    Plan { sheet: large_exponent, remembered: 1, reused: Some(1) },
    Plan { sheet: large_exponent, remembered: 63, reused: Some(1) },
    Plan { sheet: large_exponent, remembered: 63, reused: Some(63) },
];

/// What a step takes. The library is handed a watch and hands back another; the
/// reference changes its own.
pub struct WatchInputs {
    name: String,
    sheet: Vec<u8>,
    round: Round,
    handed: proved::Watch,
    own: Watch,
}

impl Inputs for WatchInputs {
    fn name(&self) -> &str {
        &self.name
    }

    fn taken(&mut self) -> (&mut [u8], Vec<&mut u32>) {
        let rounds = self.handed.rounds.iter_mut().chain([&mut self.round]);
        let numbers = rounds.flat_map(|round| {
            let Round { commitment, challenge, response } = round;
            commitment.iter_mut().chain([challenge]).chain(response)
        });
        (&mut self.sheet, numbers.collect())
    }
}

impl Plan {
    /// The inputs of a step. The remembered rounds have one challenge and other
    /// nonces than the round that is given, but for the one whose nonce is used again.
    fn inputs(self) -> WatchInputs {
        let SheetInputs { name, sheet, witness, nonce, first: round, second, .. } = (self.sheet)();
        let values =
            load::<Idiomatic>(&sheet).unwrap_or_else(|number| panic!("refused with {number}"));
        let other = |k: Places| Round {
            commitment: values.image(&k),
            challenge: second.challenge,
            response: values.response(&k, second.challenge, &witness),
        };
        let mut handed = proved::watch_open(&sheet).watch;
        handed.count = self.remembered as u32;
        for (i, place) in handed.rounds.iter_mut().enumerate().take(self.remembered) {
            let mut k = nonce;
            if self.reused != Some(i + 1) {
                let further = 1 + i as u32 % (values.order - 1);
                k[0] = (u64::from(k[0] + further) % u64::from(values.order)) as u32;
            }
            *place = other(k);
        }
        let reused = match self.reused {
            None => "none reused".to_string(),
            Some(back) => format!("reused {back} back"),
        };
        let own = own(&handed, &sheet);
        let name = format!("{name}, {} remembered, {reused}", self.remembered);
        WatchInputs { name, sheet, round, handed, own }
    }
}

/// The reference's watch with the sheet and the rounds of the library's.
fn own(watch: &proved::Watch, sheet: &[u8]) -> Watch {
    let mut rounds = VecDeque::from(watch.rounds);
    rounds.resize(watch.count as usize, Round::default());
    Watch { sheet: sheet.to_vec(), rounds }
}

fn library(inputs: &mut WatchInputs) {
    let WatchInputs { sheet, round, handed, .. } = black_box(inputs);
    let answer = proved::watch_round(sheet, handed, round);
    black_box(&answer);
}

/// After the step the watch is set back, so that each step is given the same.
fn rust(inputs: &mut WatchInputs) {
    let WatchInputs { sheet, round, own, handed, .. } = black_box(inputs);
    let answer = own.hear::<Idiomatic>(sheet, round);
    black_box(&answer);
    own.rounds.pop_front();
    if handed.count as usize == MOST_REMEMBERED {
        own.rounds.push_back(handed.rounds[MOST_REMEMBERED - 1]);
    }
}

fn alike(inputs: &mut WatchInputs) -> bool {
    let WatchInputs { sheet, round, handed, own: given, .. } = inputs;
    let mut own = own(handed, &given.sheet);
    let proved = proved::watch_round(sheet, handed, round);
    let (verdict, reuse) = match own.hear::<Idiomatic>(sheet, round) {
        Ok((verdict, reuse)) => (Ok(verdict), reuse),
        Err(number) => (Err(number), None),
    };
    let (back, witness) = reuse.map_or((0, [0; 8]), |reuse| (reuse.back as u32, reuse.witness));
    let held = &proved.watch;
    let rounds = held.rounds.iter().take(held.count as usize);
    proved.verdict == judgement(&verdict)
        && proved.back == back
        && proved.witness == witness
        && held.count as usize == own.rounds.len()
        && held.sheet == handed.sheet
        && rounds.eq(own.rounds.iter().take(MOST_REMEMBERED))
}
