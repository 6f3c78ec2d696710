//! The game, which grows with the number of responses and of challenges.

use std::hint::black_box;

use dimkhoros_sys::{self as proved, LONGEST_GAME};

use crate::printing::grouped;
use crate::reference::{Kind, game_by_map, game_in_turn, pow_mod};
use crate::sheets::{Plan, sheet_bytes};
use crate::table::{Case, Inputs, Table};

/// The game.
pub const TABLE: Table<GameInputs, 3> = Table {
    title: "The game",
    on: "sheet",
    sides: ["library", "map", "plain search"],
    cases: &[Case {
        name: "game",
        calls: [
            |inputs| timed(inputs, proved::game),
            |inputs| timed(inputs, game_by_map),
            |inputs| timed(inputs, game_in_turn),
        ],
        alike: &[|inputs| alike(inputs, game_by_map), |inputs| alike(inputs, game_in_turn)],
    }],
    count: SHEETS.len(),
    make: |i| SHEETS[i](),
    compared: || {
        let with_file = |file: &[u8]| GameInputs { file: file.to_vec(), ..exponent(11, 2, true) };
        let no_element = GameInputs { sheet: exponent(13, 2, true).sheet, ..exponent(11, 2, true) };
        let sizes = [exponent(4_099, 1, true), root(4_099, 65_537, 65_536), root(35, 5, 5)];
        let files = [with_file(b"RND\x00\x01\x00\x00"), with_file(b"RND\x00\x01\x00\x01")];
        files.into_iter().chain([no_element]).chain(sizes).collect()
    },
};

/// The sheets that are measured: root sheets, and exponent sheets of one to eight
/// columns.
const SHEETS: [fn() -> GameInputs; 11] = [
    || root(127, 65_537, 65_536),
    || root(1_021, 65_537, 65_536),
    || root(4_093, 65_537, 65_536),
    || exponent(127, 1, true),
    || exponent(1_021, 1, true),
    || exponent(2_039, 1, true),
    || exponent(4_093, 1, true),
    || exponent(4_093, 1, false),
    || exponent(61, 2, true),
    || exponent(13, 3, true),
    || exponent(2, 8, true),
];

/// Sheets of more challenges are large.
const LARGE: u32 = 256;

/// A sheet, a file of one round, and the memory that is lent for the text.
pub struct GameInputs {
    name: String,
    is_large: bool,
    sheet: Vec<u8>,
    file: Vec<u8>,
    text: Box<[u8; LONGEST_GAME]>,
}

impl Inputs for GameInputs {
    fn name(&self) -> &str {
        &self.name
    }

    /// A game takes long on a large sheet, of which no bits are changed.
    fn taken(&mut self) -> (&mut [u8], Vec<&mut u32>) {
        (if self.is_large { &mut [] } else { &mut self.sheet }, Vec::new())
    }
}

/// A sheet of one row, with a file whose one round has this commitment.
fn inputs(
    name: String,
    plan: Plan,
    entries: &[u32],
    statement: u32,
    commitment: u32,
) -> GameInputs {
    let mut file = b"RND\x00\x01\x00\x01".to_vec();
    let round = [commitment, 0].into_iter().chain([1; 8].into_iter().take(plan.columns));
    file.extend(round.flat_map(u32::to_be_bytes));
    let sheet = sheet_bytes(&plan, entries, &[statement]);
    let is_large = plan.challenges > LARGE;
    GameInputs { name, is_large, sheet, file, text: Box::new([0; LONGEST_GAME]) }
}

/// A root sheet.
fn root(modulus: u32, order: u32, challenges: u32) -> GameInputs {
    let plan = Plan { name: "", kind: Kind::Root, modulus, order, challenges, rows: 1, columns: 1 };
    let [m, count] = [modulus, challenges].map(|number| grouped(number.into()));
    inputs(format!("root, m {m}, K {count}"), plan, &[], 2, 3)
}

/// An exponent sheet with this prime order and as many challenges, of which every one
/// is answered, or none.
fn exponent(order: u32, columns: usize, answered: bool) -> GameInputs {
    let (modulus, element) = group(order);
    let plan = Plan {
        name: "",
        kind: Kind::Exponent,
        modulus,
        order,
        challenges: order,
        rows: 1,
        columns,
    };
    let count = grouped(u64::from(order).pow(columns as u32));
    let (challenges, answers) = (grouped(order.into()), if answered { "all" } else { "none" });
    let name =
        format!("exponent, n {columns}, {count} responses, K {challenges}, {answers} answered");
    if answered {
        let square = pow_mod(element, 2, modulus);
        inputs(name, plan, &[element; 8][..columns], square, element)
    } else {
        inputs(name, plan, &[1; 8][..columns], 1, element)
    }
}

/// The smallest prime modulus that has elements of this prime order, and one of them.
fn group(order: u32) -> (u32, u32) {
    let is_prime = |m: u32| (2..).take_while(|d| d * d <= m).all(|d| m % d != 0);
    let candidates = (2..).map(|k| (k, k * order + 1)).filter(|&(_, m)| is_prime(m));
    let mut elements = candidates.map(|(k, m)| (m, pow_mod(2, k, m)));
    elements.find(|&(_, element)| element != 1).unwrap_or_default()
}

/// A game, which answers the length of its text.
type Play = fn(&[u8], &[u8], &mut [u8; LONGEST_GAME]) -> usize;

fn timed(inputs: &mut GameInputs, play: Play) {
    let GameInputs { sheet, file, text, .. } = black_box(inputs);
    black_box(play(sheet, file, text));
}

fn alike(inputs: &mut GameInputs, play: Play) -> bool {
    let GameInputs { sheet, file, text, .. } = inputs;
    let mut written = |play: Play| {
        text.fill(0);
        let length = play(sheet, file, text);
        text[..length].to_vec()
    };
    written(proved::game) == written(play)
}
