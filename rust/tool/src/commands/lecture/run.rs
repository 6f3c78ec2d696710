//! A run of the protocol as a message diagram, and a simulated round in its place.

use super::diagram::{Diagram, Message, Row};
use super::page::Section;
use crate::by_hand::{self, Power, Sides};
use crate::sheets::{column_count, notation, row_count};
use dimkhoros::{EXPONENT, Instance, Places, Round, Verdict};

/// The most rows and columns whose computation is written out.
const WRITTEN: usize = 2;

/// The largest modulus with which the computations of two sides are written out.
const SHORT: u32 = 999_999;

/// Whether a page shows Peggy's witness and nonces before the extractor, or letters in their places.
#[derive(Clone, Copy, PartialEq)]
pub enum Secrets {
    /// Letters stand in their places.
    Hidden,
    /// Their numbers stand there.
    Shown,
}

impl Secrets {
    /// A secret with its letter, and its value if it is shown.
    pub fn told(self, letter: &str, value: &str) -> String {
        match self {
            Secrets::Hidden => format!("${letter}$"),
            Secrets::Shown => format!("${letter} = {value}$"),
        }
    }

    /// A number of a secret, or the letter in its place.
    fn number(self, letter: &str, value: u32) -> String {
        match self {
            Secrets::Hidden => letter.to_string(),
            Secrets::Shown => value.to_string(),
        }
    }
}

/// Whether a computation over rows or columns is written out. The letter has an index where there are two sides.
fn is_written(sheet: &Instance, letter: &str) -> bool {
    let narrow = row_count(sheet).max(column_count(sheet)) <= WRITTEN;
    narrow && (letter.len() == 1 || sheet.values().header.modulus <= SHORT)
}

/// The section on an honest run.
pub fn section(
    sheet: &Instance,
    nonce: &Places,
    witness: &Places,
    round: &Round,
    verdict: Verdict,
    secrets: Secrets,
) -> Section {
    let [t, c, r] = values(sheet, round);
    let k = secrets.told("k", &notation::by_column(sheet, nonce));
    let mut commits = vec![format!("chooses the nonce {k}")];
    commits.extend(image(sheet, "t", "k", nonce, &round.commitment, secrets));
    let rows = vec![
        Row { left: commits, message: message(true, vec![t]), right: vec![] },
        Row {
            left: vec![],
            message: message(false, vec![c.clone()]),
            right: vec![format!("chooses the challenge {c}")],
        },
        Row {
            left: response(sheet, ["r", "k", "c", "x"], nonce, witness, round, secrets),
            message: message(true, vec![r]),
            right: vec![],
        },
        Row { right: check(sheet, round, ["r", "t", "z", "c"]), ..Row::default() },
    ];
    let knows = format!("knows {}", secrets.told("x", &notation::by_column(sheet, witness)));
    drawn(sheet, "A run of the protocol", ["Peggy", "Vic"], &knows, rows, verdict)
}

/// The section on a simulated round, which stands in the place of a run where there is no witness.
pub fn simulated(sheet: &Instance, round: &Round, verdict: Verdict) -> Section {
    let [t, c, r] = values(sheet, round);
    let choices = vec![
        format!("chooses {c} and {r} first,"),
        format!("then $t = [r] · z^{{-c}} = {}$", notation::by_row(sheet, &round.commitment)),
    ];
    let rows = vec![
        Row { left: choices, message: message(true, vec![t, c, r]), right: vec![] },
        Row { right: check(sheet, round, ["r", "t", "z", "c"]), ..Row::default() },
    ];
    let knows = "knows no $x$: there is none";
    let heading = "No run, but a simulated round";
    drawn(sheet, heading, ["Simulator", "Anybody"], knows, rows, verdict)
}

/// The values of a round, each with its letter.
fn values(sheet: &Instance, round: &Round) -> [String; 3] {
    [
        format!("$t = {}$", notation::by_row(sheet, &round.commitment)),
        format!("$c = {}$", round.challenge),
        format!("$r = {}$", notation::by_column(sheet, &round.response)),
    ]
}

/// The section with the diagram of two parties. The second one knows the statement.
fn drawn(
    sheet: &Instance,
    heading: &str,
    [first, second]: [&str; 2],
    knows: &str,
    rows: Vec<Row>,
    verdict: Verdict,
) -> Section {
    let statement = notation::by_row(sheet, &sheet.values().statement);
    let diagram = Diagram {
        id: "run-picture".to_string(),
        title: heading.to_string(),
        parties: [
            (first.to_string(), knows.to_string()),
            (second.to_string(), format!("knows $z = {statement}$")),
        ],
        rows,
        verdict: format!("{}: {verdict}", equal(verdict)),
    };
    Section { id: "run".to_string(), heading: heading.to_string(), body: diagram.svg() }
}

/// A message of several values.
pub fn message(rightwards: bool, label: Vec<String>) -> Option<Message> {
    Some(Message { rightwards, label })
}

/// What Vic sees when he has his verdict.
fn equal(verdict: Verdict) -> &'static str {
    if verdict.is_accepted() { "equal sides" } else { "the sides differ" }
}

/// The computation of an image that is called t, of coordinates that are called k.
pub fn image(
    sheet: &Instance,
    t: &str,
    k: &str,
    coordinates: &Places,
    image: &Places,
    secrets: Secrets,
) -> Vec<String> {
    let modulus = sheet.values().header.modulus;
    let rows = row_count(sheet);
    // A letter with the indices of its side and of its column has no room in an exponent.
    let two_indices = secrets == Secrets::Hidden && k.len() > 1 && column_count(sheet) > 1;
    if !is_written(sheet, t) || two_indices {
        return vec![format!("${t} = [{k}] = {}$", notation::by_row(sheet, image))];
    }
    let row = |row: usize| {
        let product = match secrets {
            Secrets::Hidden => notation::row_image(sheet, row, k),
            Secrets::Shown => product(&by_hand::row_powers(sheet, row, coordinates)),
        };
        match rows {
            1 => format!("${t} = [{k}] = {product} mod {modulus} = {}$", image[row]),
            _ => format!("${} = {product} mod {modulus} = {}$", indexed(t, row), image[row]),
        }
    };
    (0..rows).map(row).collect()
}

/// A letter with the index of a row or column, behind that of its side where it has one.
fn indexed(letter: &str, place: usize) -> String {
    let (letter, side) = letter.split_at(letter.len().min(1));
    match side {
        "" => format!("{letter}{}", place + 1),
        _ => format!("{letter}_{{{side},{}}}", place + 1),
    }
}

/// A product of powers. Powers of 1 are left out.
pub fn product(powers: &[Power]) -> String {
    let shown = powers.iter().filter(|power| power.base != 1);
    let factors: Vec<String> =
        shown.map(|power| format!("{}^{}", power.base, power.exponent)).collect();
    if factors.is_empty() { "1".to_string() } else { factors.join(" · ") }
}

/// The computation of a response. The letters are those of response, nonce, challenge and witness.
pub fn response(
    sheet: &Instance,
    letters: [&str; 4],
    nonce: &Places,
    witness: &Places,
    round: &Round,
    secrets: Secrets,
) -> Vec<String> {
    let [r, k, c, x] = letters;
    let (header, columns) = (sheet.values().header, column_count(sheet));
    let exponent = header.kind == EXPONENT;
    let formula =
        if exponent { format!("{r} = {k} + {c} · {x}") } else { format!("{r} = {k} · {x}^{c}") };
    if !is_written(sheet, r) {
        return vec![format!("${formula} = {}$", notation::by_column(sheet, &round.response))];
    }
    let computed = |column: usize| {
        let named =
            |letter: &str| if columns == 1 { letter.to_string() } else { indexed(letter, column) };
        let k = secrets.number(&named(k), nonce[column]);
        let x = secrets.number(&named(x), witness[column]);
        let (c, value) = (round.challenge, round.response[column]);
        if exponent {
            format!("{k} + {c} · {x} mod {} = {value}", header.order)
        } else {
            format!("{k} · {x}^{c} mod {} = {value}", header.modulus)
        }
    };
    if columns == 1 {
        return vec![format!("${formula}$"), format!("$= {}$", computed(0))];
    }
    let column = |column: usize| format!("${} = {}$", indexed(r, column), computed(column));
    [format!("${formula}$:")].into_iter().chain((0..columns).map(column)).collect()
}

/// The check of a round, both sides. The letters are those of response, commitment, statement and challenge.
pub fn check(sheet: &Instance, round: &Round, letters: [&str; 4]) -> Vec<String> {
    let Some(sides) = by_hand::sides(sheet, round) else {
        return Vec::new();
    };
    let [r, t, z, c] = letters;
    let modulus = sheet.values().header.modulus;
    if !is_written(sheet, t) {
        let side = |value: fn(&Sides) -> u32| {
            let values: Vec<String> = sides.iter().map(|side| value(side).to_string()).collect();
            if values.len() == 1 { values[0].clone() } else { format!("({})", values.join(", ")) }
        };
        return vec![
            format!("$[{r}] = {}$", side(|side| side.image)),
            format!("${t} · {z}^{c} = {}$", side(|side| side.right)),
        ];
    }
    let row = |(row, side): (usize, &Sides)| {
        let (left, right) = match sides.len() {
            1 => (format!("[{r}]"), format!("{t} · {z}^{c}")),
            _ => {
                let place = row + 1;
                (format!("[{r}]_{place}"), format!("{} · {}^{c}", indexed(t, row), indexed(z, row)))
            }
        };
        let Power { base, exponent, .. } = side.statement;
        [
            format!("${left} = {} mod {modulus} = {}$", product(&side.powers), side.image),
            format!(
                "${right} = {} · {base}^{exponent} mod {modulus} = {}$",
                side.commitment, side.right
            ),
        ]
    };
    sides.iter().enumerate().flat_map(row).collect()
}
