//! Faults of multiplying a team's commitments and of joining its responses.

use crate::arithmetic::multiply;
use crate::faults::Fault;
use crate::faults::rounds::{bad_beyond, slot_bound};
use crate::faults::sheets::restated;
use crate::library::Library::{self, Judge};
use crate::library::{Computed, Header, MOST_PLAYERS, PARTS, PLACES, Parts, Places};

/// One of the two calls.
type TeamCall = fn(Library, &[u8], u32, &Parts, &Parts) -> Computed;

/// What one of the two calls is given.
#[derive(Clone, Copy)]
struct Given<'a> {
    call: TeamCall,
    sheet: &'a [u8],
    count: u32,
    images: Parts,
    parts: Parts,
}

/// A call that is refused with this number.
fn refused(refusal: u32) -> Computed {
    Computed { refusal, values: [0; 8] }
}

/// What each counted player brings.
fn rows(parts: &Parts, count: u32) -> impl Iterator<Item = Places> + '_ {
    let players = MOST_PLAYERS.min(count as usize);
    let rows = parts.chunks_exact(PLACES).take(players);
    rows.map(|row| std::array::from_fn(|place| row[place]))
}

/// What the first players bring, multiplied mod m in the rows, with 0 beyond.
pub fn product(parts: &Parts, count: u32, header: &Header) -> Places {
    let mut product = [0; 8];
    product[..header.rows as usize].fill(1);
    for row in rows(parts, count) {
        for (value, factor) in product.iter_mut().zip(row).take(header.rows as usize) {
            *value = multiply(*value, factor, header.modulus);
        }
    }
    product
}

impl Given<'_> {
    /// The judge's answer.
    fn right(&self) -> Computed {
        (self.call)(Judge, self.sheet, self.count, &self.images, &self.parts)
    }

    /// The judge's answer with images that pass: the statement and ones.
    fn with_right_images(&self) -> Computed {
        let mut images = [1; PARTS];
        images[..PLACES].copy_from_slice(&Judge.load(self.sheet).statement);
        Given { images, ..*self }.right()
    }

    /// The answer where nothing is asked of the images but their product.
    fn with_any_images(&self) -> Computed {
        let loaded = Judge.load(self.sheet);
        let answer = self.with_right_images();
        let whole = product(&self.images, self.count, &loaded.header);
        if answer.refusal == 0 && whole != loaded.statement { refused(28) } else { answer }
    }

    /// The answer where this player brings nothing: ones, or zeros where these are
    /// added.
    fn without(&self, player: u32, neutral: u32) -> Computed {
        let mut changed = *self;
        changed.parts[PLACES * player as usize..][..PLACES].fill(neutral);
        changed.right()
    }
}

pub fn team_commitment(
    fault: Fault,
    sheet: &[u8],
    count: u32,
    images: &Parts,
    commitments: &Parts,
) -> Computed {
    let given = Given {
        call: Library::team_commitment,
        sheet,
        count,
        images: *images,
        parts: *commitments,
    };
    let right = given.right();
    match right.refusal {
        0 => multiplied(fault, &given, right),
        27 => commitments_of_none(fault, &given, right),
        11 => commitment_images(fault, &given, right),
        14 | 28 => commitments_refused(fault, &given, right),
        _ => right,
    }
}

/// Multiplying where nothing is refused.
fn multiplied(fault: Fault, given: &Given, mut right: Computed) -> Computed {
    let header = Judge.load(given.sheet).header;
    let Given { count, images, parts, .. } = *given;
    match fault {
        Fault::TeamLastCommitment => given.without(count - 1, 1),
        Fault::TeamFirstCommitment => given.without(0, 1),
        Fault::TeamCommitmentUnreduced if header.modulus > u32::MAX - 1000 => {
            right.values[0] = right.values[0].wrapping_add(header.modulus);
            right
        }
        Fault::TeamOnesBeyond => {
            right.values[header.rows as usize..].fill(1);
            right
        }
        Fault::TeamImageBeyond
            if rows(&images, count).any(|row| bad_beyond(&row, header.rows, header.modulus)) =>
        {
            refused(11)
        }
        Fault::TeamCommitmentBeyond
            if rows(&parts, count).any(|row| bad_beyond(&row, header.rows, header.modulus)) =>
        {
            refused(14)
        }
        Fault::TeamPlayerBehind => {
            let behind = images.get(PLACES * count as usize);
            if behind.is_some_and(|value| *value >= header.modulus) { refused(11) } else { right }
        }
        Fault::TeamLastImage => {
            let whole = product(&images, count - 1, &header);
            if whole == Judge.load(given.sheet).statement { right } else { refused(28) }
        }
        _ => right,
    }
}

/// Multiplying where the team is outside 2 to 8.
fn commitments_of_none(fault: Fault, given: &Given, right: Computed) -> Computed {
    let of_sheet = Judge.load(given.sheet).refusal;
    let mut changed = *given;
    match (fault, given.count) {
        (Fault::TeamEntryFirst, _) if of_sheet == 10 => refused(10),
        (Fault::TeamOfOne, 1) => {
            changed.count = 2;
            changed.images[PLACES..2 * PLACES].fill(1);
            changed.parts[PLACES..2 * PLACES].fill(1);
            changed.right()
        }
        (Fault::TeamCountCut, _) => {
            changed.count &= 0xff;
            changed.right()
        }
        _ => right,
    }
}

/// Multiplying where the statement or an image is refused.
fn commitment_images(fault: Fault, given: &Given, right: Computed) -> Computed {
    let loaded = Judge.load(given.sheet);
    if loaded.refusal != 0 {
        return right;
    }
    let Header { modulus, rows, .. } = loaded.header;
    let mut used =
        self::rows(&given.images, given.count).flat_map(|row| row.into_iter().take(rows as usize));
    match fault {
        Fault::TeamImagesUntested => given.with_any_images(),
        Fault::TeamImageRange if used.all(|value| (1..modulus).contains(&value)) => {
            given.with_any_images()
        }
        Fault::TeamFirstImage => {
            let mut first = *given;
            first.images[PLACES..].fill(1);
            match first.right().refusal {
                11 => right,
                _ => given.with_any_images(),
            }
        }
        _ => right,
    }
}

/// Multiplying where a commitment or the images' product is refused.
fn commitments_refused(fault: Fault, given: &Given, right: Computed) -> Computed {
    let loaded = Judge.load(given.sheet);
    let whole = product(&given.images, given.count, &loaded.header);
    match (fault, right.refusal) {
        (Fault::TeamProductBefore14, 14) if whole != loaded.statement => refused(28),
        (Fault::TeamProductRowZero, 28) if whole[0] == loaded.statement[0] => {
            given.with_right_images()
        }
        (Fault::TeamRefusedValues, 28) => Computed { refusal: 28, ..given.with_right_images() },
        _ => right,
    }
}

pub fn team_response(
    fault: Fault,
    sheet: &[u8],
    count: u32,
    images: &Parts,
    responses: &Parts,
) -> Computed {
    let given =
        Given { call: Library::team_response, sheet, count, images: *images, parts: *responses };
    let right = given.right();
    match right.refusal {
        0 => joined(fault, &given, right),
        27 => responses_of_none(fault, &given, right),
        11 => response_images(fault, &given, right),
        16 | 28 => responses_refused(fault, &given, right),
        _ => right,
    }
}

/// Joining where nothing is refused.
fn joined(fault: Fault, given: &Given, mut right: Computed) -> Computed {
    let header = Judge.load(given.sheet).header;
    let Header { kind, modulus, order, columns, .. } = header;
    let Given { count, parts, .. } = *given;
    let sum = |slot: usize| -> u64 { rows(&parts, count).map(|row| u64::from(row[slot])).sum() };
    let change = |change: &dyn Fn(usize) -> u32| {
        let values =
            std::array::from_fn(|slot| if slot < columns as usize { change(slot) } else { 0 });
        Computed { refusal: 0, values }
    };
    match (fault, kind) {
        (Fault::TeamResponsesMultiplied, 1) => {
            let squared = Header { rows: columns, ..header };
            let values = product(&parts, count, &squared);
            Computed { refusal: 0, values }
        }
        (Fault::TeamResponsesModM, 1) => change(&|slot| (sum(slot) % u64::from(modulus)) as u32),
        (Fault::TeamSumWraps, 1) => change(&|slot| sum(slot) as u32 % order),
        (Fault::TeamRootsAdded, 2) => change(&|slot| (sum(slot) % u64::from(modulus)) as u32),
        (Fault::TeamLastResponse, _) => given.without(count - 1, kind - 1),
        (Fault::TeamSlotsOfRows, _) => {
            right.values[header.rows as usize..].fill(0);
            right
        }
        (Fault::TeamResponseBeyond, _)
            if rows(&parts, count).any(|row| bad_beyond(&row, columns, slot_bound(&header))) =>
        {
            refused(16)
        }
        _ => right,
    }
}

/// Joining where the team is outside 2 to 8.
fn responses_of_none(fault: Fault, given: &Given, right: Computed) -> Computed {
    let of_sheet = Judge.load(given.sheet).refusal;
    match (fault, given.count) {
        (Fault::TeamOfNine, 9) => Given { count: 8, ..*given }.right(),
        (Fault::TeamCountLast, _) if [10, 11].contains(&of_sheet) => refused(of_sheet),
        _ => right,
    }
}

/// Joining where the statement or an image is refused.
fn response_images(fault: Fault, given: &Given, right: Computed) -> Computed {
    let loaded = Judge.load(given.sheet);
    match (fault, loaded.refusal) {
        (Fault::TeamStatementOnly, 0) => given.with_any_images(),
        (Fault::TeamImageCongruent, 0) => {
            let images = given.images.map(|value| value % loaded.header.modulus);
            Given { images, ..*given }.right()
        }
        (Fault::TeamImagesOnly, 11) => {
            let sheet = restated(given.sheet, |_| 1);
            let ones = Given { sheet: &sheet, ..*given };
            match ones.right().refusal {
                0 => refused(28),
                number => refused(number),
            }
        }
        _ => right,
    }
}

/// Joining where a response or the images' product is refused.
fn responses_refused(fault: Fault, given: &Given, right: Computed) -> Computed {
    let loaded = Judge.load(given.sheet);
    let whole = product(&given.images, given.count, &loaded.header);
    let mut differing = (0..PLACES).filter(|row| whole[*row] != loaded.statement[*row]);
    match (fault, right.refusal) {
        (Fault::TeamProductBefore16, 16) if differing.next().is_some() => refused(28),
        (Fault::TeamFirstResponse, 16) => {
            let bound = slot_bound(&loaded.header);
            let mut changed = *given;
            for slot in &mut changed.parts[PLACES..] {
                *slot %= bound;
            }
            changed.right()
        }
        (Fault::TeamProductUntested, 28) => given.with_right_images(),
        (Fault::TeamProductLastRow, 28) => {
            let last = loaded.header.rows as usize - 1;
            if differing.all(|row| row == last) { given.with_right_images() } else { right }
        }
        _ => right,
    }
}
