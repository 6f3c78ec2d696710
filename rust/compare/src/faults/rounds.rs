//! Faults of judging and of simulating.

use crate::arithmetic::{multiply, power};
use crate::faults::Fault;
use crate::faults::rows::misnamed;
use crate::faults::sheets::{
    CHALLENGES, MODULUS, below_order, one_in_range, restated, right_without, with_word, word,
};
use crate::library::Library::Judge;
use crate::library::{Computed, Header, Judgement, Places, Round};

/// An accepted round.
pub const ACCEPTED: Judgement = Judgement { refusal: 0, accepted: 1, rows: 0 };

/// A round that is rejected in these rows.
pub fn rejected(rows: u32) -> Judgement {
    Judgement { rows, ..Judgement::default() }
}

/// The verdict of a judge that compares these rows only, which are a mask.
pub fn compared(right: Judgement, rows: u32) -> Judgement {
    match right.rows & rows {
        0 => ACCEPTED,
        rows => rejected(rows),
    }
}

/// A round that is refused with this number.
pub fn refused(refusal: u32) -> Judgement {
    Judgement { refusal, ..Judgement::default() }
}

/// Whether the place behind those in use holds no number below the bound.
pub fn bad_beyond(values: &Places, used: u32, bound: u32) -> bool {
    let place = values.get(used as usize);
    place.is_some_and(|value| *value >= bound)
}

/// The bound of a domain slot: q in kind 1, m in kind 2.
pub fn slot_bound(header: &Header) -> u32 {
    match header.kind {
        1 => header.order,
        _ => header.modulus,
    }
}

pub fn judge(fault: Fault, sheet: &[u8], round: &Round) -> Judgement {
    let right = Judge.judge(sheet, round);
    match right.refusal {
        0 => verdict(fault, sheet, round, right),
        2..=11 => judge_bad_sheet(fault, sheet, round, right),
        _ => judge_bad_round(fault, sheet, round, right),
    }
}

/// The verdict on a round that is not refused.
fn verdict(fault: Fault, sheet: &[u8], round: &Round, right: Judgement) -> Judgement {
    let header = Judge.load(sheet).header;
    match fault {
        Fault::JudgeRowZero => compared(right, 1),
        Fault::JudgeLastRow => compared(right, 0x7f),
        Fault::JudgeEndRow => compared(right, misnamed(fault, right.rows, header.rows)),
        Fault::JudgeRejectsAll => rejected(right.rows.max(1)),
        Fault::JudgeRowsAccepted if right == ACCEPTED => {
            Judgement { rows: (1 << header.rows) - 1, ..right }
        }
        Fault::JudgeUnreadCommitment
            if bad_beyond(&round.commitment, header.rows, header.modulus) =>
        {
            refused(14)
        }
        Fault::JudgeUnreadResponse
            if bad_beyond(&round.response, header.columns, slot_bound(&header)) =>
        {
            refused(16)
        }
        _ if right == ACCEPTED => right,
        _ => rejected(misnamed(fault, right.rows, header.rows)),
    }
}

/// The mask of the rows of a round that differ, where its challenge and response
/// pass.
fn differing(sheet: &[u8], round: &Round) -> u32 {
    let rows = Judge.load(sheet).header.rows;
    let simulated = Judge.simulate(sheet, round.challenge, &round.response);
    let differs = |row: &u32| simulated.values[*row as usize] != round.commitment[*row as usize];
    (0..rows).filter(differs).map(|row| 1 << row).sum()
}

/// The verdict on a round with a commitment value that is in range but is no
/// group element, so that its row differs.
fn range_only(sheet: &[u8], round: &Round) -> Judgement {
    let simulated = Judge.simulate(sheet, round.challenge, &round.response);
    match simulated.refusal {
        0 => rejected(differing(sheet, round)),
        number => refused(number),
    }
}

/// Judging where the sheet is refused.
fn judge_bad_sheet(fault: Fault, sheet: &[u8], round: &Round, right: Judgement) -> Judgement {
    match (fault, right.refusal) {
        (Fault::JudgeSheetLast, 10 | 11) if round.challenge >= word(sheet, CHALLENGES) => {
            refused(15)
        }
        (Fault::JudgeOrderPrime, 8) if right_without(sheet, below_order) => {
            Judge.judge(&with_word(sheet, CHALLENGES, 2), round)
        }
        (Fault::JudgeStatementRange, 11) => {
            let in_range = one_in_range(word(sheet, MODULUS));
            Judge.judge(&restated(sheet, in_range), round)
        }
        _ => right,
    }
}

/// Judging where the round is refused.
fn judge_bad_round(fault: Fault, sheet: &[u8], round: &Round, right: Judgement) -> Judgement {
    let header = Judge.load(sheet).header;
    let mut changed = *round;
    let mut used = round.commitment.iter().take(header.rows as usize);
    match (fault, right.refusal) {
        (Fault::JudgeRowsRefused, _) => Judgement { rows: 1, ..right },
        (Fault::JudgeRangeOnly, 14) if used.all(|t| (1..header.modulus).contains(t)) => {
            range_only(sheet, round)
        }
        (Fault::JudgeCongruent, 14) => {
            changed.commitment = round.commitment.map(|t| t % header.modulus);
            Judge.judge(sheet, &changed)
        }
        (Fault::JudgeSlotReduced, 16) => {
            changed.response = round.response.map(|r| r % slot_bound(&header));
            Judge.judge(sheet, &changed)
        }
        (Fault::JudgeChallengeAtCount, 15) if round.challenge == header.challenges => {
            changed.challenge -= 1;
            Judge.judge(sheet, &changed)
        }
        (Fault::JudgeChallengeCut, 15) => {
            changed.challenge &= 0xffff;
            Judge.judge(sheet, &changed)
        }
        (Fault::JudgeResponseFirst, 14 | 15) => {
            match Judge.simulate(sheet, 0, &round.response).refusal {
                0 => right,
                number => refused(number),
            }
        }
        _ => right,
    }
}

pub fn simulate(fault: Fault, sheet: &[u8], challenge: u32, response: &Places) -> Computed {
    let mut right = Judge.simulate(sheet, challenge, response);
    let loaded = Judge.load(sheet);
    let header = loaded.header;
    match (fault, right.refusal) {
        (Fault::SimulateOne, 0) => Judge.simulate(sheet, 0, &[1; 8]),
        (Fault::SimulatePositive, 0) => {
            right.values = Judge.simulate(sheet, 0, response).values;
            for (value, z) in right.values.iter_mut().zip(&loaded.statement) {
                let factor = power(*z, challenge, header.modulus);
                *value = multiply(*value, factor, header.modulus);
            }
            right
        }
        (Fault::SimulateUnreduced, 0) if header.modulus > u32::MAX - 1000 => {
            right.values[0] = right.values[0].wrapping_add(header.modulus);
            right
        }
        (Fault::SimulateBeyond, 0) => {
            right.values[header.rows as usize..].fill(1);
            right
        }
        (Fault::SimulateSlotFirst, 15) => Judge.simulate(sheet, 0, response),
        (Fault::SimulateUnread, 0) if bad_beyond(response, header.columns, slot_bound(&header)) => {
            Computed { refusal: 16, values: [0; 8] }
        }
        _ => right,
    }
}
