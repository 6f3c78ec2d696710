//! Faults of judging rounds of the OR proof.

use crate::arithmetic::{multiply, power};
use crate::faults::Fault;
use crate::faults::rounds::{bad_beyond, slot_bound};
use crate::faults::rows::misnamed;
use crate::faults::sheets::{CHALLENGES, with_word, word};
use crate::library::Library::Judge;
use crate::library::{OrJudgement, OrRound, Round};

/// An accepted round.
const ACCEPTED: OrJudgement = OrJudgement { accepted: 1, rows0: 0, rows1: 0, refusal: 0 };

/// A round that is rejected in these rows of side 0 and of side 1.
fn rejected(rows0: u32, rows1: u32) -> OrJudgement {
    OrJudgement { rows0, rows1, ..OrJudgement::default() }
}

/// The verdict of a judge in which these rows differ.
fn compared(rows0: u32, rows1: u32) -> OrJudgement {
    match rows0 | rows1 {
        0 => ACCEPTED,
        _ => rejected(rows0, rows1),
    }
}

/// A round that is refused with this number.
fn refused(refusal: u32) -> OrJudgement {
    OrJudgement { refusal, ..OrJudgement::default() }
}

/// The challenge of side 1, (c − c0) mod K.
pub fn left(count: u32, c: u32, taken: u32) -> u32 {
    (i64::from(c) - i64::from(taken)).rem_euclid(i64::from(count)) as u32
}

/// Both sides of a round whose challenges are below K.
pub fn sides(count: u32, round: &OrRound) -> [Round; 2] {
    let first = Round {
        commitment: round.commitment0,
        challenge: round.challenge0,
        response: round.response0,
    };
    let second = Round {
        commitment: round.commitment1,
        challenge: left(count, round.challenge, round.challenge0),
        response: round.response1,
    };
    [first, second]
}

pub fn or_judge(fault: Fault, first: &[u8], second: &[u8], round: &OrRound) -> OrJudgement {
    let right = Judge.or_judge(first, second, round);
    match right.refusal {
        0 => verdict(fault, first, second, round, right),
        2..=11 => bad_sheets(fault, first, second, right),
        26 => different_counts(fault, first, second, round, right),
        _ => bad_round(fault, first, second, round, right),
    }
}

/// The verdict on a round that is not refused.
fn verdict(
    fault: Fault,
    first: &[u8],
    second: &[u8],
    round: &OrRound,
    right: OrJudgement,
) -> OrJudgement {
    let (one, two) = (Judge.load(first).header, Judge.load(second).header);
    let (rows0, rows1) = (right.rows0, right.rows1);
    let (c, c0) = (round.challenge, round.challenge0);
    match fault {
        Fault::OrOneSide if rows0 == 0 || rows1 == 0 => ACCEPTED,
        Fault::OrFirstSide => compared(rows0, 0),
        Fault::OrChallengeSame => with_second(first, second, round, c0),
        Fault::OrChallengeWhole => with_second(first, second, round, c),
        Fault::OrChallengeOrder => with_second(first, second, round, left(two.order, c, c0)),
        Fault::OrChallengeWraps => with_second(first, second, round, c.wrapping_sub(c0)),
        Fault::OrChallengeAdded => {
            let added = left(one.challenges, c, left(one.challenges, 0, c0));
            with_second(first, second, round, added)
        }
        Fault::OrLastSide if rows1 != 0 => rejected(0, rows1),
        Fault::OrSecondRows if rows0 != 0 => rejected(rows0, 0),
        Fault::OrNoSecondRows if right != ACCEPTED => rejected(rows0, 0),
        Fault::OrRowsCounted => compared(rows0, rows1 << one.rows),
        Fault::OrRowsExchanged => compared(rows1, rows0),
        Fault::OrRowsTogether => compared(rows0 | rows1, 0),
        Fault::OrRowsOfFirst => compared(rows0, rows1 & ((1 << one.rows) - 1)),
        Fault::OrEndRow => {
            compared(misnamed(fault, rows0, one.rows), misnamed(fault, rows1, two.rows))
        }
        Fault::OrAgreeing | Fault::OrFirstRow if right != ACCEPTED => {
            rejected(misnamed(fault, rows0, one.rows), misnamed(fault, rows1, two.rows))
        }
        Fault::OrRowsBeyond if rows1 != 0 => rejected(rows0, misnamed(fault, rows1, two.rows)),
        Fault::OrUnreadCommitment if bad_beyond(&round.commitment1, two.rows, two.modulus) => {
            refused(14)
        }
        Fault::OrUnreadResponse if bad_beyond(&round.response0, one.columns, slot_bound(&one)) => {
            refused(16)
        }
        _ => right,
    }
}

/// The verdict where the second side has this challenge, which may be any number.
fn with_second(first: &[u8], second: &[u8], round: &OrRound, challenge: u32) -> OrJudgement {
    let header = Judge.load(first).header;
    let verdict = Judge.judge(first, &sides(header.challenges, round)[0]);
    let loaded = Judge.load(second);
    let (m, rows) = (loaded.header.modulus, loaded.header.rows as usize);
    let image = Judge.simulate(second, 0, &round.response1).values;
    let differs = |row: &usize| {
        let factor = power(loaded.statement[*row], challenge, m);
        image[*row] != multiply(round.commitment1[*row], factor, m)
    };
    compared(verdict.rows, (0..rows).filter(differs).map(|row| 1 << row).sum())
}

/// Judging where a sheet is refused, or both are.
fn bad_sheets(fault: Fault, first: &[u8], second: &[u8], right: OrJudgement) -> OrJudgement {
    let differ = word(first, CHALLENGES) != word(second, CHALLENGES);
    match (fault, right.refusal) {
        (Fault::OrCountsFirst, 11) if differ => refused(26),
        (Fault::OrFirstSheet, _) => match Judge.load(first).refusal {
            0 => right,
            number => refused(number),
        },
        _ => right,
    }
}

/// Judging where the counts differ.
fn different_counts(
    fault: Fault,
    first: &[u8],
    second: &[u8],
    round: &OrRound,
    right: OrJudgement,
) -> OrJudgement {
    let count = Judge.load(first).header.challenges;
    let second = with_word(second, CHALLENGES, count);
    if Judge.load(&second).refusal != 0 {
        return right;
    }
    let untested = Judge.or_judge(first, &second, round);
    match (fault, untested.refusal) {
        (Fault::OrCountsLast, 14..=16) => untested,
        (Fault::OrCountsUntested, _) => untested,
        _ => right,
    }
}

/// Judging where the round is refused.
fn bad_round(
    fault: Fault,
    first: &[u8],
    second: &[u8],
    round: &OrRound,
    right: OrJudgement,
) -> OrJudgement {
    let count = Judge.load(first).header.challenges;
    let mut changed = *round;
    match (fault, right.refusal) {
        (Fault::OrWholeUntested, 15) => changed.challenge %= count,
        (Fault::OrFirstUntested, 15) => changed.challenge0 %= count,
        (Fault::OrSideFirst, 14 | 15) => {
            let side = sides(count, round)[0];
            return match Judge.judge(first, &side).refusal {
                0 => right,
                number => refused(number),
            };
        }
        (Fault::OrRefusedRows, _) => return OrJudgement { rows1: 1, ..right },
        _ => return right,
    }
    Judge.or_judge(first, second, &changed)
}
