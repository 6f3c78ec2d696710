//! Faults of checking a ledger.

use crate::arithmetic::power;
use crate::faults::Fault;
use crate::ledgers::{commitments, counted, judged};
use crate::library::Library::Judge;
use crate::library::lines::{COMMITMENT, PRODUCT, SUM};
use crate::library::{Base, Checked, Ledger, Line, MOST_LINES};

/// The commitment to 0 with the blinding number 0.
const ONE: Line = Line {
    kind: COMMITMENT,
    first: 0,
    second: 0,
    commitment: 1,
    t: [0; 2],
    challenge: 0,
    response: [0; 3],
};

/// The numbers that are asked of lines.
const OF_LINES: [u32; 5] = [35, 36, 14, 15, 16];

pub fn ledger_check(fault: Fault, base: Base, ledger: &Ledger) -> Checked {
    let right = Judge.ledger_check(base, ledger);
    let mut answer = match right.refusal {
        0 => found(fault, base, ledger, right),
        10 | 37 => before_lines(fault, base, ledger, right),
        5 | 6 | 8 => right,
        _ => of_lines(fault, base, ledger, right),
    };
    if let Some(number) = asked_too(fault, &base, ledger, answer.refusal) {
        answer = refused(number);
    }
    match (fault, answer.refusal, answer.accepted) {
        (Fault::LedgerRefusedAccepted, 1.., _) => answer.accepted = 1,
        (Fault::LedgerRefusedLine, 1.., _) => answer.line = 1,
        (Fault::LedgerAcceptedLine, 0, 1) => answer.line = ledger.count,
        (Fault::LedgerEmpty, 0, 1) if ledger.count == 0 => answer.accepted = 0,
        _ => {}
    }
    answer
}

/// A refusal with this number.
fn refused(refusal: u32) -> Checked {
    Checked { refusal, ..Checked::default() }
}

/// The lines in use.
fn used(ledger: &Ledger) -> impl Iterator<Item = (u32, &Line)> {
    (0..).zip(&ledger.lines[..counted(ledger.count)])
}

fn used_mut(ledger: &mut Ledger) -> impl Iterator<Item = (u32, &mut Line)> {
    (0..).zip(&mut ledger.lines[..counted(ledger.count)])
}

/// A number that is asked of what is not to be asked, if it comes before the right one.
fn asked_too(fault: Fault, base: &Base, ledger: &Ledger, right: u32) -> Option<u32> {
    let mut lines = used(ledger);
    let before = |number: u32| {
        let place = |number| OF_LINES.iter().position(|of| *of == number);
        let of_lines = OF_LINES.contains(&right);
        right == 0 || of_lines && place(number) < place(right)
    };
    let applies = match fault {
        Fault::LedgerCommitmentNames => lines.any(|(number, line)| {
            line.kind == COMMITMENT && number > 0 && line.first.max(line.second) >= number
        }),
        Fault::LedgerSumTested => lines
            .any(|(_, line)| line.kind == SUM && before(14) && !is_element(base, line.commitment)),
        Fault::LedgerUnusedChallenge => {
            lines.any(|(_, line)| line.kind != PRODUCT && line.challenge >= base.challenges)
        }
        Fault::LedgerSixtyFour => ledger.count == 64,
        _ => false,
    };
    let number = match fault {
        Fault::LedgerCommitmentNames => 36,
        Fault::LedgerSumTested => 14,
        Fault::LedgerUnusedChallenge => 15,
        _ => return (applies && (right == 0 || OF_LINES.contains(&right))).then_some(37),
    };
    (applies && before(number)).then_some(number)
}

/// Whether v is a group element of a base that is taken.
fn is_element(base: &Base, v: u32) -> bool {
    (1..base.modulus).contains(&v) && power(v, base.order, base.modulus) == 1
}

/// What is told in the place of 10 or 37.
fn before_lines(fault: Fault, base: Base, ledger: &Ledger, right: Checked) -> Checked {
    let (mut base, mut ledger) = (base, *ledger);
    let [g, h] = [base.g, base.h].map(|v| if is_element(&base, v) { v } else { 1 });
    let later = match (fault, right.refusal) {
        (Fault::LedgerGUntested, 10) => {
            base.g = g;
            None
        }
        (Fault::LedgerHUntested, 10) => {
            base.h = h;
            None
        }
        (Fault::LedgerBaseLate, 10) => {
            [base.g, base.h] = [g, h];
            Some(37)
        }
        (Fault::LedgerSixtyFive, 37) if ledger.count == 65 => {
            ledger.count = 64;
            None
        }
        (Fault::LedgerCountCut, 37) => {
            ledger.count &= 0xff;
            None
        }
        (Fault::LedgerKindsFirst, 37) => {
            ledger.count = 64;
            Some(35)
        }
        _ => return right,
    };
    let answer = Judge.ledger_check(base, &ledger);
    match later {
        Some(number) if answer.refusal != number => right,
        _ => answer,
    }
}

/// What is told in the place of a number that lines are refused with.
fn of_lines(fault: Fault, base: Base, ledger: &Ledger, right: Checked) -> Checked {
    let form = [35, 36].contains(&right.refusal);
    match fault {
        Fault::LedgerFormByLine if form => return by_line(base, ledger, true, right),
        Fault::LedgerByLine if !form => return by_line(base, ledger, true, right),
        Fault::LedgerRejectsEarly if !form => return by_line(base, ledger, false, right),
        _ => {}
    }
    let swapped = match fault {
        Fault::LedgerNamesFirst => (35, 36),
        Fault::LedgerValuesFirst => (36, 14),
        Fault::LedgerChallengesFirst => (14, 15),
        Fault::LedgerResponsesFirst => (15, 16),
        _ => (0, 0),
    };
    let mut mended = *ledger;
    for (number, line) in used_mut(&mut mended) {
        match swapped {
            (0, _) => let_through(fault, &base, number, line),
            (first, _) if first == right.refusal => mend(&base, number, line, first),
            _ => return right,
        }
    }
    let answer = Judge.ledger_check(base, &mended);
    match swapped.1 {
        0 => answer,
        number if answer.refusal == number => answer,
        _ => right,
    }
}

/// The first refusal, or also the first rejection, if a line is asked everything before the
/// next.
fn by_line(base: Base, ledger: &Ledger, passes: bool, right: Checked) -> Checked {
    let answers = (0..ledger.count).map(|last| {
        let front = Ledger { count: last + 1, ..*ledger };
        Judge.ledger_check(base, &front)
    });
    let mut wrong = answers.filter(|answer| answer.accepted == 0);
    let first = wrong.find(|answer| !passes || answer.refusal != 0);
    first.unwrap_or(right)
}

/// Takes a fault with this number out of a line.
fn mend(base: &Base, number: u32, line: &mut Line, fault: u32) {
    let Line { kind, .. } = *line;
    let is_kind = [COMMITMENT, SUM, PRODUCT].contains(&kind);
    match fault {
        35 if !is_kind => *line = ONE,
        36 if kind != COMMITMENT && line.first.max(line.second) >= number => *line = ONE,
        14 => {
            let [t1, t2] = &mut line.t;
            for value in [&mut line.commitment, t1, t2] {
                if !is_element(base, *value) {
                    *value = 1;
                }
            }
        }
        15 => line.challenge %= base.challenges,
        _ => {}
    }
}

/// Takes out what this fault lets through.
fn let_through(fault: Fault, base: &Base, number: u32, line: &mut Line) {
    match fault {
        Fault::LedgerOwnFirst if line.kind != COMMITMENT && line.first == number => *line = ONE,
        Fault::LedgerOwnSecond if line.kind != COMMITMENT && line.second == number => *line = ONE,
        Fault::LedgerFirstUnasked if line.first >= number => line.first = 0,
        Fault::LedgerSecondUnasked if line.second >= number => line.second = 0,
        Fault::LedgerSumUnasked if line.kind == SUM => mend(base, number, line, 36),
        Fault::LedgerProductUnasked if line.kind == PRODUCT => mend(base, number, line, 36),
        Fault::LedgerKindFour if line.kind == 4 => line.kind = PRODUCT,
        Fault::LedgerKindZero if line.kind == 0 => *line = ONE,
        Fault::LedgerKindCut => line.kind &= 0xff,
        Fault::LedgerChallengeUntested => line.challenge %= base.challenges,
        Fault::LedgerThirdSlot => line.response[2] %= base.order,
        Fault::LedgerFirstSlot => {
            for slot in &mut line.response[1..] {
                *slot %= base.order;
            }
        }
        _ => let_value_through(fault, base, line),
    }
}

/// The same of the values that 14 is about.
fn let_value_through(fault: Fault, base: &Base, line: &mut Line) {
    let as_element = |v: u32| if is_element(base, v % base.modulus) { v % base.modulus } else { 1 };
    let in_range = |v: u32| (1..base.modulus).contains(&v);
    match (fault, line.kind) {
        (Fault::LedgerCommitmentUntested, COMMITMENT) | (Fault::LedgerProductUntested, PRODUCT) => {
            line.commitment = as_element(line.commitment);
        }
        (Fault::LedgerFirstT, PRODUCT) => line.t[0] = as_element(line.t[0]),
        (Fault::LedgerSecondT, PRODUCT) => line.t[1] = as_element(line.t[1]),
        (Fault::LedgerCongruent, COMMITMENT | PRODUCT) => line.commitment %= base.modulus,
        (Fault::LedgerRangeOnly, COMMITMENT | PRODUCT) if in_range(line.commitment) => {
            line.commitment = as_element(line.commitment);
        }
        _ => {}
    }
}

/// What is told of a ledger that is not refused.
fn found(fault: Fault, base: Base, ledger: &Ledger, right: Checked) -> Checked {
    let changed = match fault {
        Fault::LedgerExchanged | Fault::LedgerSumStored | Fault::LedgerSumFirst => {
            with_lines(fault, &base, ledger)
        }
        Fault::LedgerBeyond if counted(ledger.count) < MOST_LINES => {
            Ledger { count: ledger.count + 1, ..*ledger }
        }
        _ => return named(fault, base, ledger, right),
    };
    Judge.ledger_check(base, &changed)
}

/// The ledger with its sums or products read in another way.
fn with_lines(fault: Fault, base: &Base, ledger: &Ledger) -> Ledger {
    let (mut changed, all) = (*ledger, commitments(base, ledger));
    for (_, line) in used_mut(&mut changed) {
        match (fault, line.kind) {
            (Fault::LedgerExchanged, PRODUCT) => {
                [line.first, line.second] = [line.second, line.first];
            }
            (Fault::LedgerSumStored, SUM) => line.kind = COMMITMENT,
            (Fault::LedgerSumFirst, SUM) => {
                line.kind = COMMITMENT;
                line.commitment = all[line.first as usize];
            }
            _ => {}
        }
    }
    changed
}

/// The line that is named, if there is one.
fn named(fault: Fault, base: Base, ledger: &Ledger, right: Checked) -> Checked {
    let mut products = judged(Judge, &base, ledger);
    let rejected = |rows: u32| products.iter().filter(move |(_, mask)| mask & rows != 0);
    let line = match fault {
        Fault::LedgerRowZero => rejected(1).map(|it| it.0).next(),
        Fault::LedgerRowOne => rejected(2).map(|it| it.0).next(),
        Fault::LedgerLastRejected => rejected(3).map(|it| it.0).next_back(),
        Fault::LedgerFromOne => rejected(3).map(|it| it.0 + 1).next(),
        Fault::LedgerProductNumber => {
            let place = products.iter().position(|(_, mask)| *mask != 0);
            place.map(|place| place as u32)
        }
        Fault::LedgerFirstProduct | Fault::LedgerLastProduct => {
            match fault {
                Fault::LedgerFirstProduct => products.truncate(1),
                _ => drop(products.pop()),
            }
            let mut rejected = products.iter().filter(|(_, mask)| *mask != 0);
            rejected.next().map(|it| it.0)
        }
        _ => return right,
    };
    Checked { accepted: line.is_none().into(), line: line.unwrap_or(0), refusal: 0 }
}
