//! The names of the calls, and the numbers that each can give.

/// A call of the library.
#[derive(Clone, Copy, Debug, PartialEq, Eq)]
pub enum Call {
    Load,
    Entries,
    Encode,
    Patterns,
    FromPattern,
    Linear,
    Count,
    Check,
    Part,
    Read,
    SameCommitment,
    Empty,
    Append,
    Convert,
    Judge,
    Simulate,
    Extract,
    OrJudge,
    OrExtract,
    TeamCommitment,
    TeamResponse,
    WatchOpen,
    WatchRound,
    LedgerCheck,
    LedgerWrite,
    ProverNew,
    ProverCommit,
    ProverRespond,
    ProverDrop,
    ProverSave,
    ProverReturn,
    VerifierNew,
    VerifierCommitment,
    VerifierChallenge,
    VerifierResponse,
    OrProverNew,
    OrProverCommit,
    OrProverRespond,
    OrProverDrop,
    Mark,
    Reason,
    Game,
}

/// A call's name in the interface, without the library's own name, whether it
/// loads a sheet or two, and the other numbers that it can give, in their order.
struct Entry {
    call: Call,
    name: &'static str,
    loads: bool,
    others: &'static [u32],
}

const fn entry(call: Call, name: &'static str, loads: bool, others: &'static [u32]) -> Entry {
    Entry { call, name, loads, others }
}

/// The calls in the order of their enum. A marker's text gives the number of
/// the first refused round where it has one.
#[rustfmt::skip]
const CALLS: &[Entry] = &[
    entry(Call::Load, "load", true, &[]),
    entry(Call::Entries, "entries", true, &[]),
    entry(Call::Encode, "encode", false, &[4, 5, 6, 7, 8, 10, 11, 22]),
    entry(Call::Patterns, "patterns", false, &[22]),
    entry(Call::FromPattern, "from_pattern", false, &[23, 24, 1, 5, 6, 8, 10, 11, 22]),
    entry(Call::Linear, "linear", false, &[5, 6, 7, 8, 29, 30, 10, 11, 22]),
    entry(Call::Count, "count", true, &[12]),
    entry(Call::Check, "check", true, &[12, 13]),
    entry(Call::Part, "part", true, &[12, 13]),
    entry(Call::Read, "read", true, &[12, 13]),
    entry(Call::SameCommitment, "same_commitment", true, &[12, 13]),
    entry(Call::Empty, "empty", false, &[12, 22]),
    entry(Call::Append, "append", true, &[12, 15, 22]),
    entry(Call::Convert, "convert", true, &[12, 15, 22]),
    entry(Call::Judge, "judge", true, &[14, 15, 16]),
    entry(Call::Simulate, "simulate", true, &[15, 16]),
    entry(Call::Extract, "extract", true, &[14, 15, 16, 18, 19, 20]),
    entry(Call::OrJudge, "or_judge", true, &[26, 14, 15, 16]),
    entry(Call::OrExtract, "or_extract", true, &[26, 14, 15, 16, 18, 19, 20]),
    entry(Call::TeamCommitment, "team_commitment", true, &[27, 14, 28]),
    entry(Call::TeamResponse, "team_response", true, &[27, 16, 28]),
    entry(Call::WatchOpen, "watch_open", true, &[]),
    entry(Call::WatchRound, "watch_round", true, &[14, 15, 16, 21]),
    entry(Call::LedgerCheck, "ledger_check", false, &[5, 6, 8, 10, 37, 35, 36, 14, 15, 16]),
    entry(Call::LedgerWrite, "ledger_write", false, &[5, 6, 8, 10, 37, 35, 36, 15, 16]),
    entry(Call::ProverNew, "prover_new", false, &[]),
    entry(Call::ProverCommit, "prover_commit", true, &[16, 21]),
    entry(Call::ProverRespond, "prover_respond", true, &[15, 16, 17, 21, 32, 33]),
    entry(Call::ProverDrop, "prover_drop", false, &[21]),
    entry(Call::ProverSave, "prover_save", false, &[34]),
    entry(Call::ProverReturn, "prover_return", false, &[34]),
    entry(Call::VerifierNew, "verifier_new", false, &[]),
    entry(Call::VerifierCommitment, "verifier_commitment", true, &[14, 21]),
    entry(Call::VerifierChallenge, "verifier_challenge", true, &[15, 21]),
    entry(Call::VerifierResponse, "verifier_response", true, &[16, 21]),
    entry(Call::OrProverNew, "or_prover_new", false, &[]),
    entry(Call::OrProverCommit, "or_prover_commit", true, &[26, 15, 16, 21]),
    entry(Call::OrProverRespond, "or_prover_respond", true, &[26, 15, 16, 17, 21]),
    entry(Call::OrProverDrop, "or_prover_drop", false, &[21]),
    entry(Call::Mark, "mark", true, &[12, 25, 14, 15, 16]),
    entry(Call::Reason, "reason", true, &[12, 13, 14, 15, 16]),
    entry(Call::Game, "game", true, &[12, 13, 14, 31]),
];

/// How many calls there are.
pub const CALL_COUNT: usize = CALLS.len();

/// All numbers in the order in which they are tested, the cards' numbers where
/// 02 puts them. Of several that apply the first here is given.
pub const ORDER: [u32; LAST as usize] = [
    23, 24, 1, 2, 3, 4, 5, 6, 7, 8, 9, 27, 29, 30, 10, 11, 26, 37, 35, 36, 12, 25, 13, 14, 15, 16,
    28, 31, 17, 18, 19, 20, 21, 32, 33, 34, 22,
];

/// The numbers that the loading of a sheet can give.
pub const SHEET_NUMBERS: [u32; 10] = [2, 3, 4, 5, 6, 7, 8, 9, 10, 11];

/// The highest number that a call can give.
pub const LAST: u32 = {
    let mut last = highest(&SHEET_NUMBERS);
    let mut place = 0;
    while place < CALL_COUNT {
        let other = highest(CALLS[place].others);
        if other > last {
            last = other;
        }
        place += 1;
    }
    last
};

/// The highest of these numbers, 0 where there is none.
const fn highest(numbers: &[u32]) -> u32 {
    let mut highest = 0;
    let mut place = 0;
    while place < numbers.len() {
        if numbers[place] > highest {
            highest = numbers[place];
        }
        place += 1;
    }
    highest
}

impl Call {
    /// All calls.
    pub fn all() -> impl Iterator<Item = Call> {
        CALLS.iter().map(|entry| entry.call)
    }

    /// The call's name in the interface, without the library's own name.
    pub fn name(self) -> &'static str {
        CALLS[self as usize].name
    }

    /// The numbers that the call can give beside those of its sheet.
    pub fn others(self) -> &'static [u32] {
        CALLS[self as usize].others
    }

    /// Whether the call can give this number, 0 standing for no refusal.
    pub fn can_give(self, number: u32) -> bool {
        let loads = CALLS[self as usize].loads;
        number == 0 || self.others().contains(&number) || loads && SHEET_NUMBERS.contains(&number)
    }

    /// All numbers that the call can give, in their order.
    pub fn numbers(self) -> Vec<u32> {
        let given = ORDER.into_iter().filter(|number| self.can_give(*number));
        given.collect()
    }

    /// How many sides the call answers a verdict on.
    pub fn sides(self) -> usize {
        match self {
            Call::Judge | Call::WatchRound | Call::VerifierResponse | Call::Mark | Call::Reason => {
                1
            }
            Call::OrJudge => 2,
            _ => 0,
        }
    }
}

#[cfg(test)]
mod tests {
    use super::*;

    #[test]
    fn calls_stand_in_the_order_of_their_enum() {
        for (place, call) in Call::all().enumerate() {
            assert_eq!(call as usize, place);
        }
    }

    #[test]
    fn numbers_stand_in_their_order() {
        let given = |number: &u32| Call::all().any(|call| call.can_give(*number));
        let mut all = ORDER;
        all.sort();
        assert!(all.into_iter().eq((1..=LAST).filter(given)));
        let ordered = |numbers: &[u32]| {
            let places = numbers.iter().map(|number| ORDER.iter().position(|n| n == number));
            places.is_sorted()
        };
        assert!(ordered(&SHEET_NUMBERS));
        assert!(Call::all().all(|call| ordered(call.others())));
    }
}
