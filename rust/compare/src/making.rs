//! The making of cases: for each call, inputs that are right, that have one
//! fault or several, or that are anything.

mod brought;
mod file_writers;
mod files;
mod forms;
mod games;
mod inputs;
mod ledgers;
mod levels;
mod marking;
mod memories;
mod or_prover;
mod or_rounds;
mod or_runs;
mod pairs;
mod patterns;
mod phases;
mod prover;
mod reasons;
mod rounds;
mod runs;
mod sheets;
mod state_runs;
mod states;
mod teams;
mod verifier;
mod watch_runs;
mod watches;

use std::iter::repeat_n;

use crate::cases::Case;
use crate::random::Random;

pub use brought::change;
pub use games::game_case;
pub use ledgers::{base as ledger_base, entries as ledger_entries, reject as reject_line};
pub use levels::{HIGHEST, needed};
pub use marking::{mark_case, mark_file};
pub use reasons::reason_case;
pub use state_runs::{of_calls as state_calls, to_the_last as answers_to_the_last};
pub use watch_runs::of_rounds as watched_rounds;

/// Makes a case of one call or of a run.
type Maker = fn(&mut Random) -> Box<dyn Case>;

/// How often each maker is asked, among the sum of these.
const SHARES: [(Maker, usize); 43] = [
    (sheets::load, 3),
    (sheets::entries, 2),
    (sheets::encode, 4),
    (patterns::patterns, 1),
    (patterns::from_pattern, 4),
    (forms::linear, 5),
    (files::count, 2),
    (files::check, 2),
    (files::part, 2),
    (files::read, 2),
    (files::same_commitment, 3),
    (file_writers::empty, 1),
    (file_writers::append, 4),
    (file_writers::convert, 4),
    (rounds::judge, 5),
    (rounds::simulate, 3),
    (rounds::extract, 6),
    (or_rounds::judge, 7),
    (or_rounds::extract, 6),
    (teams::commitment, 5),
    (teams::response, 5),
    (watches::open, 2),
    (watches::round, 6),
    (watch_runs::run, 1),
    (ledgers::check, 3),
    (ledgers::write, 2),
    (prover::commit, 3),
    (prover::respond, 9),
    (prover::give_up, 1),
    (states::save, 1),
    (states::return_to, 3),
    (state_runs::run, 1),
    (verifier::commitment, 3),
    (verifier::challenge, 3),
    (verifier::response, 5),
    (runs::run, 3),
    (or_prover::commit, 4),
    (or_prover::respond, 8),
    (or_prover::give_up, 1),
    (or_runs::run, 2),
    (marking::mark, 3),
    (reasons::reason, 7),
    (games::game, 4),
];

/// The case with this number in a run with this seed.
pub fn case(seed: u64, number: u64) -> Box<dyn Case> {
    let mut random = Random::of_case(seed, number);
    let shares = SHARES.iter();
    let makers: Vec<Maker> = shares.flat_map(|(maker, share)| repeat_n(*maker, *share)).collect();
    random.pick(&makers)(&mut random)
}

#[cfg(test)]
mod tests {
    use super::*;
    use crate::calls::CALL_COUNT;
    use crate::library::Library::Judge;

    #[test]
    fn equal_seeds_give_equal_cases() {
        let text = |seed: u64, number: u64| case(seed, number).to_string();
        for number in 0..300 {
            assert_eq!(text(5, number), text(5, number));
        }
        assert_ne!(text(5, 1), text(5, 2));
        assert_ne!(text(5, 1), text(6, 1));
    }

    #[test]
    fn every_call_is_made() {
        let mut met = [0; CALL_COUNT];
        for number in 0..6000 {
            for (call, _) in case(1, number).run(Judge).answers {
                met[call as usize] += 1;
            }
        }
        assert!(met.iter().all(|times| *times > 20), "{met:?}");
    }
}
