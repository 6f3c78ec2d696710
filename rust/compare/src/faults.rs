//! Judges with one small fault each. The comparison must find every one.

mod extracting;
mod files;
mod forms;
mod games;
mod ledger_writing;
mod ledgers;
mod list;
mod marking;
mod or_extracting;
mod or_prover;
mod or_responding;
mod or_rounds;
mod patterns;
mod prover;
mod reasons;
mod rounds;
mod rows;
mod sheets;
mod states;
mod teams;
mod unfit_watches;
mod verifier;
mod versions;
mod watches;
mod writers;

pub use extracting::extract;
pub use files::{check, count, part, read, same_commitment};
pub use forms::linear;
pub use games::game;
pub use ledger_writing::ledger_write;
pub use ledgers::ledger_check;
pub use list::{FAULTS, Fault};
pub use marking::mark;
pub use or_extracting::or_extract;
pub use or_prover::{or_prover_commit, or_prover_drop, or_prover_new};
pub use or_responding::or_prover_respond;
pub use or_rounds::or_judge;
pub use patterns::{from_pattern, patterns};
pub use prover::{prover_commit, prover_drop, prover_new, prover_respond};
pub use reasons::reason;
pub use rounds::{judge, simulate};
pub use sheets::{entries, load};
pub use states::{prover_return, prover_save};
#[cfg(test)]
pub use teams::product;
pub use teams::{team_commitment, team_response};
pub use verifier::{verifier_challenge, verifier_commitment, verifier_new, verifier_response};
pub use versions::convert;
pub use watches::{watch_open, watch_round};
pub use writers::{append, empty, encode};

#[cfg(test)]
mod tests {
    use super::*;
    use crate::library::Library::{Faulty, Judge};
    use crate::making;
    use crate::options::{COUNT, SEED};
    use crate::run::run;

    #[test]
    fn every_planted_fault_is_found() {
        let mut left: Vec<_> = FAULTS.iter().collect();
        for number in 0..COUNT {
            let case = making::case(SEED, number);
            let judged = case.run(Judge);
            left.retain(|planted| judged == case.run(Faulty(planted.fault)));
            if left.is_empty() {
                return;
            }
        }
        let names: Vec<&str> = left.iter().map(|planted| planted.name).collect();
        panic!("not found: {names:?}");
    }

    #[test]
    fn a_run_ends_at_the_first_difference() {
        for planted in FAULTS.iter().step_by(10) {
            let found = run(SEED, COUNT, Faulty(planted.fault));
            assert!(found.is_err(), "{}", planted.name);
        }
    }

    #[test]
    fn the_judge_agrees_with_itself_and_gives_every_number() {
        let tally = run(2, 56_000, Judge).unwrap();
        assert_eq!(tally.lacks(3), [""; 0]);
    }
}
