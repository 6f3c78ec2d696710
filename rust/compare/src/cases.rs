//! One call, or one run of calls, with all its inputs.

mod files;
mod games;
mod ledgers;
mod or_rounds;
mod or_sessions;
mod rounds;
mod sessions;
mod sheets;
mod states;
mod teams;
mod texts;
mod watches;
mod writers;

use std::fmt;

use crate::calls::Call;
use crate::library::{Header, Library, Places};
use crate::outcome::Outcome;

pub use files::{FileCall, FileCase, SameCase};
pub use games::GameCase;
pub use ledgers::{LedgerCall, LedgerCase};
pub use or_rounds::{OrRoundCall, OrRoundCase};
pub use or_sessions::{OrSessionCase, OrStep};
pub use rounds::{RoundCall, RoundCase};
pub use sessions::{SessionCase, Sessions, Step};
pub use sheets::SheetCase;
pub use states::{StateCase, StateStep};
pub use teams::TeamCase;
pub use texts::{TextCall, TextCase};
pub use watches::{Start, WatchCase, WatchStep};
pub use writers::{WriterCase, Writing};

/// A case. As text it has the name of its call and every input.
pub trait Case: fmt::Debug + fmt::Display {
    /// The outcome in this library.
    fn run(&self, library: Library) -> Outcome;

    /// The number that each call gave, 0 for no refusal, where this is the
    /// judge's outcome.
    fn numbers(&self, judged: &Outcome) -> Vec<(Call, u32)> {
        let answers = judged.answers.iter();
        answers.map(|(call, answer)| (*call, answer.refusal())).collect()
    }

    /// The fixed fields of the sheet, the first of two, where it has all of them.
    fn header(&self) -> Option<Header>;

    /// The nonces, witnesses and responses that are handed in for this sheet.
    fn slots(&self) -> Vec<Places> {
        Vec::new()
    }
}
