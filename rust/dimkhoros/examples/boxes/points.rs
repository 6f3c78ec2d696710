//! The points at which the tests end a box.

use std::env;
use std::process;
use std::sync::atomic::{AtomicU32, Ordering};

/// How a box exits that is ended at a point.
const DIED: i32 = 99;

/// A point stands before and after each write, send and receive, and before a written file takes its name. For the tests
/// alone: where the variable BOX_DIES_AT holds a number, the box ends at the point of this number, from 1, as it does when its
/// power goes. It says the point's name and cleans nothing up.
pub fn point(name: &str) {
    static PASSED: AtomicU32 = AtomicU32::new(0);
    let number = 1 + PASSED.fetch_add(1, Ordering::Relaxed);
    if env::var("BOX_DIES_AT").is_ok_and(|last| last == number.to_string()) {
        eprintln!("dies {name}");
        process::exit(DIED);
    }
}
