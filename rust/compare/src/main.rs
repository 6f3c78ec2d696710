//! Compares the proved library with the judge.
//!
//! First the programs `marker`, `reason` and `game` are run in some folders. Then each
//! case is one call, or a run of both sessions, with inputs made from the seed.
//! Both libraries get it, and every field of the answers and every byte of a
//! lent buffer must be the same. The first difference is printed and ends the
//! run. Last page K, files at every level and all masks of rows are run in both,
//! demand 3 and cards 4, 6, 11 and 12 are tried on small sheets, cards 9 and 13 in long
//! runs, and card 14 on ledgers.
//! Exit status: 0 no difference, 1 a difference, something met too seldom or a
//! program that is missing, 2 wrong words or a place to which nothing can be
//! written.

#![forbid(unsafe_code)]

mod arithmetic;
mod calls;
mod cases;
mod computing;
mod damage;
mod demand_three;
mod faults;
mod files;
mod games;
mod groups;
mod instance;
mod judged;
mod ledgers;
mod lent;
mod levels;
mod library;
mod making;
mod masks;
mod multiplying;
mod one_of_two;
mod options;
mod outcome;
mod page_k;
mod pair;
mod pattern_files;
mod printing;
mod program;
mod proved;
mod random;
mod returning;
mod run;
mod search;
mod shapes;
mod sheets;
mod stored;
mod tally;
mod vectors;
mod watching;
mod whole_rounds;

use std::io;
use std::path::Path;
use std::process::ExitCode;

use library::Library;
use options::{COUNT, Options};
use program::{BUILT, PROGRAMS};

/// The fewest times that a full run must meet each number, verdict and shape.
const FEWEST: u64 = 50;

fn main() -> ExitCode {
    let options = match options::options(std::env::args().skip(1)) {
        Ok(options) => options,
        Err(text) => {
            eprintln!("{text}");
            return ExitCode::from(2);
        }
    };
    if let Some(folder) = &options.store {
        return written(folder, stored::stored().write(folder));
    }
    if let Some(file) = &options.vectors {
        return written(file, vectors::store(file));
    }
    compare(&options)
}

/// The exit status of a run that only writes to this place.
fn written(place: &Path, result: io::Result<()>) -> ExitCode {
    if let Err(error) = result {
        eprintln!("compare: {}: {error}", place.display());
        return ExitCode::from(2);
    }
    ExitCode::SUCCESS
}

/// Compares the other library with the judge and prints what comes out.
fn compare(options: &Options) -> ExitCode {
    println!("seed {}, {} cases", options.seed, options.count);
    match stages(options) {
        Ok(()) => {
            println!("no difference");
            ExitCode::SUCCESS
        }
        Err(text) => {
            println!("{text}");
            ExitCode::FAILURE
        }
    }
}

/// Prints what comes out of each stage. An error is the text of one that fails.
fn stages(options: &Options) -> Result<(), String> {
    if options.other == Library::Proved {
        for program in PROGRAMS {
            println!("{}", program.check(options.seed, Path::new(BUILT))?);
        }
    }
    let tally = run::run(options.seed, options.count, options.other)
        .map_err(|difference| difference.to_string())?;
    println!("{tally}");
    let lacks = tally.lacks(FEWEST);
    if options.count >= COUNT && !lacks.is_empty() {
        return Err(lacks.join("\n"));
    }
    println!("{}", page_k::check(options.other)?);
    println!("{}", levels::check(options.other)?);
    println!("{}", masks::check(options.other)?);
    println!("{}", demand_three::check(options.other)?);
    println!("{}", one_of_two::check(options.other)?);
    println!("{}", whole_rounds::check(options.other)?);
    println!("{}", watching::check(options.other)?);
    println!("{}", multiplying::check(options.other)?);
    println!("{}", games::check(options.other)?);
    println!("{}", returning::check(options.other)?);
    println!("{}", computing::check(options.other)?);
    Ok(())
}
