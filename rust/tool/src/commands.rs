//! The commands, each with its help.

mod check;
mod course;
mod extract;
mod game;
mod grid;
mod lecture;
mod ledger;
mod level;
mod make;
mod mark;
mod numbers;
mod or_proof;
mod patterns;
mod reason;
mod rounds;
mod show;
mod simulate;
mod team;
mod watch;

use crate::command_line::failure::Outcome;
use std::ffi::OsString;
use std::io::Write;

/// A command.
pub struct Command {
    /// Its name.
    pub name: &'static str,
    /// What it does, for the list of commands.
    pub summary: &'static str,
    /// Its whole help, with an example that a test runs.
    pub help: &'static str,
    /// What it does with its words; what it prints goes to the writer.
    pub run: fn(Vec<OsString>, &mut dyn Write) -> Outcome,
}

/// The commands of those who use them, with a line on these.
type Group = (&'static str, &'static [Command]);

/// All commands, in the order of the list.
const GROUPS: [Group; 3] = [
    ("A course author makes sheets and begins with `dimkhoros make --help`:", &AUTHORS),
    (
        "A demonstrator shows a class what rounds do and begins with `dimkhoros lecture --help`:",
        &CLASS,
    ),
    ("A marker has folders of students' rounds and begins with `dimkhoros mark --help`:", &MARKERS),
];

/// The commands of a course author.
const AUTHORS: [Command; 7] = [
    Command {
        name: "make",
        summary: "make a sheet from a pattern, a root, a table or linear forms",
        help: make::HELP,
        run: make::run,
    },
    Command {
        name: "show",
        summary: "show a sheet, a round file, a pattern file or a folder in words and tables",
        help: show::HELP,
        run: show::run,
    },
    Command {
        name: "check",
        summary: "check whether x is a witness of a sheet",
        help: check::HELP,
        run: check::run,
    },
    Command {
        name: "numbers",
        summary: "propose m, q, generators and K for a sheet of so many bits",
        help: numbers::HELP,
        run: numbers::run,
    },
    Command { name: "level", summary: "write a level file", help: level::HELP, run: level::run },
    Command {
        name: "course",
        summary: "make a folder for each student, with a sheet of its own",
        help: course::HELP,
        run: course::run,
    },
    Command {
        name: "patterns",
        summary: "show the shipped patterns, or those of a pattern file; `patterns make` makes a pattern file",
        help: patterns::HELP,
        run: patterns::run,
    },
];

/// The commands of a demonstrator.
const CLASS: [Command; 9] = [
    Command {
        name: "lecture",
        summary: "make a page for the lecture hall",
        help: lecture::HELP,
        run: lecture::run,
    },
    Command {
        name: "rounds",
        summary: "round files: `rounds make`, `append`, `list`, `convert` and `equal`",
        help: rounds::HELP,
        run: rounds::run,
    },
    Command {
        name: "grid",
        summary: "show all accepted rounds of a small sheet, challenges by responses",
        help: grid::HELP,
        run: grid::run,
    },
    Command {
        name: "game",
        summary: "play Peggy against Vic: which challenges a commitment can answer on a small sheet",
        help: game::HELP,
        run: game::run,
    },
    Command {
        name: "simulate",
        summary: "make accepted rounds without a witness",
        help: simulate::HELP,
        run: simulate::run,
    },
    Command {
        name: "extract",
        summary: "work out by hand the witness that two rounds with the same commitment give away",
        help: extract::HELP,
        run: extract::run,
    },
    Command {
        name: "or",
        summary: "rounds of the OR proof of two sheets: `or make`, `judge` and `extract`",
        help: or_proof::HELP,
        run: or_proof::run,
    },
    Command {
        name: "team",
        summary: "join the rounds of a team's players to one round",
        help: team::HELP,
        run: team::run,
    },
    Command {
        name: "ledger",
        summary: "compute on commitments: make and check a ledger of sums and products",
        help: ledger::HELP,
        run: ledger::run,
    },
];

/// The commands of a marker.
const MARKERS: [Command; 3] = [
    Command {
        name: "mark",
        summary: "mark students' folders by the course's sheet and level",
        help: mark::HELP,
        run: mark::run,
    },
    Command {
        name: "reason",
        summary: "say why a student's rounds fail",
        help: reason::HELP,
        run: reason::run,
    },
    Command {
        name: "watch",
        summary: "find nonces that were used twice in the round files of a term",
        help: watch::HELP,
        run: watch::run,
    },
];

/// The command of a name.
pub fn find(name: &OsString) -> Option<&'static Command> {
    all().find(|command| name == command.name)
}

/// All commands.
pub fn all() -> impl Iterator<Item = &'static Command> {
    GROUPS.iter().flat_map(|(_, commands)| *commands)
}

/// The help of the whole tool.
pub fn overview() -> String {
    let line = |command: &Command| format!("    {:<8}  {}\n", command.name, command.summary);
    let group = |(who, commands): &Group| {
        format!("\n{who}\n{}", commands.iter().map(line).collect::<String>())
    };
    let list: String = GROUPS.iter().map(group).collect();
    format!("{MEANING}{list}{WORDS}")
}

/// What the tool is about.
const MEANING: &str = "\
usage: dimkhoros COMMAND [WORD...]

Sheets, rounds and lecture pages for teaching Maurer's proof of knowledge of a preimage under a group homomorphism, on numbers of
at most 32 bits. The proved library computes each verdict, commitment, response, witness and refusal.

A sheet is a file with a statement z and the table of a homomorphism [ ]. Peggy claims to know a witness x with [x] = z.
A round is a commitment t, a challenge c below the sheet's K and a response r. Vic accepts it if [r] = t · z^c.
A round file has rounds of one sheet.
A pattern says how a table is made from public values h. Five patterns are shipped, and a pattern file can have others.
";

/// What holds of the words of every command.
const WORDS: &str = "
Each command has a help with an example: `dimkhoros COMMAND --help`.

A value comes after its letter, as in c=3. Several values have commas between them, as in x=1,2, and no spaces. Rows, rounds,
players and sides are numbered from 0. Columns are called x1, x2 and so on. The file - is standard input, or standard output
after -o. If a file's name begins with - or looks like a value, put the word -- before it. No file is overwritten without
--force. On a terminal verdicts have colours. If the variable NO_COLOR is set, they have none.

A number in brackets after an error is the number of a refusal. docs/SCOPE.md lists all of them.

Exit status: 0 done; 1 refused or failed, with the cause on standard error; 2 the words are wrong.

Example:
    $ dimkhoros make schnorr m=23 q=11 h=2 x=7 -o sheet.bin
    13 = 2^x mod 23, q = 11, K = 11
    $ dimkhoros check sheet.bin x=7
    [7] = 13 is the statement: 7 is a witness
";
