//! The command `team`: the rounds of a team's players, joined to one.

mod join;
mod players;

use crate::command_line::colour;
use crate::command_line::failure::{Failure, Outcome};
use crate::command_line::table::{self, Set};
use crate::command_line::words::{Grammar, Words};
use crate::sheets::{self, notation};
use dimkhoros::{Instance, Round, Verdict};
use join::Column;
use players::Players;
use std::ffi::OsString;
use std::io::Write;

/// The command's help.
pub const HELP: &str = "\
usage: dimkhoros team SHEET z=VALUE,... z=VALUE,... [t=VALUE,... t=VALUE,... [c=CHALLENGE r=VALUE,... r=VALUE,...]]
       dimkhoros team SHEET x=VALUE,... x=VALUE,... [k=VALUE,... k=VALUE,... [c=CHALLENGE]]

Joins the rounds of two to eight players to one round of the sheet. Each player holds a part of the witness. Commitments are
multiplied, and responses are joined as witnesses are. Each player's round is judged with the player's own image for the
statement, and the joined round with the sheet's statement. With x and k, the players' rounds are made, and after them that of a
single Peggy with the joined witness and the joined nonce.

    SHEET        a sheet
    z=VALUE,...  a player's image, a value for each row. The first is player 0's. Together they multiply to the statement
    t=VALUE,...  a player's commitment, a value for each row, in the order of the images
    c=CHALLENGE  a challenge, from 0 to K - 1. It is the same for all players
    r=VALUE,...  a player's response, a value for each column
    x=VALUE,...  a player's part of the witness, a value for each column. It takes the place of z
    k=VALUE,...  a player's nonce, a value for each column. It takes the place of t

Example:
    $ dimkhoros make schnorr m=23 q=11 h=2 x=7 -o sheet.bin
    13 = 2^x mod 23, q = 11, K = 11
    $ dimkhoros team sheet.bin z=8 z=6 z=18 t=4 t=16 t=12 c=3 r=0 r=9 r=6
    player   z   t  r  verdict
         0   8   4  0  accepted
         1   6  16  9  accepted
         2  18  12  6  accepted
      team  13   9  4  accepted

    z: 8 · 6 · 18 mod 23 = 13, the statement
    t: 4 · 16 · 12 mod 23 = 9
    r: (0 + 9 + 6) mod 11 = 4

    The team's round is (9, 3, 4).
    All players' rounds are accepted, and so is the team's.
    $ dimkhoros team sheet.bin x=3 x=9 x=6 k=2 k=4 k=10 c=3
    player  x   z   k   t  r  verdict
         0  3   8   2   4  0  accepted
         1  9   6   4  16  9  accepted
         2  6  18  10  12  6  accepted
      team  7  13   5   9  4  accepted

    x: (3 + 9 + 6) mod 11 = 7
    z: 8 · 6 · 18 mod 23 = 13, the statement
    k: (2 + 4 + 10) mod 11 = 5
    t: 4 · 16 · 12 mod 23 = 9
    r: (0 + 9 + 6) mod 11 = 4

    The team's round is (9, 3, 4).
    All players' rounds are accepted, and so is the team's.
    A single Peggy with witness 7 and nonce 5 sends the same round: (9, 3, 4).
";

const GRAMMAR: Grammar = Grammar {
    plain: &["SHEET"],
    optional: 0,
    letters: &["z", "x", "t", "k", "c", "r"],
    flags: &[],
    options: &[],
};

/// Runs the command.
pub fn run(words: Vec<OsString>, out: &mut dyn Write) -> Outcome {
    let words = Words::sort(words, &GRAMMAR)?;
    players::check(&words)?;
    let sheet = sheets::load(&words.path(0))?;
    let players = Players::read(&sheet, &words)?;
    let columns = join::columns(&sheet, &players)?;
    let mut verdicts = players.verdicts(&sheet)?;
    let round = join::round(&columns, players.challenge);
    let team = round.map(|round| sheet.judge(&round)).transpose()?;
    verdicts.extend(team);
    out.write_all(listed(&columns, &verdicts).as_bytes())?;
    writeln!(out)?;
    for column in &columns {
        let called = if column.letter == "z" { ", the statement" } else { "" };
        writeln!(out, "{}: {}{called}", column.letter, column.sum())?;
    }
    if let (Some(round), Some((team, players))) = (round, verdicts.split_last()) {
        let (round_text, decided) = (notation::round(&sheet, &round), decided(players, *team));
        writeln!(out, "\nThe team's round is {round_text}.\n{decided}")?;
        out.write_all(alone(&sheet, &columns, &round)?.as_bytes())?;
    }
    Ok(())
}

/// The table of the players and, below them, the team, with their verdicts where there are rounds.
fn listed(columns: &[Column<'_>], verdicts: &[Verdict]) -> String {
    let players = columns[0].values.len();
    let said = |verdict: &Verdict| colour::verdict(&verdict.to_string());
    let line = |name: String, value: &dyn Fn(&Column<'_>) -> String, verdict: Option<String>| {
        let mut line = vec![name];
        line.extend(columns.iter().map(value));
        line.extend(verdict);
        line
    };
    let head = (!verdicts.is_empty()).then(|| "verdict".to_string());
    let mut lines = vec![line("player".to_string(), &|column| column.letter.to_string(), head)];
    for player in 0..players {
        let verdict = verdicts.get(player).map(said);
        let value = |column: &Column<'_>| column.text(&column.values[player]);
        lines.push(line(player.to_string(), &value, verdict));
    }
    let verdict = verdicts.get(players).map(said);
    lines.push(line("team".to_string(), &|column| column.text(&column.joined), verdict));
    let mut set = vec![Set::Right; columns.len() + 1];
    set.push(Set::Left);
    table::lines("", &set, &lines)
}

/// What the verdicts on the players' rounds decide of the team's.
fn decided(players: &[Verdict], team: Verdict) -> String {
    match (players.iter().filter(|verdict| !verdict.is_accepted()).count(), team) {
        (0, _) => "All players' rounds are accepted, and so is the team's.".to_string(),
        (1, _) => "One player's round is rejected, and so is the team's.".to_string(),
        (count, Verdict::Accepted) => format!(
            "{count} players' rounds are rejected, but their faults cancel out and the team's is accepted."
        ),
        (count, _) => format!(
            "{count} players' rounds are rejected, and so is the team's, since their faults do not cancel out."
        ),
    }
}

/// The round of a single Peggy with the joined witness and the joined nonce, where these are known.
fn alone(sheet: &Instance, columns: &[Column<'_>], round: &Round) -> Outcome<String> {
    let (Some(witness), Some(nonce)) = (join::joined(columns, "x"), join::joined(columns, "k"))
    else {
        return Ok(String::new());
    };
    let hers = sheets::honest(sheet, &witness, &nonce, round.challenge)?;
    if hers != *round {
        return Err(Failure::failed("a single Peggy sends another round than the team"));
    }
    Ok(format!(
        "A single Peggy with witness {} and nonce {} sends the same round: {}.\n",
        notation::by_column(sheet, &witness),
        notation::by_column(sheet, &nonce),
        notation::round(sheet, &hers)
    ))
}
