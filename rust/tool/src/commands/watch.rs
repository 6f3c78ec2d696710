//! The command `watch`: nonces that were used twice in the round files of a term.

use crate::command_line::colour;
use crate::command_line::failure::{Failure, Outcome};
use crate::command_line::files;
use crate::command_line::table::{self, Set};
use crate::command_line::words::{Grammar, Words};
use crate::sheets;
use crate::sheets::notation::{by_column, by_row, counted};
use dimkhoros::{Instance, MOST_REMEMBERED, Places, Round, Watch};
use std::ffi::OsString;
use std::io::Write;
use std::path::Path;

/// The command's help.
pub const HELP: &str = "\
usage: dimkhoros watch SHEET ROUNDS...

Finds nonces that were used twice in the round files of a term, which are read in order. A nonce was used twice if an accepted
round has the same commitment as an earlier accepted round and a different challenge. The two rounds give the witness away, and
it is shown.

There is a line for each reuse: the file of the round, its number from 0 and its challenge; the same of the earlier round; back,
how many accepted rounds back that one stands, with 1 for the accepted round just before; the commitment t of both; and the
witness x. If there are several earlier rounds, the nearest is named. Rounds that are rejected or refused are skipped. The last
lines count all rounds.

The watch remembers the last 63 accepted rounds. Uses that are more than 63 accepted rounds apart are not seen.

If a file cannot be read, or is not a round file of the sheet, standard error names it, and the others are still read. The exit
status is then 1. Otherwise it is 0, whether there are reuses or not.

    SHEET   the sheet of all rounds
    ROUNDS  a round file of the sheet, of version 1 or 2

Example:
    $ dimkhoros make schnorr m=23 q=11 h=2 x=7 -o sheet.bin
    13 = 2^x mod 23, q = 11, K = 11
    $ dimkhoros rounds make sheet.bin x=7 k=5 c=3 x=7 k=2 c=9 -o monday.bin
    monday.bin has 2 rounds (31 bytes)
    $ dimkhoros rounds make sheet.bin t=9 c=1 r=2 x=7 k=5 c=1 -o friday.bin
    friday.bin has 2 rounds (31 bytes)
    $ dimkhoros watch sheet.bin monday.bin friday.bin
    file        round  c  earlier file  earlier round  earlier c  back  t  x
    friday.bin      1  1  monday.bin                0          3     2  9  7

    4 rounds in 2 files: 3 accepted, 1 rejected, 0 refused; 1 reuse
    Uses that are more than 63 accepted rounds apart are not seen.
";

const GRAMMAR: Grammar =
    Grammar { plain: &["SHEET", "ROUNDS..."], optional: 0, letters: &[], flags: &[], options: &[] };

/// Runs the command.
pub fn run(words: Vec<OsString>, out: &mut dyn Write) -> Outcome {
    let words = Words::sort(words, &GRAMMAR)?;
    let sheet = sheets::load(&words.path(0))?;
    let mut term = Term::new(&sheet);
    let heard = words.plain()[1..].iter().map(|name| term.hear(Path::new(name)));
    let mut left_out: Vec<Failure> = heard.filter_map(Result::err).collect();
    // Where nothing was heard, that is all there is to say.
    let last = if term.files == 0 { left_out.pop() } else { None };
    if last.is_none() {
        out.write_all(term.text().as_bytes())?;
        out.flush()?;
    }
    left_out.iter().for_each(|failure| files::note(failure));
    match (last, left_out.len()) {
        (Some(failure), _) => Err(failure),
        (None, 0) => Ok(()),
        (None, 1) => Err(Failure::failed("a file is left out")),
        (None, count) => Err(Failure::failed(format!("{count} files are left out"))),
    }
}

/// A round of a term, and where it stands.
#[derive(Clone)]
struct Place {
    /// The name of its file.
    file: String,
    /// Its number in the file.
    number: usize,
    /// The round.
    round: Round,
}

/// A nonce that was used twice, as a row of the table.
struct Reused {
    /// The round that uses it again.
    place: Place,
    /// The nearest accepted round that used it before, with another challenge.
    earlier: Place,
    /// How many accepted rounds back that one stands.
    back: usize,
    /// The witness that the two give away.
    witness: Places,
}

/// The heading of the table. Files have names, and all else is numbers.
const HEADING: [&str; 9] =
    ["file", "round", "c", "earlier file", "earlier round", "earlier c", "back", "t", "x"];

impl Reused {
    /// The cells of the row.
    fn cells(&self, sheet: &Instance) -> Vec<String> {
        let place = |place: &Place| {
            let (number, c) = (place.number.to_string(), place.round.challenge.to_string());
            [place.file.clone(), number, c]
        };
        let t = by_row(sheet, &self.place.round.commitment);
        let rest = [self.back.to_string(), t, by_column(sheet, &self.witness)];
        [place(&self.place), place(&self.earlier), rest].concat()
    }
}

/// The rounds of a term, and what a watch says of them.
struct Term<'a> {
    sheet: &'a Instance,
    watch: Watch,
    /// How many files were heard.
    files: usize,
    /// The accepted rounds, in order.
    accepted: Vec<Place>,
    rejected: usize,
    refused: usize,
    reused: Vec<Reused>,
}

impl<'a> Term<'a> {
    /// A term in which nothing was heard.
    fn new(sheet: &'a Instance) -> Term<'a> {
        let watch = Watch::open(sheet);
        let (accepted, reused) = (Vec::new(), Vec::new());
        Term { sheet, watch, files: 0, accepted, rejected: 0, refused: 0, reused }
    }

    /// Hears the rounds of a file, in order. None is heard where the file is none.
    fn hear(&mut self, path: &Path) -> Outcome {
        let bytes = files::read(path)?;
        let file = sheets::rounds(self.sheet, path, &bytes)?;
        for (number, round) in file.rounds().enumerate() {
            self.hear_round(Place { file: files::name(path), number, round });
        }
        self.files += 1;
        Ok(())
    }

    /// Hears a round.
    fn hear_round(&mut self, place: Place) {
        let Ok(heard) = self.watch.hear(self.sheet, &place.round) else {
            self.refused += 1;
            return;
        };
        if !heard.verdict.is_accepted() {
            self.rejected += 1;
            return;
        }
        if let Some(reuse) = heard.reuse {
            let earlier = self.accepted[self.accepted.len() - reuse.back].clone();
            let (back, witness) = (reuse.back, reuse.witness);
            self.reused.push(Reused { place: place.clone(), earlier, back, witness });
        }
        self.accepted.push(place);
    }

    /// The table of the reuses, if there are any, and the line that counts all.
    fn text(&self) -> String {
        if self.reused.is_empty() {
            return self.summary();
        }
        let heading = HEADING.map(str::to_string).to_vec();
        let rows = self.reused.iter().map(|reused| reused.cells(self.sheet));
        let rows: Vec<Vec<String>> = std::iter::once(heading).chain(rows).collect();
        let set = HEADING.map(|name| if name.ends_with("file") { Set::Left } else { Set::Right });
        format!("{}\n{}", table::lines("", &set, &rows), self.summary())
    }

    /// The line that counts all, and one that says what is not seen.
    fn summary(&self) -> String {
        let (accepted, rejected, refused) = (self.accepted.len(), self.rejected, self.refused);
        let rounds = counted(accepted + rejected + refused, "round");
        let (files, reused) = (counted(self.files, "file"), self.reused.len());
        let [accepted, rejected, refused] =
            [(accepted, "accepted"), (rejected, "rejected"), (refused, "refused")]
                .map(|(count, word)| colour::count(count, word));
        let reuses = colour::count(reused, if reused == 1 { "reuse" } else { "reuses" });
        format!(
            "{rounds} in {files}: {accepted}, {rejected}, {refused}; {reuses}\n\
             Uses that are more than {MOST_REMEMBERED} accepted rounds apart are not seen.\n"
        )
    }
}
