//! The command `make`: a sheet of a pattern, a table or linear forms.

mod asked;
mod formula;
mod linear;

use crate::command_line::failure::{Failure, Outcome};
use crate::command_line::files::{self, Target};
use crate::command_line::words::{Grammar, Value, Words};
use crate::sheets::brought::{self, Brought};
use crate::sheets::draw::Generator;
use crate::sheets::{self, causes, notation};
use asked::Asked;
use dimkhoros::{Header, Instance, PLACES, Places, Refusal};
use std::ffi::OsString;
use std::io::Write;

/// The command's help.
pub const HELP: &str = "\
usage: dimkhoros make PATTERN m=MODULUS q=ORDER [K=COUNT] h=VALUE,... (z=VALUE,... | x=VALUE,...) -o SHEET
       dimkhoros make root m=MODULUS e=EXPONENT [K=COUNT] (z=VALUE,... | x=VALUE,...) -o SHEET
       dimkhoros make table=ENTRY,.../... m=MODULUS q=ORDER [K=COUNT] (z=VALUE,... | x=VALUE,...) -o SHEET
       dimkhoros make linear m=MODULUS q=ORDER [K=COUNT] h=VALUE,... row=ROW... (z=VALUE,... | x=VALUE,...) -o SHEET

Makes a sheet from a pattern, a root, a table, or linear forms over generators. With z, the statement is z, and whether it has a
witness is not tested. With x, the statement is computed from this witness. The sheet does not hold the witness.

    PATTERN          schnorr, okamoto, equality, diffie-hellman or product, or the number of a pattern in its file. `dimkhoros
                     patterns` shows the patterns, and how many public values each one takes
    m=MODULUS        the modulus, 3 or more
    q=ORDER          the order of an exponent sheet. An element v of the group has v^q mod m = 1
    e=EXPONENT       the exponent of a root sheet
    K=COUNT          the challenge count. If it is left out, it is the largest that q or e allows
    h=VALUE,...      the public values of the pattern, in its order. With linear, the generators h1, h2, ..., from 1 to 8
    table=ENTRY,...  the entries, with commas within a row and / between rows
    row=ROW          a row of the statement, in quotes: a product of powers of the generators. An exponent is a secret x1, x2,
                     ... or a linear form of secrets, as in 'h1^x3 h2^x1' or 'h1^(x1 + 2x2) h2^(x1 - x2)'. Give one row= for
                     each row, in order
    z=VALUE,...      the statement, a value for each row
    x=VALUE,...      a witness, a value for each column. A root sheet has as many rows and columns as z or x has values
    x=random         a witness that the system's generator draws. It is printed after the sheet
    --patterns FILE  a pattern file. If it is left out, the shipped file is taken
    -o SHEET         the file to write
    --force          writes over a file that is there

Example:
    $ dimkhoros make schnorr m=23 q=11 h=2 x=7 -o sheet.bin
    13 = 2^x mod 23, q = 11, K = 11
    $ dimkhoros make root m=35 e=5 z=32 -o root.bin
    32 = x^5 mod 35, e = 5, K = 5
    $ dimkhoros make table=1,2/2,3 m=23 q=11 K=11 x=4,5 -o elgamal.bin
    9 = 2^x2 mod 23, 1 = 2^x1 · 3^x2 mod 23, q = 11, K = 11
    $ dimkhoros make linear m=23 q=11 h=2,3 row='h1^x1 h2^x2' x=4,5 -o l.bin
    1 = 2^x1 · 3^x2 mod 23, q = 11, K = 11
";

/// The word that asks for a witness from the system's generator.
const RANDOM: &str = "x=random";

/// The statement of ones, which are elements of every group.
const ONES: Places = [1; PLACES];

const GRAMMAR: Grammar = Grammar {
    plain: &["PATTERN"],
    optional: 1,
    letters: &["m", "q", "e", "K", "h", "z", "x", "table", "row"],
    flags: &["--force", RANDOM],
    options: &["-o", "--patterns"],
};

/// Runs the command.
pub fn run(words: Vec<OsString>, out: &mut dyn Write) -> Outcome {
    let words = Words::sort(words, &GRAMMAR)?;
    let (asked, target) = (Asked::read(&words)?, Target::of(&words)?);
    if words.flag(RANDOM) {
        alone(&words)?;
    }
    let numbers = numbers(&words, &asked)?;
    let (sheet, drawn) = match given(&words, asked.rows()) {
        Some(statement) => (with_statement(&asked, numbers, &statement)?, None),
        None => with_image(&words, &without_statement(&asked, numbers)?)?,
    };
    let made = notation::with_numbers(&sheet, &asked.statement(&sheet));
    let Some(witness) = drawn else {
        return target.write_answering(sheet.bytes(), &made, out);
    };
    let x = notation::by_column(&sheet, &witness);
    if target.is_standard() {
        files::note(&format!("the witness is x = {x}"));
    }
    target.write_answering(sheet.bytes(), &format!("{made}; x = {x}"), out)
}

/// Fails if a statement or a witness stands beside the one that is drawn.
fn alone(words: &Words) -> Outcome {
    match ["z", "x"].iter().find(|letter| !words.all(letter).is_empty()) {
        Some(letter) => {
            Err(Failure::words(format!("{RANDOM} and {letter}= are both there; leave one out")))
        }
        None => Ok(()),
    }
}

/// The statement or the witness that the words have.
fn stated(words: &Words) -> Outcome<&Value> {
    let what = "the statement, or a witness of it";
    words.needed(words.either(["z", "x"], what)?, what)
}

/// How many rows a root sheet has: as many as its statement or witness has values, and one if that is drawn.
fn root_rows(words: &Words) -> Outcome<usize> {
    if words.flag(RANDOM) {
        return Ok(1);
    }
    Ok(stated(words)?.numbers()?.len())
}

/// The modulus, the order or exponent, and the challenge count that the words have.
fn numbers(words: &Words, asked: &Asked) -> Outcome<[u32; 3]> {
    let modulus = words.needed("m", "the modulus")?.number()?;
    let (what, other, when) = match asked {
        Asked::Root(_) => ("the exponent", "q", "for a root sheet"),
        _ => ("the order", "e", "for an exponent sheet"),
    };
    words.without(&[other], when)?;
    let order = words.needed(asked.kind().1, what)?.number()?;
    let sheet = |challenges| asked.sheet([modulus, order, challenges], &ONES);
    let challenges = words.number("K")?.unwrap_or_else(|| sheets::largest(sheet));
    Ok([modulus, order, challenges])
}

/// The statement in z=, if it has a value for each of so many rows.
fn given(words: &Words, rows: usize) -> Option<Places> {
    let stated = stated(words).ok().filter(|stated| stated.letter == "z" && rows <= PLACES)?;
    sheets::in_places(stated, rows, "row").ok()
}

/// The sheet with these numbers and this statement.
fn with_statement(asked: &Asked, numbers: [u32; 3], statement: &Places) -> Outcome<Instance> {
    asked.sheet(numbers, statement).or_else(|refusal| {
        let ones = without_statement(asked, numbers)?;
        Err(brought::refused(refusal, &[Brought::statement(&ones, "z", statement)]))
    })
}

/// The sheet with these numbers, with ones in the place of the statement.
fn without_statement(asked: &Asked, numbers: [u32; 3]) -> Outcome<Instance> {
    let ([modulus, order, challenges], (kind, letter)) = (numbers, asked.kind());
    asked.sheet(numbers, &ONES).map_err(|refusal| match refusal {
        Refusal::Modulus => Failure::refused(refusal, format!("{modulus} in m=")),
        Refusal::Order => Failure::refused(refusal, format!("{order} in {letter}=")),
        Refusal::Challenges => {
            let header = Header { kind, modulus, order, challenges, rows: 1, columns: 1 };
            let why = causes::challenges(&header);
            Failure::cause(refusal, format!("{challenges} in K=: {why}"))
        }
        _ => asked.refused(numbers, refusal),
    })
}

/// The sheet with the image of the witness that the words have in the place of its ones, or of one that is drawn, and that one.
/// The library computes an image on a sheet, so the sheet of ones is needed.
fn with_image(words: &Words, ones: &Instance) -> Outcome<(Instance, Option<Places>)> {
    if words.flag(RANDOM) {
        let witness = Generator::open()?.coordinates(ones)?;
        let statement = sheets::image(ones, "x", &witness)?;
        return Ok((ones.with_statement(&statement)?, Some(witness)));
    }
    let stated = stated(words)?;
    let statement = match stated.letter {
        "z" => sheets::by_row(ones, stated)?,
        letter => sheets::image(ones, letter, &sheets::by_column(ones, stated)?)?,
    };
    Ok((ones.with_statement(&statement)?, None))
}
