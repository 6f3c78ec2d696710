//! The command `ledger`: a ledger of committed values, made or checked from a text.

mod extract;
mod made;
mod opening;
mod shown;
mod text;
mod wrong;

use crate::command_line::failure::{Failure, Outcome};
use crate::command_line::words::{Grammar, Words};
use made::Made;
use std::ffi::OsString;
use std::io::Write;

/// The command's help.
pub const HELP: &str = "\
usage: dimkhoros ledger FILE [--public]
       dimkhoros ledger FILE extract=LINE c=CHALLENGE [r=VALUE,VALUE,VALUE]

Computes on commitments. g^v · h^b mod m commits to the value v with the blinding number b. FILE is a text with a line for each
line of a ledger. A line is a commitment, the sum of two lines above it, or the product of two lines above it. All commitments and
rounds are made and shown, and the ledger is checked. A product has a round of the sheet that `make product` makes with the values
g, h and B and the statement A and E. A is the commitment of the first line, B that of the second, and E the product's own.

The first line of the text has g, h, m, q and K. The others are these, numbered from 0. What comes after # is a comment.

        commitment v=VALUE b=BLINDING
        sum LINE LINE
        product LINE LINE b=BLINDING k=N,N,N c=CHALLENGE

The ledger of somebody else has commitments and responses instead of values and nonces. It is only checked:

        commitment C=VALUE
        product LINE LINE C=VALUE t=VALUE,VALUE c=CHALLENGE r=VALUE,VALUE,VALUE

If a line is refused, or its round is rejected, standard error has the cause and names the line by its place in the text and its
number in the ledger, as in FILE:5: line 3. The exit status is then 1.

    FILE                 the text
    --public             prints the ledger as a text for somebody else, without values, and nothing else
    extract=LINE         works out what a second challenge on the nonce of this product gives away
    c=CHALLENGE          the second challenge
    r=VALUE,VALUE,VALUE  the response to it, if FILE has no nonce

Example:
    $ printf 'g=2 h=3 m=23 q=11 K=11\\ncommitment v=2 b=1\\n' > lines.txt
    $ printf 'commitment v=3 b=0\\nsum 0 1\\n' >> lines.txt
    $ echo 'product 0 1 b=4 k=1,2,3 c=3' >> lines.txt
    $ dimkhoros ledger lines.txt
    A commitment to v with b is 2^v · 3^b mod 23; q = 11, K = 11

    line  kind        of   v  b   C  t        c  r          verdict
       0  commitment       2  1  12
       1  commitment       3  0   8
       2  sum         0 1  5  1   4
       3  product     0 1  6  4   9  (18, 9)  3  (7, 5, 4)  accepted

    4 lines: 2 commitments, 1 sum, 1 product; accepted
";

const GRAMMAR: Grammar = Grammar {
    plain: &["FILE"],
    optional: 0,
    letters: &["extract", "c", "r"],
    flags: &["--public"],
    options: &[],
};

/// Runs the command.
pub fn run(words: Vec<OsString>, out: &mut dyn Write) -> Outcome {
    let words = Words::sort(words, &GRAMMAR)?;
    let asked = extract::asked(&words)?;
    if words.flag("--public") && asked.is_some() {
        return Err(Failure::words("--public and extract= are both there; leave one out"));
    }
    let text = text::read(&words.path(0))?;
    asked.iter().try_for_each(|asked| extract::check(&text, asked))?;
    let made = Made::of(&text)?;
    if words.flag("--public") {
        out.write_all(shown::public(&made).as_bytes())?;
    } else {
        out.write_all(shown::table(&made)?.as_bytes())?;
    }
    if let Some(failure) = wrong::rejected(&text, &made)? {
        return Err(failure);
    }
    match asked {
        Some(asked) => extract::show(&text, &made, &asked, out),
        None => Ok(()),
    }
}
