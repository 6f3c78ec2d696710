//! The command `or`: rounds of the OR proof of a witness of one of two sheets.

mod extract;
mod judge;
mod make;
pub mod rounds;

use crate::command_line::failure::Outcome;
use crate::command_line::words;
use std::ffi::OsString;
use std::io::Write;

/// The command's help.
pub const HELP: &str = "\
usage: dimkhoros or make SHEET0 SHEET1 x0=VALUE,... k0=VALUE,... c1=CHALLENGE r1=VALUE,... c=CHALLENGE...
       dimkhoros or make SHEET0 SHEET1 x1=VALUE,... k1=VALUE,... c0=CHALLENGE r0=VALUE,... c=CHALLENGE...
       dimkhoros or judge SHEET0 SHEET1 ROUND
       dimkhoros or extract SHEET0 SHEET1 ROUND ROUND

The OR proof of two sheets shows that Peggy knows a witness of one of them, and not of which one. The two sheets are its sides.
`make` makes the round of a Peggy who knows a witness of one side and simulates the other. `judge` writes out the equations of
both sides and gives the verdict. The exit status is 0 even if the round is rejected. `extract` computes the witness that two
accepted rounds with the same t0 and t1 and different c give away.

    SHEET0           the sheet of side 0
    SHEET1           the sheet of side 1, with the same K
    x0= k0= x1= k1=  witness and nonce of the side that Peggy knows, a value for each column
    c0= r0= c1= r1=  challenge and response of the other side, which is simulated
    c=CHALLENGE      a challenge, from 0 to K - 1. If `make` has several, one nonce answers all of them, as no Peggy may
    ROUND            t0= t1= c= c0= r0= r1=. Side 1 has the challenge (c - c0) mod K. If the second round of `extract` has no
                     t0= and t1=, it has the first one's

Example:
    $ dimkhoros make schnorr m=23 q=11 K=5 h=2 x=7 -o a.bin
    13 = 2^x mod 23, q = 11, K = 5
    $ dimkhoros make root m=35 e=5 z=32 -o b.bin
    32 = x^5 mod 35, e = 5, K = 5
    $ dimkhoros or make a.bin b.bin x1=2 k1=3 c0=4 r0=10 c=2
    side 0 is simulated, with c0 = 4 and r0 = 10: t0 = [r0] · z^(-c0) = 16
    side 1 is known, with the witness 2: t1 = [k1] = [3] = 33

    c1 = (c - c0) mod K = (2 - 4) mod 5 = 3, so r1 = 24
    t0=16 t1=33 c=2 c0=4 r0=10 r1=24
    accepted
    $ dimkhoros or judge a.bin b.bin t0=16 t1=33 c=2 c0=4 r0=10 r1=24
    c1 = (c - c0) mod K = (2 - 4) mod 5 = 3

    side  row  [r]                  t · z^c
       0    0  2^10 mod 23 = 12  =  16 · 13^4 mod 23 = 12
       1    0  24^5 mod 35 = 19  =  33 · 32^3 mod 35 = 19

    accepted
    $ echo t0=16 t1=33 c=2 c0=4 r0=10 r1=24 > round.txt
    $ dimkhoros or extract a.bin b.bin $(cat round.txt) c=0 c0=4 r0=10 r1=6
    round  t0  t1  c  c0  c1  r0  r1  verdict
        0  16  33  2   4   3  10  24  accepted
        1  16  33  0   4   1  10   6  accepted

    c differs and c0 is 4 in both, so the c1 differ, 3 and 1.
    So side 1 gives its witness.
    The rounds (33, 3, 24) and (33, 1, 6) of side 1 give x = 2.
    [2] = 32 is the statement of side 1: 2 is a witness
";

/// Runs the command.
pub fn run(words: Vec<OsString>, out: &mut dyn Write) -> Outcome {
    let (deed, words) = words::deed("or", &["make", "judge", "extract"], words)?;
    match deed {
        "make" => make::run(words, out),
        "judge" => judge::run(words, out),
        _ => extract::run(words, out),
    }
}
