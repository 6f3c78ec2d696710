//! The command `numbers`: numbers for a sheet.

use crate::command_line::failure::{Failure, Outcome};
use crate::command_line::words::{Grammar, Words};
use crate::sheets::notation::list;
use crate::sheets::proposed::{self, BITS, Exponent, Root};
use std::ffi::OsString;
use std::io::Write;

/// The command's help.
pub const HELP: &str = "\
usage: dimkhoros numbers bits=BITS

Proposes numbers for a sheet whose modulus m has so many bits. For kind 1, exponent: the largest prime m = 2q + 1 with a prime q,
the least generators of the group of order q, and the largest K. For kind 2, root: a product m of two primes, a prime e with which
each element has one root, and the largest K. They are found by search, with the library's own tests. Numbers of 32 bits protect
nothing. They are for teaching.

    bits=BITS  how many bits m has, 4 to 32

Example:
    $ dimkhoros numbers bits=16
    kind 1, exponent: m = 65267, q = 32633, K = 32633
        generators 3, 4, 7, 9
        dimkhoros make schnorr m=65267 q=32633 h=3 x=random -o SHEET
    kind 2, root: m = 64507 = 251 · 257, e = 257, K = 257
        dimkhoros make root m=64507 e=257 x=random -o SHEET
";

const GRAMMAR: Grammar =
    Grammar { plain: &[], optional: 0, letters: &["bits"], flags: &[], options: &[] };

/// Runs the command.
pub fn run(words: Vec<OsString>, out: &mut dyn Write) -> Outcome {
    let words = Words::sort(words, &GRAMMAR)?;
    let bits = bits(&words)?;
    let none = || Failure::failed(format!("no numbers of {bits} bits are found"));
    let Exponent { modulus, order, generators, challenges } =
        proposed::exponent(bits).ok_or_else(none)?;
    let first = generators.first().copied().unwrap_or(1);
    writeln!(
        out,
        "kind 1, exponent: m = {modulus}, q = {order}, K = {challenges}\n    generators {}\n    \
         dimkhoros make schnorr m={modulus} q={order} h={first} x=random -o SHEET",
        list(&generators, ", ")
    )?;
    let Root { primes: [one, other], modulus, exponent, challenges } =
        proposed::root(bits).ok_or_else(none)?;
    writeln!(
        out,
        "kind 2, root: m = {modulus} = {one} · {other}, e = {exponent}, K = {challenges}\n    \
         dimkhoros make root m={modulus} e={exponent} x=random -o SHEET"
    )?;
    Ok(())
}

/// How many bits the words ask for.
pub fn bits(words: &Words) -> Outcome<u32> {
    let bits = words.needed("bits", "how many bits the modulus has")?.number()?;
    let [least, most] = BITS;
    if !(least..=most).contains(&bits) {
        return Err(Failure::words(format!("bits= takes {least} to {most}, and not {bits}")));
    }
    Ok(bits)
}
