//! The text of a ledger.

use crate::command_line::failure::{Failure, Outcome};
use crate::command_line::files;
use crate::command_line::words::{Grammar, Value, Words};
use dimkhoros::{Base, Line};
use std::ffi::OsString;
use std::path::Path;

/// A line as the text gives it.
#[derive(Clone, Copy)]
pub enum Given {
    /// A commitment that is to be made.
    Commitment { value: u32, blinding: u32 },
    /// A sum.
    Sum { first: usize, second: usize },
    /// A product whose commitment and round are to be made.
    Product { first: usize, second: usize, blinding: u32, nonce: [u32; 3], challenge: u32 },
    /// A commitment or a product that is there already.
    Closed(Line),
}

/// A ledger as a text gives it.
#[derive(Clone)]
pub struct Text {
    /// The name of the file.
    pub name: String,
    /// What all lines share.
    pub base: Base,
    /// The place of the base in the file, from 1.
    pub base_at: usize,
    /// The lines, each with its place in the file.
    pub lines: Vec<(usize, Given)>,
}

const BASE: Grammar = Grammar {
    plain: &[],
    optional: 0,
    letters: &["g", "h", "m", "q", "K"],
    flags: &[],
    options: &[],
};

const COMMITMENT: Grammar =
    Grammar { plain: &["commitment"], letters: &["v", "b", "C"], ..WITHOUT_WORDS };

const SUM: Grammar = Grammar { plain: &["sum", "LINE", "LINE"], ..WITHOUT_WORDS };

const PRODUCT: Grammar = Grammar {
    plain: &["product", "LINE", "LINE"],
    letters: &["b", "k", "c", "C", "t", "r"],
    ..WITHOUT_WORDS
};

const WITHOUT_WORDS: Grammar =
    Grammar { plain: &[], optional: 0, letters: &[], flags: &[], options: &[] };

/// Reads the text of a file.
pub fn read(path: &Path) -> Outcome<Text> {
    let name = files::name(path);
    let text = String::from_utf8(files::read(path)?)
        .map_err(|_| Failure::failed(format!("{name} is not a text in UTF-8")))?;
    let mut lines = text.lines().map(uncommented).zip(1..).filter(|(line, _)| !line.is_empty());
    let Some((first, base_at)) = lines.next() else {
        return Err(Failure::failed(format!(
            "{name} has no line; its first one has g=, h=, m=, q= and K="
        )));
    };
    let base = base(first).map_err(|why| at(&name, base_at, why))?;
    let given = |(line, place)| Ok((place, given(line).map_err(|why| at(&name, place, why))?));
    let lines: Vec<(usize, Given)> = lines.map(given).collect::<Outcome<_>>()?;
    one_form(&name, &lines)?;
    Ok(Text { name, base, base_at, lines })
}

/// A line without what follows #.
fn uncommented(line: &str) -> &str {
    line.split('#').next().unwrap_or_default().trim()
}

/// A failure at a place of a file.
fn at(name: &str, place: usize, failure: Failure) -> Failure {
    match failure {
        Failure::Words(why) | Failure::Failed(why) => {
            Failure::failed(format!("{name}:{place}: {why}"))
        }
        Failure::ReaderGone => Failure::ReaderGone,
    }
}

/// The words of a line.
fn words(line: &str, grammar: &Grammar) -> Outcome<Words> {
    Words::sort(line.split_whitespace().map(OsString::from).collect(), grammar)
}

/// The base of the first line.
fn base(line: &str) -> Outcome<Base> {
    let words = words(line, &BASE)?;
    let number = |letter, what| words.needed(letter, what)?.number();
    Ok(Base {
        g: number("g", "the public value of the values")?,
        h: number("h", "the public value of the blinding numbers")?,
        modulus: number("m", "the modulus")?,
        order: number("q", "the order")?,
        challenges: number("K", "the challenge count")?,
    })
}

/// What a line gives.
fn given(line: &str) -> Outcome<Given> {
    const KINDS: &str = "commitment, sum or product";
    match line.split_whitespace().find(|word| !word.contains('=')) {
        Some("commitment") => commitment(&words(line, &COMMITMENT)?),
        Some("sum") => {
            let words = words(line, &SUM)?;
            Ok(Given::Sum { first: line_number(&words, 1)?, second: line_number(&words, 2)? })
        }
        Some("product") => product(&words(line, &PRODUCT)?),
        Some(word) => Err(Failure::words(format!("{word} is not a kind of line: write {KINDS}"))),
        None => Err(Failure::words(format!("the kind of the line is missing: {KINDS}"))),
    }
}

/// A commitment, that is to be made or is there.
fn commitment(words: &Words) -> Outcome<Given> {
    match words.either(["v", "C"], "a value with b=, or a commitment")? {
        "v" => Ok(Given::Commitment {
            value: words.needed("v", "a value")?.number()?,
            blinding: words.needed("b", "a blinding number")?.number()?,
        }),
        _ => {
            words.without(&["b"], "beside C=")?;
            let commitment = words.needed("C", "a commitment")?.number()?;
            Ok(Given::Closed(Line::Commitment { commitment }))
        }
    }
}

/// A product, that is to be made or is there.
fn product(words: &Words) -> Outcome<Given> {
    let (first, second) = (line_number(words, 1)?, line_number(words, 2)?);
    let which =
        words.either(["k", "r"], "a nonce with b= and c=, or a response with C=, t= and c=")?;
    let challenge = words.needed("c", "a challenge")?.number()?;
    if which == "k" {
        words.without(&["C", "t"], "beside k=")?;
        let blinding = words.needed("b", "a blinding number")?.number()?;
        let nonce = exactly(words.needed("k", "a nonce")?)?;
        return Ok(Given::Product { first, second, blinding, nonce, challenge });
    }
    words.without(&["b"], "beside r=")?;
    Ok(Given::Closed(Line::Product {
        first,
        second,
        commitment: words.needed("C", "the product's commitment")?.number()?,
        t: exactly(words.needed("t", "the round's commitment")?)?,
        challenge,
        response: exactly(words.needed("r", "the round's response")?)?,
    }))
}

/// So many numbers of a value.
pub fn exactly<const COUNT: usize>(value: &Value) -> Outcome<[u32; COUNT]> {
    let numbers = value.numbers()?;
    let wrong =
        || format!("{}= takes {COUNT} numbers here, and has {}", value.letter, numbers.len());
    numbers.try_into().map_err(|_| Failure::words(wrong()))
}

/// The number of a line in a plain word that is known to be there.
fn line_number(words: &Words, place: usize) -> Outcome<usize> {
    let word = words.plain()[place].to_string_lossy();
    let number = word.parse().ok().filter(|_| word.bytes().all(|byte| byte.is_ascii_digit()));
    number.ok_or_else(|| {
        Failure::words(format!("{word} is not the number of a line; they are numbered from 0"))
    })
}

/// Fails where some lines are to be made and others are there.
fn one_form(name: &str, lines: &[(usize, Given)]) -> Outcome {
    let closed = |given: &Given| match given {
        Given::Sum { .. } => None,
        Given::Commitment { .. } | Given::Product { .. } => Some(false),
        Given::Closed(_) => Some(true),
    };
    let forms = || lines.iter().filter_map(|(place, given)| Some((*place, closed(given)?)));
    let Some((first, form)) = forms().next() else {
        return Ok(());
    };
    match forms().find(|(_, other)| *other != form) {
        None => Ok(()),
        Some((place, _)) => {
            let why = format!(
                "this line and line {first} of the text are of two forms; lines have v=, b= and k=, or all of them C=, t= and r="
            );
            Err(at(name, place, Failure::words(why)))
        }
    }
}
