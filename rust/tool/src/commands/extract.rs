//! The command `extract`: the witness that rounds with one commitment give away, by hand.

mod as_json;

use crate::by_hand::steps;
use crate::command_line::failure::{Failure, Outcome, refused as refused_by};
use crate::command_line::files;
use crate::command_line::json::Json;
use crate::command_line::words::{Grammar, Words};
use crate::sheets::brought::{self, Brought};
use crate::sheets::commitments::{self, Tried};
use crate::sheets::round_words::{self, Asked};
use crate::sheets::{self, allowed, faults, notation, round_table};
use dimkhoros::{Instance, Places, Refusal, Round, RoundFile};
use std::ffi::OsString;
use std::io::Write;

/// The command's help.
pub const HELP: &str = "\
usage: dimkhoros extract SHEET ROUNDS [--all | --json]
       dimkhoros extract SHEET ROUNDS NUMBER NUMBER [--json]
       dimkhoros extract SHEET t=VALUE,... c=CHALLENGE r=VALUE,... [t=VALUE,...] c=CHALLENGE r=VALUE,...

Computes the witness that two accepted rounds with the same commitment and different challenges give away. The rounds stand in a
round file or in the words. The first pair of each commitment is worked out line by line, with numbers a and b for which
ℓ·a + (c - c')·b = 1. Here ℓ is q or e. The other pairs are named. If a file has more than 8192 pairs, only those with one round
of each commitment are tried. If no pair gives a witness, the exit status is 1.

    SHEET        a sheet
    ROUNDS       a round file of the sheet
    NUMBER       the number of a round of the file, from 0. These two rounds are worked out
    --all        works out every pair that gives a witness, up to 64 besides the first one of each commitment
    --json       prints JSON: a list with an object for each pair, with rounds, t, x and refusal. Either x or refusal is null
    t=VALUE,...  a commitment, a value for each row. If the second round has no t=, it has the first one's
    c=CHALLENGE  a challenge, from 0 to K - 1
    r=VALUE,...  a response, a value for each column

Example:
    $ dimkhoros make schnorr m=23 q=11 h=2 x=7 -o sheet.bin
    13 = 2^x mod 23, q = 11, K = 11
    $ dimkhoros extract sheet.bin t=9 c=3 r=4 c=1 r=1
    x ↦ [x] = 2^x mod 23, z = 13, q = 11, K = 11

    Rounds 0 and 1 by hand:

    1. Both rounds are accepted, since [r] = t · z^c mod 23 in every row:

           round  t  c  r  [r]       z^c               t · z^c
               0  9  3  4  2^4 = 16  13^3 = 2197 ≡ 12  9 · 12 = 108 ≡ 16
               1  9  1  1  2^1 = 2   13^1 = 13         9 · 13 = 117 ≡ 2

    2. c - c' = 3 - 1 = 2

    3. a and b with 11·a + 2·b = 1, by Euclid's algorithm:

           11 =  11·1  + 2·0
            2 =  11·0  + 2·1
            1 =  11·1  + 2·(-5)  11 - 5·2
           b = -5 + 11 = 6 and a = 1 - 2 = -1 will do too, and b is not negative
           11·(-1) + 2·6 = -11 + 12 = 1

    4. x = b·(r - r') mod 11:

           x = 6·(4 - 1) = 6·3 = 18, and 18 - 1·11 = 7

    5. The witness is x = 7, since [x] = 13 = z:

           [x] = 2^7 = 128 ≡ 13
";

const GRAMMAR: Grammar = Grammar {
    plain: &["SHEET", "ROUNDS", "NUMBER", "NUMBER"],
    optional: 3,
    letters: &["t", "c", "r"],
    flags: &["--all", "--json"],
    options: &[],
};

/// The most pairs that a line names.
const MOST_NAMED: usize = 10;

/// The most pairs that `--all` works out besides the first ones.
const MOST_BY_HAND: usize = 64;

/// Runs the command.
pub fn run(words: Vec<OsString>, out: &mut dyn Write) -> Outcome {
    let words = Words::sort(words, &GRAMMAR)?;
    let in_words = !words.values().is_empty();
    let count = words.plain().len();
    if words.flag("--all") && (count != 2 || in_words) {
        return Err(Failure::words("--all goes with SHEET and ROUNDS alone"));
    }
    match (count, in_words) {
        (1, true) => of_words(&words, out),
        (2, false) => of_file(&words, out),
        (4, false) => of_numbers(&words, out),
        (1, false) => Err(Failure::words("ROUNDS or two rounds as words are missing")),
        (3, false) => Err(Failure::words("the second NUMBER is missing: two rounds are needed")),
        _ => Err(Failure::words("ROUNDS and rounds as words are both there")),
    }
}

/// Says that words are not two rounds.
fn not_two() -> Failure {
    Failure::words("two rounds are needed: t= c= r= c= r=, or t= c= r= t= c= r=")
}

/// Extracts from two rounds in words.
fn of_words(words: &Words, out: &mut dyn Write) -> Outcome {
    let letters: Vec<&str> = words.values().iter().map(|value| value.letter).collect();
    if !matches!(letters[..], ["t", "c", "r", "c", "r"] | ["t", "c", "r", "t", "c", "r"]) {
        return Err(not_two());
    }
    let sheet = sheets::load(&words.path(0))?;
    let rounds = match round_words::asked(&sheet, words)?[..] {
        [Asked::Stands(first), Asked::Stands(second)] => [first, second],
        [Asked::Stands(first), Asked::Simulated { challenge, response }] => {
            [first, Round { commitment: first.commitment, challenge, response }]
        }
        _ => return Err(not_two()),
    };
    if words.flag("--json") {
        return print_pair(&sheet, [0, 1], &rounds, out);
    }
    if let Err(refusal) = sheet.extract(&rounds[0], &rounds[1]) {
        return refused(&sheet, &rounds, refusal, out);
    }
    writeln!(out, "{}\n", notation::headline(&sheet))?;
    by_hand(&sheet, &rounds, [0, 1], out)
}

/// Says why two rounds in words give no witness, below their verdicts where they have some.
pub fn refused(
    sheet: &Instance,
    rounds: &[Round; 2],
    refusal: Refusal,
    out: &mut dyn Write,
) -> Outcome {
    if brought::is_by_value(refusal) {
        let [first, second] = rounds.map(|round| Brought::round(sheet, &round));
        let both: Vec<Brought<'_>> = first.into_iter().chain(second).collect();
        return Err(brought::refused(refusal, &both));
    }
    out.write_all(round_table::of_words(sheet, rounds).as_bytes())?;
    let t = rounds.map(|round| notation::by_row(sheet, &round.commitment));
    Err(brought::of_two(refusal, &[("t", t)], rounds[0].challenge, rejected(sheet, rounds)))
}

/// Prints what two rounds with these numbers give as JSON.
fn print_pair(
    sheet: &Instance,
    pair: [usize; 2],
    rounds: &[Round; 2],
    out: &mut dyn Write,
) -> Outcome {
    let answer = sheet.extract(&rounds[0], &rounds[1]);
    let pair = as_json::of_pair(sheet, pair, &rounds[0], answer);
    Ok(writeln!(out, "{}", Json::List(vec![pair]))?)
}

/// Which of two rounds are rejected.
fn rejected(sheet: &Instance, rounds: &[Round; 2]) -> [bool; 2] {
    rounds.map(|round| sheet.judge(&round).is_ok_and(|verdict| !verdict.is_accepted()))
}

/// Extracts from two rounds of a file by their numbers.
fn of_numbers(words: &Words, out: &mut dyn Write) -> Outcome {
    let pair = [words.round_number(2)?, words.round_number(3)?];
    sheets::with_rounds(words, |sheet, path, file| {
        let name = files::name(path);
        let rounds = [sheets::round(file, pair[0], &name)?, sheets::round(file, pair[1], &name)?];
        if words.flag("--json") {
            return print_pair(sheet, pair, &rounds, out);
        }
        if let Err(refusal) = sheet.extract(&rounds[0], &rounds[1]) {
            if let Some(fault) =
                pair.iter().find_map(|number| in_round(sheet, file, *number, refusal, &name))
            {
                return Err(Failure::failed(fault));
            }
            out.write_all(round_table::of_file(sheet, file, pair).as_bytes())?;
            return Err(refused_numbers(sheet, &rounds, pair, refusal));
        }
        writeln!(out, "{}\n", notation::headline(sheet))?;
        by_hand(sheet, &rounds, pair, out)
    })
}

/// The value of a round of a file of a name that a refusal is by, and what the rule allows.
fn in_round(
    sheet: &Instance,
    file: &RoundFile<'_>,
    number: usize,
    refusal: Refusal,
    name: &str,
) -> Option<String> {
    let fault = faults::in_round(sheet, file, number).filter(|fault| fault.refusal == refusal)?;
    Some(fault.told(name, &allowed::by(refusal, &sheet.values().header)))
}

/// Why two rounds of a file, which have no refused value, give no witness.
fn refused_numbers(
    sheet: &Instance,
    rounds: &[Round; 2],
    pair: [usize; 2],
    refusal: Refusal,
) -> Failure {
    let [first, second] = pair;
    let t = rounds.map(|round| notation::by_row(sheet, &round.commitment));
    let by = match refusal {
        Refusal::CommitmentsDiffer => {
            format!("t = {} of round {first} and t = {} of round {second}", t[0], t[1])
        }
        Refusal::ChallengesEqual => {
            format!("c = {} of rounds {first} and {second}", rounds[0].challenge)
        }
        Refusal::RoundRejected => brought::rejected(rejected(sheet, rounds), pair),
        _ => return refusal.into(),
    };
    Failure::refused(refusal, by)
}

/// Prints the steps of two rounds with these numbers, which end in the library's witness.
pub fn by_hand(
    sheet: &Instance,
    [first, second]: &[Round; 2],
    pair: [usize; 2],
    out: &mut dyn Write,
) -> Outcome {
    let witness = sheet.extract(first, second)?;
    let steps = steps(sheet, first, second).filter(|steps| steps.witness == witness);
    let steps = steps.ok_or_else(|| {
        let witness = notation::by_column(sheet, &witness);
        Failure::failed(format!("the witness is {witness}, and the steps by hand end elsewhere"))
    })?;
    writeln!(out, "Rounds {} and {} by hand:\n", pair[0], pair[1])?;
    out.write_all(steps::text(sheet, pair, &steps).as_bytes())?;
    Ok(())
}

/// Extracts from a round file.
fn of_file(words: &Words, out: &mut dyn Write) -> Outcome {
    sheets::with_rounds(words, |sheet, path, file| {
        let groups = commitments::groups(file);
        if words.flag("--json") {
            return Ok(writeln!(out, "{}", as_json::of_file(sheet, file))?);
        }
        if groups.is_empty() {
            return Err(Failure::failed(commitments::none(path)));
        }
        let pairs = groups.iter().map(|group| commitments::pair_count(group)).sum::<usize>();
        writeln!(out, "{}", notation::headline(sheet))?;
        let mut found = false;
        let left = if words.flag("--all") { MOST_BY_HAND } else { 0 };
        let mut how = How { all: pairs <= commitments::MOST, left, beyond: 0 };
        for group in &groups {
            found |= of_group(sheet, file, group, &mut how, out)?;
        }
        if words.flag("--all") && how.beyond > 0 {
            writeln!(
                out,
                "\nPairs that give a witness and are not worked out: {}. --all works out {MOST_BY_HAND} besides the first ones.",
                how.beyond
            )?;
        }
        let none = format!("no two rounds of {} give a witness", files::name(path));
        if found { Ok(()) } else { Err(Failure::failed(none)) }
    })
}

/// How the pairs of a file are taken.
struct How {
    /// All are tried, and else those with one round of each commitment.
    all: bool,
    /// How many may still be worked out besides the first ones.
    left: usize,
    /// How many give a witness and are beyond those.
    beyond: usize,
}

/// Extracts from a group of rounds with the same commitment. Answers whether a pair gives a witness.
fn of_group(
    sheet: &Instance,
    file: &RoundFile<'_>,
    group: &[usize],
    how: &mut How,
    out: &mut dyn Write,
) -> Outcome<bool> {
    let rounds: Vec<Round> = file.rounds().collect();
    let first = group.first().copied().unwrap_or_default();
    let commitment = notation::by_row(sheet, &rounds[first].commitment);
    writeln!(out, "\nCommitment {commitment}, in {} rounds\n", group.len())?;
    let pair = commitments::first_pair(sheet, &rounds, group).ok();
    if pair.is_none() {
        let table = round_table::of_file(sheet, file, group.iter().copied());
        out.write_all(table.as_bytes())?;
    }
    let with = pair.map_or(first, |pair| pair[0]);
    let tried = commitments::tried(sheet, &rounds, group, (!how.all).then_some(with));
    let shown = how.worked_out(pair, &tried);
    for (place, pair) in shown.iter().enumerate() {
        out.write_all(if place == 0 { b"" } else { b"\n" })?;
        by_hand(sheet, &pair.map(|number| rounds[number]), *pair, out)?;
    }
    out.write_all(further(sheet, tried, &shown).as_bytes())?;
    if !how.all {
        let pairs = commitments::pair_count(group);
        writeln!(
            out,
            "The {pairs} pairs are too many to try; those with round {with} were tried."
        )?;
    }
    Ok(pair.is_some())
}

impl How {
    /// The pairs of a group that are worked out: the first one, and further ones where all of them are asked for.
    fn worked_out(&mut self, first: Option<[usize; 2]>, tried: &[Tried]) -> Vec<[usize; 2]> {
        let giving = tried.iter().filter(|tried| tried.answer.is_ok());
        let mut further: Vec<[usize; 2]> = giving.flat_map(|tried| tried.pairs.clone()).collect();
        further.retain(|pair| Some(*pair) != first);
        further.sort();
        self.beyond += further.len().saturating_sub(self.left);
        further.truncate(self.left);
        self.left -= further.len();
        first.into_iter().chain(further).collect()
    }
}

/// What pairs give besides those that were worked out by hand, a line for each answer: the same witness as that of the first
/// one before others, and refusals last.
fn further(sheet: &Instance, mut tried: Vec<Tried>, by_hand: &[[usize; 2]]) -> String {
    let same = |tried: &Tried| by_hand.first().is_some_and(|pair| tried.pairs.contains(pair));
    tried.sort_by_key(|tried| (!same(tried), tried.answer.is_err()));
    let lines = tried.iter().filter_map(|tried| {
        let pairs: Vec<[usize; 2]> =
            tried.pairs.iter().filter(|pair| !by_hand.contains(pair)).copied().collect();
        let line = match (&tried.answer, pairs.len()) {
            (_, 0) => return None,
            (Ok(_), _) if same(tried) => format!("{} give the same witness", named(&pairs)),
            (Ok(witness), _) => another(sheet, witness, &pairs),
            (Err(refusal), _) => refused_by(*refusal, named(&pairs)),
        };
        Some(line + "\n")
    });
    let lines: String = lines.collect();
    if lines.is_empty() { lines } else { format!("\n{lines}") }
}

/// Says that pairs give another witness than the one that was worked out.
fn another(sheet: &Instance, witness: &Places, pairs: &[[usize; 2]]) -> String {
    format!("{}: another witness, {}", named(pairs), notation::by_column(sheet, witness))
}

/// The first pairs by their numbers, and how many more there are.
fn named(pairs: &[[usize; 2]]) -> String {
    let names: Vec<String> = pairs
        .iter()
        .take(MOST_NAMED)
        .map(|[first, second]| format!("{first} and {second}"))
        .collect();
    let names = names.join(", ");
    match pairs.len().saturating_sub(MOST_NAMED) {
        0 => format!("rounds {names}"),
        more => format!("rounds {names} and {more} more pairs"),
    }
}
