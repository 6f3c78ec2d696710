//! The command `lecture`: a page for the lecture hall.

mod diagram;
mod extractor;
mod listing;
mod or_lists;
mod or_pair;
mod or_rounds;
mod or_run;
mod or_twice;
mod page;
mod play;
mod rounds;
mod run;
mod same_rounds;
mod squares;
mod statement;
mod svg;
mod text;
mod witnesses;

use crate::command_line::failure::{Failure, Outcome};
use crate::command_line::files::{self, Target};
use crate::command_line::words::{Grammar, Words};
use crate::commands::or_proof;
use crate::sheets::round_words::Asked;
use crate::sheets::{self, brought, notation, small, witness};
use dimkhoros::{Instance, Pair, Places, Round, Side};
use or_pair::Shown;
use or_rounds::Choice;
use page::Section;
use play::Play;
use run::Secrets;
use std::ffi::OsString;
use std::io::Write;
use std::path::Path;

/// The command's help.
pub const HELP: &str = "\
usage: dimkhoros lecture SHEET [x=VALUE,...] [k=VALUE,...] [c=CHALLENGE [c=CHALLENGE]] [--play]
                 [--show-witness] -o PAGE
       dimkhoros lecture SHEET [c=CHALLENGE] [r=VALUE,...] [--play] -o PAGE
       dimkhoros lecture SHEET SHEET1 [x=VALUE,...] [x1=VALUE,...] [k=VALUE,...] [c=CHALLENGE [c=CHALLENGE]]
                 [c1=CHALLENGE] [r1=VALUE,...] [--play] [--show-witness] -o PAGE
       dimkhoros lecture SHEET SHEET1 [x1=VALUE,...] [k=VALUE,...] [c=CHALLENGE [c=CHALLENGE]]
                 [c0=CHALLENGE] [r0=VALUE,...] [--play] [--show-witness] -o PAGE

Makes a page for a projector and for paper, in one file that needs nothing else. It has the statement of SHEET, a run of the
protocol, the extractor on two rounds with the same commitment, and the honest and the simulated rounds side by side. With
SHEET1, the page is on the OR proof of the two sheets. It has the runs of both holders, what two rounds on the same commitments
give away, and the rounds that both make. The second and the fourth line of the usage are for a SHEET without a witness. Before
the extractor the page has the letters x and k in the place of the witness and the nonce.

With --play a class plays on the page. It gives challenges as Vic, answers as Peggy, clicks two rounds for the extractor, fills
the simulator's list, and catches the cheat in a team. On two sheets it guesses which witness Peggy holds. The library computes
all answers when the page is made, and the page has them as data. So the sheet must be small. In an exponent sheet q^n is at most
4096. A root sheet has one row, and m is at most 4096. Challenges by responses are at most 262144, and so are the pairs of rounds
for the extractor if there are several witnesses. The data have at most 4 MiB. If a sheet is larger, the page is made as without
--play, and says why.

    x=VALUE,...     a witness of SHEET. If it is left out and there are few values, all are tried
    x1=VALUE,...    a witness of SHEET1
    k=VALUE,...     the nonce of the run
    c=CHALLENGE     the challenge of the run. A second c= is the other challenge of the extractor
    r=VALUE,...     the response to simulate, if SHEET has no witness
    c1=CHALLENGE    the challenge with which the holder of x simulates SHEET1
    r1=VALUE,...    the response with which the holder of x simulates SHEET1
    c0=CHALLENGE    the challenge with which the holder of x1 simulates SHEET, if SHEET has no witness
    r0=VALUE,...    the response with which the holder of x1 simulates SHEET, if SHEET has no witness
    --play          makes a page on which a class plays
    --show-witness  shows the numbers of witness and nonce from the first slide on
    -o PAGE         the file to write
    --force         writes over a file that is there

Example:
    $ dimkhoros make schnorr m=23 q=11 h=2 x=7 -o sheet.bin
    13 = 2^x mod 23, q = 11, K = 11
    $ dimkhoros lecture sheet.bin k=5 c=3 c=1 -o page.html
    page.html has 43274 bytes
";

const GRAMMAR: Grammar = Grammar {
    plain: &["SHEET", "SHEET1"],
    optional: 1,
    letters: &["x", "x1", "k", "c", "r", "c0", "r0", "c1", "r1"],
    flags: &["--force", "--play", "--show-witness"],
    options: &["-o"],
};

/// Runs the command.
pub fn run(words: Vec<OsString>, out: &mut dyn Write) -> Outcome {
    let words = Words::sort(words, &GRAMMAR)?;
    let target = Target::of(&words)?;
    let made = match words.plain().len() {
        1 => single(&words, &sheets::load(&words.path(0))?)?,
        _ => double(&words, &or_proof::rounds::load(&words)?)?,
    };
    target.write_saying(made.page.as_bytes(), &made.more, out)
}

/// A page, and what is said of it.
struct Made {
    page: String,
    more: String,
}

impl Made {
    /// The page of these sections, which plays if it can. If it cannot, its first section says why.
    fn new(title: &str, reminder: &str, mut sections: Vec<Section>, play: Option<Play>) -> Made {
        let mut more = String::new();
        let plays = match play {
            Some(Ok(plays)) => plays,
            Some(Err(why)) => {
                more = format!(" and does not play: {why}");
                let first = sections.first_mut().map(|section| &mut section.body);
                first.into_iter().for_each(|body| {
                    *body += &statement::note(&format!("This page does not play: {why}."));
                });
                String::new()
            }
            None => String::new(),
        };
        Made { page: page::page(title, reminder, &sections, &plays), more }
    }
}

/// The name of a sheet's file, without its folders.
fn file_name(path: &Path) -> String {
    let name = path.file_name().filter(|name| *name != "-");
    name.map_or_else(|| files::name(path), |name| name.to_string_lossy().into_owned())
}

/// The two challenges: those of the words, and others where they are left out.
fn challenges(words: &Words, sheet: &Instance) -> Outcome<[u32; 2]> {
    let given = words.all("c");
    let given = given.iter().map(|value| value.number()).collect::<Outcome<Vec<u32>>>()?;
    let [first, second] = rounds::default_challenges(sheet);
    match given[..] {
        [] => Ok([first, second]),
        [given] => Ok([given, if given == second { first } else { second }]),
        [first, second] => Ok([first, second]),
        _ => Err(Failure::words(
            "c= is there three times: a run has one challenge, and the extractor a second one",
        )),
    }
}

/// The witness under a letter, or one that is found: none where there is none.
fn witness(words: &Words, letter: &str, path: &Path, sheet: &Instance) -> Outcome<Option<Places>> {
    if let Some(value) = words.once(letter)? {
        let witness = sheets::by_column(sheet, value)?;
        return if sheets::image(sheet, letter, &witness)? == sheet.values().statement {
            Ok(Some(witness))
        } else {
            Err(witness::no_witness(sheet, letter, &witness))
        };
    }
    let all = small::witnesses(sheet, small::MOST as usize).ok_or_else(|| {
        let name = files::name(path);
        Failure::words(format!(
            "{letter}= is missing: a witness of {name}, which is too large to find one by trying all"
        ))
    })?;
    let telling = all
        .iter()
        .find(|witness| witness[..sheets::column_count(sheet)].iter().all(|value| *value > 1));
    Ok(telling.or(all.first()).copied())
}

/// The page on one sheet.
fn single(words: &Words, sheet: &Instance) -> Outcome<Made> {
    words.without(&["x1", "c0", "r0", "c1", "r1"], "without SHEET1")?;
    let witness = witness(words, "x", &words.path(0), sheet)?;
    let sections = match &witness {
        Some(witness) => known(words, sheet, witness)?,
        None => unknown(words, sheet)?,
    };
    let plays = words.flag("--play");
    let play =
        plays.then(|| play::of_sheet(sheet, witness.as_ref(), secrets(words))).transpose()?;
    let title = format!("{}: a proof of knowledge of x with [x] = z", file_name(&words.path(0)));
    Ok(Made::new(&title, &statement::reminder(sheet), sections, play))
}

/// The sections on a sheet with a witness.
fn known(words: &Words, sheet: &Instance, witness: &Places) -> Outcome<Vec<Section>> {
    words.without(&["r"], "if there is a witness")?;
    let challenges = challenges(words, sheet)?;
    let nonce = match words.once("k")? {
        Some(value) => sheets::by_column(sheet, value)?,
        None => rounds::default_nonce(sheet),
    };
    let [first, second] = [
        honest(sheet, witness, &nonce, challenges[0])?,
        honest(sheet, witness, &nonce, challenges[1])?,
    ];
    let extracted = sheet.extract(&first, &second);
    extracted.map_err(|refusal| brought::of_two(refusal, &[], challenges[0], [false; 2]))?;
    let verdict = rounds::judged(sheet, &first)?;
    let all = small::witnesses(sheet, small::MOST as usize).unwrap_or_default();
    let secrets = secrets(words);
    let mut sections = statement::sections(
        sheet,
        "Peggy knows $x$ with $[x] = z$",
        &told(sheet, witness, all.len(), secrets),
    );
    sections.push(run::section(sheet, &nonce, witness, &first, verdict, secrets));
    let heading = "One commitment, two answers: the extractor";
    sections.extend(extractor::sections(heading, "", sheet, &[first, second])?);
    sections.extend(same_rounds::sections(sheet, witness, &first)?);
    sections.extend(witnesses::several(sheet, &all, witness, &first)?);
    sections.extend(squares::grid(sheet, &first.commitment, true));
    Ok(sections)
}

/// The round of a Peggy. A refusal says by which value it is.
fn honest(sheet: &Instance, witness: &Places, nonce: &Places, challenge: u32) -> Outcome<Round> {
    let asked = Asked::Honest { witness: *witness, nonce: *nonce, challenge };
    asked.round(sheet).map_err(|refusal| asked.refused(sheet, refusal))
}

/// Whether the words show the witness before the extractor.
fn secrets(words: &Words) -> Secrets {
    if words.flag("--show-witness") { Secrets::Shown } else { Secrets::Hidden }
}

/// What is known of the witnesses, of which all were counted, or none where they are too many to try.
fn told(sheet: &Instance, witness: &Places, count: usize, secrets: Secrets) -> String {
    let x = secrets.told("x", &notation::by_column(sheet, witness));
    match count {
        0 => format!("Peggy knows {x}"),
        1 => format!("Peggy knows {x}; there is no other"),
        _ => format!("Peggy knows {x}, one of {count} witnesses"),
    }
}

/// The sections on a sheet without a witness.
fn unknown(words: &Words, sheet: &Instance) -> Outcome<Vec<Section>> {
    words.without(&["k"], "without a witness: nobody can answer with it")?;
    let [default, _] = rounds::default_challenges(sheet);
    let challenge = words.number("c")?.unwrap_or(default);
    let response = match words.once("r")? {
        Some(value) => sheets::by_column(sheet, value)?,
        None => rounds::default_response(sheet),
    };
    let asked = Asked::Simulated { challenge, response };
    let round = asked.round(sheet).map_err(|refusal| asked.refused(sheet, refusal))?;
    let verdict = rounds::judged(sheet, &round)?;
    let domain = small::domain(sheet, small::MOST as usize).unwrap_or_default();
    let tried = format!("there is none: all {} choices were tried", domain.len());
    let mut sections = statement::sections(sheet, "Nobody knows an $x$ with $[x] = z$", &tried);
    sections.push(run::simulated(sheet, &round, verdict));
    sections.push(witnesses::none(sheet, &domain, &round)?);
    sections.extend(squares::grid(sheet, &round.commitment, false));
    Ok(sections)
}

/// The page on a pair of sheets.
fn double(words: &Words, sheets: &[Instance; 2]) -> Outcome<Made> {
    words.without(&["r"], "with SHEET1")?;
    let pair = or_proof::rounds::pair(words, sheets)?;
    let [first, second] = sheets;
    let witnesses = [
        witness(words, "x", &words.path(0), first)?,
        witness(words, "x1", &words.path(1), second)?,
    ];
    let challenges = challenges(words, first)?;
    let choice = match witnesses {
        [Some(witness), _] => choice(words, &pair, Side::First, challenges[0], &witness)?,
        [None, Some(witness)] => choice(words, &pair, Side::Second, challenges[0], &witness)?,
        [None, None] => {
            return Err(Failure::failed(
                "neither sheet has a witness, so that nobody makes rounds of the two",
            ));
        }
    };
    let shown = Shown { pair, witnesses, choice, challenges, secrets: secrets(words) };
    shown.check()?;
    let sections = shown.sections()?;
    let names = [0, 1].map(|place| file_name(&words.path(place))).join(" or ");
    let play = words.flag("--play").then(|| play::of_pair(&shown)).transpose()?;
    Ok(Made::new(&format!("{names}: the OR proof"), "", sections, play))
}

/// What the holder of a side's witness chooses, by the words and else by default.
fn choice(
    words: &Words,
    pair: &Pair<'_>,
    side: Side,
    challenge: u32,
    witness: &Places,
) -> Outcome<Choice> {
    let (letters, unused) = match side {
        Side::First => (["c1", "r1"], ["c0", "r0"]),
        Side::Second => (["c0", "r0"], ["c1", "r1"]),
    };
    words.without(&unused, "if that side's witness is known")?;
    let (own, other) = (pair.instance(side), pair.instance(side.other()));
    let nonce = match words.once("k")? {
        Some(value) => sheets::by_column(own, value)?,
        None => rounds::default_nonce(own),
    };
    let response = match words.once(letters[1])? {
        Some(value) => sheets::by_column(other, value)?,
        None => rounds::default_response(other),
    };
    let choice = Choice { side, nonce, challenge: 0, response };
    let default = or_rounds::default_challenge(pair, &choice, challenge, witness);
    Ok(Choice { challenge: words.number(letters[0])?.unwrap_or(default), ..choice })
}
