//! The command `rounds`: round files, made, extended, listed and converted.

use crate::command_line::failure::{Failure, Outcome, rule};
use crate::command_line::files::{self, Target};
use crate::command_line::table::{self, Set};
use crate::command_line::words::{self, Grammar, Words};
use crate::sheets::draw::Generator;
use crate::sheets::notation::counted;
use crate::sheets::round_words::{self, Asked};
use crate::sheets::{self, as_json, commitments, notation, round_table};
use dimkhoros::{Instance, LONGEST_FILE, MOST_ROUNDS, Refusal, Round, RoundFile, RoundWriter};
use std::ffi::{OsStr, OsString};
use std::io::Write;
use std::path::Path;

/// The command's help.
pub const HELP: &str = "\
usage: dimkhoros rounds make SHEET [ROUND...] [--version 2] -o ROUNDS
       dimkhoros rounds make SHEET x=VALUE,... --draw COUNT [--version 2] -o ROUNDS
       dimkhoros rounds append SHEET ROUNDS ROUND... [-o FILE]
       dimkhoros rounds list SHEET ROUNDS [--json]
       dimkhoros rounds convert SHEET ROUNDS -o FILE
       dimkhoros rounds equal SHEET ROUNDS

Round files. `make` makes a file of 0 to 512 rounds. `append` adds rounds to a file. `list` lists its rounds with Vic's verdicts.
`convert` turns version 1 into 2, or 2 into 1. `equal` finds rounds with the same commitment, from which `dimkhoros extract`
computes the witness. t, c and r are written without a test. `list` shows what Vic says of them.

    SHEET         a sheet
    ROUNDS        a round file of the sheet
    ROUND         a round in one of three forms. t= c= r= is written as it is. c= r= is simulated, with the commitment that
                  fits. x= k= c= is made by a Peggy with this witness and nonce. The values of a round stand together
    --draw COUNT  makes so many rounds of a Peggy with the witness x. The system's generator draws nonces and challenges
    --version 2   writes a challenge in 16 bits. If it is left out, the file has version 1, with 32 bits
    --json        `list` prints JSON: the rounds with their verdicts
    -o FILE       the file to write. Without -o, `append` adds to ROUNDS itself
    --force       writes over a file that is there

Example:
    $ dimkhoros make schnorr m=23 q=11 h=2 x=7 -o sheet.bin
    13 = 2^x mod 23, q = 11, K = 11
    $ dimkhoros rounds make sheet.bin x=7 k=5 c=3 c=3 r=0 -o rounds.bin
    rounds.bin has 2 rounds (31 bytes)
    $ dimkhoros rounds append sheet.bin rounds.bin t=9 c=1 r=1 t=9 c=1 r=2
    rounds.bin has 4 rounds (55 bytes)
    $ dimkhoros rounds list sheet.bin rounds.bin
    round  t  c  r  verdict
        0  9  3  4  accepted
        1  2  3  0  accepted
        2  9  1  1  accepted
        3  9  1  2  rejected in row 0
    $ dimkhoros rounds equal sheet.bin rounds.bin
    t  rounds  challenges  extractor
    9  0 2 3   3 1 1       rounds 0 and 2 give a witness
    $ dimkhoros rounds convert sheet.bin rounds.bin -o narrow.bin
    narrow.bin has 47 bytes in version 2; rounds.bin has 55 in version 1
";

/// Runs the command.
pub fn run(words: Vec<OsString>, out: &mut dyn Write) -> Outcome {
    let (deed, words) =
        words::deed("rounds", &["make", "append", "list", "convert", "equal"], words)?;
    match deed {
        "make" => make(words, out),
        "append" => append(words, out),
        "list" => list(words, out),
        "convert" => convert(words, out),
        _ => equal(words, out),
    }
}

/// Makes a file.
fn make(words: Vec<OsString>, out: &mut dyn Write) -> Outcome {
    let words = Words::sort(
        words,
        &Grammar {
            plain: &["SHEET"],
            optional: 0,
            letters: round_words::LETTERS,
            flags: &["--force"],
            options: &["-o", "--version", "--draw"],
        },
    )?;
    let target = Target::of(&words)?;
    let version = words.option("--version").map_or(Ok(1), version)?;
    let sheet = sheets::load(&words.path(0))?;
    let rounds = match words.option("--draw") {
        Some(count) => drawn(&sheet, &words, count)?,
        None => round_words::asked(&sheet, &words)?,
    };
    let mut buffer = vec![0; LONGEST_FILE];
    let started = RoundWriter::start(&sheet, version, &mut buffer);
    let mut writer = started.map_err(|refusal| {
        Failure::cause(refusal, format!("--version {version}: a version is 1 or 2"))
    })?;
    add(&sheet, &mut writer, &rounds)?;
    write(&target, &writer, out)
}

/// Writes a round file, and a line that says how many rounds it has.
fn write(target: &Target, writer: &RoundWriter<'_>, out: &mut dyn Write) -> Outcome {
    let (file, name) = (writer.file(), target.name());
    let (rounds, bytes) = (counted(file.count(), "round"), counted(file.bytes().len(), "byte"));
    target.write_answering(file.bytes(), &format!("{name} has {rounds} ({bytes})"), out)
}

/// So many rounds of a Peggy, with nonces and challenges that the system's generator draws.
fn drawn(sheet: &Instance, words: &Words, count: &OsStr) -> Outcome<Vec<Asked>> {
    words.without(&["t", "c", "r", "k"], "beside --draw")?;
    let word = count.to_string_lossy();
    let count = word.parse().ok().filter(|count| (1..=MOST_ROUNDS).contains(count));
    let wrong = || format!("--draw takes a number from 1 to {MOST_ROUNDS}, and not {word}");
    let count = count.ok_or_else(|| Failure::words(wrong()))?;
    let x = words.needed("x", "the witness of the rounds that are drawn")?;
    let (witness, challenges) = (sheets::by_column(sheet, x)?, sheet.values().header.challenges);
    let mut generator = Generator::open()?;
    let round = |_| {
        let (nonce, challenge) = (generator.coordinates(sheet)?, generator.below(challenges)?);
        Ok(Asked::Honest { witness, nonce, challenge })
    };
    (0..count).map(round).collect()
}

/// The version that a word asks for.
fn version(word: &OsStr) -> Outcome<u32> {
    let word = word.to_string_lossy();
    word.parse().map_err(|_| Failure::words(format!("--version {word}: a version is 1 or 2")))
}

/// Adds rounds. A refusal says for which of them it is, and by which value.
fn add(sheet: &Instance, writer: &mut RoundWriter<'_>, rounds: &[Asked]) -> Outcome {
    for (number, asked) in rounds.iter().enumerate() {
        let added = asked.round(sheet).and_then(|round| writer.append(&round));
        let count = writer.file().count();
        added.map_err(|refusal| {
            let why = match refusal {
                Refusal::File => {
                    Failure::cause(refusal, format!("the file has {count} rounds and is full"))
                }
                _ => asked.refused(sheet, refusal),
            };
            Failure::failed(format!("round {number} of the words: {why}"))
        })?;
    }
    Ok(())
}

/// Adds rounds to a file.
fn append(words: Vec<OsString>, out: &mut dyn Write) -> Outcome {
    let words = Words::sort(
        words,
        &Grammar {
            letters: round_words::LETTERS,
            flags: &["--force"],
            options: &["-o"],
            ..TWO_FILES
        },
    )?;
    let target = match words.option("-o") {
        Some(_) => Target::of(&words)?,
        None => Target::in_place(&words.path(1))?,
    };
    sheets::with_rounds(&words, |sheet, _, file| {
        let rounds = round_words::asked(sheet, &words)?;
        if rounds.is_empty() {
            return Err(Failure::words("no round is there to be added, such as c=3 r=4"));
        }
        let used = file.bytes().len();
        let mut buffer = file.bytes().to_vec();
        buffer.resize(LONGEST_FILE.max(used), 0);
        let mut writer = RoundWriter::resume(sheet, &mut buffer, used)?;
        add(sheet, &mut writer, &rounds)?;
        write(&target, &writer, out)
    })
}

/// The words of what reads a sheet and a round file and takes no more.
const TWO_FILES: Grammar =
    Grammar { plain: &["SHEET", "ROUNDS"], optional: 0, letters: &[], flags: &[], options: &[] };

/// Lists a file.
fn list(words: Vec<OsString>, out: &mut dyn Write) -> Outcome {
    let words = Words::sort(words, &Grammar { flags: &["--json"], ..TWO_FILES })?;
    sheets::with_rounds(&words, |sheet, path, file| match file.count() {
        _ if words.flag("--json") => {
            Ok(writeln!(out, "{}", as_json::rounds(&files::name(path), sheet, file))?)
        }
        0 => Ok(writeln!(out, "{} has no rounds", files::name(path))?),
        count => Ok(out.write_all(round_table::of_file(sheet, file, 0..count).as_bytes())?),
    })
}

/// Converts a file.
fn convert(words: Vec<OsString>, out: &mut dyn Write) -> Outcome {
    let words =
        Words::sort(words, &Grammar { flags: &["--force"], options: &["-o"], ..TWO_FILES })?;
    let target = Target::of(&words)?;
    sheets::with_rounds(&words, |sheet, path, file| {
        let mut buffer = vec![0; LONGEST_FILE];
        let converted = file
            .convert_into(&mut buffer)
            .map_err(|refusal| not_converted(sheet, path, file, refusal))?;
        let versions = format!(
            " in version {}; {} has {} in version {}",
            converted.version(),
            files::name(path),
            file.bytes().len(),
            file.version()
        );
        target.write_saying(converted.bytes(), &versions, out)
    })
}

/// Why a file is not converted: the first challenge that 16 bits do not hold, where that is why.
fn not_converted(sheet: &Instance, path: &Path, file: &RoundFile<'_>, refusal: Refusal) -> Failure {
    let too_large = |round: &Round| round.challenge > u16::MAX.into();
    let found = file.rounds().enumerate().find(|(_, round)| too_large(round));
    let Some((number, round)) = found.filter(|_| refusal == Refusal::Challenge) else {
        return Failure::cause(refusal, format!("{}: {}", files::name(path), rule(refusal)));
    };
    let (rows, columns) = (sheets::row_count(sheet), sheets::column_count(sheet));
    let offset = dimkhoros::EMPTY_FILE + number * 4 * (rows + 1 + columns) + 4 * rows;
    let (name, challenge) = (files::name(path), round.challenge);
    let what =
        format!("{name}: c = {challenge} at byte {offset}: in version 2 it is at most 65535");
    Failure::cause(refusal, what)
}

/// Lists the rounds with the same commitment.
fn equal(words: Vec<OsString>, out: &mut dyn Write) -> Outcome {
    let words = Words::sort(words, &TWO_FILES)?;
    sheets::with_rounds(&words, |sheet, path, file| {
        let groups = commitments::groups(file);
        if groups.is_empty() {
            return Ok(writeln!(out, "{}", commitments::none(path))?);
        }
        let rounds: Vec<Round> = file.rounds().collect();
        let heading = ["t", "rounds", "challenges", "extractor"].map(str::to_string).to_vec();
        let lines = groups.iter().map(|group| alike(sheet, &rounds, group));
        let rows: Vec<Vec<String>> = std::iter::once(heading).chain(lines).collect();
        let set = [Set::Right, Set::Left, Set::Left, Set::Left];
        Ok(out.write_all(table::lines("", &set, &rows).as_bytes())?)
    })
}

/// A group of rounds with the same commitment as a row of the table.
fn alike(sheet: &Instance, rounds: &[Round], group: &[usize]) -> Vec<String> {
    let numbers: Vec<String> = group.iter().map(usize::to_string).collect();
    let challenges: Vec<String> =
        group.iter().map(|number| rounds[*number].challenge.to_string()).collect();
    let pair = commitments::first_pair(sheet, rounds, group);
    let extractor = match pair {
        Ok([first, second]) => format!("rounds {first} and {second} give a witness"),
        Err(why) => why.to_string(),
    };
    let commitment = group.first().map(|first| rounds[*first].commitment).unwrap_or_default();
    vec![notation::by_row(sheet, &commitment), numbers.join(" "), challenges.join(" "), extractor]
}
