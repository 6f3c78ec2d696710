//! Vic keeps a file of rounds, a marker judges each of them and says whether they are enough for a level, a student is told the
//! reason, and the file is converted to version 2 and back. A sheet of two rows shows how the rows that differ are named.

mod common;

use common::page_a;
use dimkhoros::{
    EMPTY_FILE, Instance, LONGEST_FILE, LONGEST_FILE_2, LONGEST_REASON, LONGEST_TEXT, Pattern,
    Patterns, Plan, Refusal, Round, RoundFile, RoundWriter, mark, places, reason,
};

/// A round of page A's sheet.
fn round(t: u32, c: u32, r: u32) -> Round {
    Round { commitment: places([t]), challenge: c, response: places([r]) }
}

/// Where a round of the file stands, its values and the verdict on it.
fn describe(instance: &Instance, file: &RoundFile<'_>, number: usize) -> Result<String, Refusal> {
    let round = file.read(number)?;
    let length = file.part(number)?.len();
    let offset = EMPTY_FILE + number * length;
    let verdict = match instance.judge(&round) {
        Ok(verdict) => verdict.to_string(),
        Err(refusal) => refusal.to_string(),
    };
    let (t, c, r) = (round.commitment[0], round.challenge, round.response[0]);
    Ok(format!("{length} bytes from byte {offset} on, t = {t}, c = {c}, r = {r}, {verdict}"))
}

/// Writes the file of these rounds to a buffer.
fn write_file<'a>(
    instance: &'a Instance,
    rounds: &[Round],
    buffer: &'a mut [u8],
) -> Result<RoundWriter<'a>, Refusal> {
    let mut writer = RoundWriter::start(instance, 1, buffer)?;
    for round in rounds {
        writer.append(round)?;
    }
    Ok(writer)
}

/// Shows the marker's text on a file at a level, the byte of a level file.
fn show_mark(instance: &Instance, file: &RoundFile<'_>, level: u8) {
    let mut text = [0; LONGEST_TEXT];
    let marked = mark(instance.bytes(), file.bytes(), &[level], &mut text);
    print!("The marker's text at the level {level}:\n{marked}");
}

/// The reason's line on a file of one round.
fn reason_alone(instance: &Instance, round: Round) -> Result<String, Refusal> {
    let mut buffer = [0; LONGEST_FILE];
    let writer = write_file(instance, &[round], &mut buffer)?;
    let mut line = [0; LONGEST_REASON];
    Ok(reason(instance.bytes(), writer.file().bytes(), &mut line).to_string())
}

/// Converts a file of version 1 to version 2 and back, and shows what becomes of it.
fn show_versions(instance: &Instance, file: &RoundFile<'_>) -> Result<(), Refusal> {
    let (mut narrow, mut again) = ([0; LONGEST_FILE_2], [0; LONGEST_FILE]);
    let two = file.convert_into(&mut narrow)?;
    println!("The file in version {}: {} bytes.", two.version(), two.bytes().len());
    println!("round 2: {}", describe(instance, &two, 2)?);
    let one = two.convert_into(&mut again)?;
    let same = if one.bytes() == file.bytes() { "the same as before" } else { "other ones" };
    println!("Converted back: {} bytes, {same}.", one.bytes().len());
    Ok(())
}

/// Shows a refusal that is expected.
fn show_refusal<T>(what: &str, result: Result<T, Refusal>) {
    let shown = result.map_or_else(|refusal| refusal.to_string(), |_| "not refused".to_string());
    println!("{what}: {shown}");
}

/// Shows what becomes of a challenge that 16 bits do not hold.
fn show_wide(instance: &Instance) -> Result<(), Refusal> {
    let wide = round(9, 65_536, 4);
    let (mut buffer, mut narrow) = ([0; LONGEST_FILE], [0; LONGEST_FILE_2]);
    let writer = write_file(instance, &[wide], &mut buffer)?;
    let converted = writer.file().convert_into(&mut narrow).map(|_| ());
    show_refusal("A file of version 1 with the challenge 65536, converted", converted);
    let appended = RoundWriter::start(instance, 2, &mut narrow)?.append(&wide);
    show_refusal("The same round added to a file of version 2", appended);
    show_refusal("A file of version 3", RoundWriter::start(instance, 3, &mut narrow));
    Ok(())
}

/// Shows how the rows that differ are told: in a verdict, by the marker and by the reason.
fn show_rows() -> Result<(), Refusal> {
    let plan = Plan {
        pattern: Pattern::DiffieHellman.number(),
        modulus: 23,
        order: 11,
        challenges: 11,
        values: &[2, 16],
        statement: &[13, 18],
    };
    let instance = Instance::from_pattern(&Patterns::shipped(), &plan)?;
    println!("\nA sheet of two rows: 2^x = 13 and 16^x = 18 modulo 23.");
    // The two sides differ nowhere, in row 0, in row 1 and in both.
    let rounds = [[9, 6], [6, 6], [9, 9], [6, 9]].map(|t| Round {
        commitment: places(t),
        challenge: 3,
        response: places([4]),
    });
    for (number, round) in rounds.iter().enumerate() {
        println!("round {number}: {}", instance.judge(round)?);
    }
    let mut buffer = [0; LONGEST_FILE];
    show_mark(&instance, &write_file(&instance, &rounds, &mut buffer)?.file(), 7);
    for (number, round) in rounds.into_iter().enumerate().skip(1) {
        print!("The reason on round {number} alone: {}", reason_alone(&instance, round)?);
    }
    Ok(())
}

fn main() -> Result<(), Refusal> {
    let instance = page_a()?;
    let mut buffer = [0; LONGEST_FILE];
    let mixed = [round(9, 3, 4), round(9, 1, 1), round(9, 1, 2), round(5, 0, 0)];
    let writer = write_file(&instance, &mixed, &mut buffer)?;
    let file = writer.file();
    println!("The file: {} rounds in {} bytes.", file.count(), file.bytes().len());
    for number in 0..=file.count() {
        println!(
            "round {number}: {}",
            describe(&instance, &file, number).unwrap_or_else(|refusal| refusal.to_string())
        );
    }
    show_versions(&instance, &file)?;
    show_wide(&instance)?;
    show_mark(&instance, &file, 7);
    let accepted = [round(9, 3, 4), round(9, 1, 1), round(2, 3, 0)];
    for (count, level) in [(2, 7), (3, 7), (3, 65)] {
        let writer = write_file(&instance, &accepted[..count], &mut buffer)?;
        show_mark(&instance, &writer.file(), level);
    }
    for (number, round) in mixed.into_iter().enumerate() {
        print!("The reason on round {number} alone: {}", reason_alone(&instance, round)?);
    }
    show_rows()
}
