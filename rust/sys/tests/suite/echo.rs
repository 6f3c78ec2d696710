//! Every field crosses to and from the archive where C and this crate have it: each export is called with values that differ
//! from field to field, and every field of what comes back is compared with one text, in Rust and in C.

use crate::cc;

use dimkhoros_sys::*;
use std::fmt::Write;

const WITNESS: Places = [1, 2, 3, 4, 5, 6, 7, 8];
const STATEMENT: Places = [2, 4, 8, 16, 9, 18, 13, 3];
const NONCE: Places = [0, 3, 6, 9, 1, 4, 7, 10];
const COMMITMENT: Places = [1, 8, 18, 6, 2, 16, 13, 12];
const RESPONSE: Places = [1, 5, 9, 2, 6, 10, 3, 7];

/// What the commitment and this multiply to is the statement.
const REST: Places = [2, 12, 3, 18, 16, 4, 1, 6];

/// The header of a sheet of 8 rows and 8 columns.
const WIDE: Header = Header { kind: 1, modulus: 23, order: 11, challenges: 5, rows: 8, columns: 8 };

const ROOT_WITNESS: Places = [2, 3, 4, 5, 6, 8, 9, 10];
const ROOT_STATEMENT: Places = [30, 38, 53, 26, 62, 50, 58, 10];
const ROOT_NONCE: Places = [12, 13, 15, 16, 17, 18, 19, 20];
const ROOT_RESPONSE: Places = [23, 24, 25, 26, 27, 29, 30, 31];

/// The header of a root sheet of 8 rows.
const ROOTS: Header =
    Header { kind: 2, modulus: 77, order: 13, challenges: 5, rows: 8, columns: 8 };

/// Entries with 2 on the diagonal and 1 elsewhere: row i's image is 2 to the i-th coordinate.
fn diagonal() -> [u32; ENTRIES] {
    core::array::from_fn(|place| if place % 9 == 0 { 2 } else { 1 })
}

/// The sheet of these.
fn wide() -> [u8; LONGEST_SHEET] {
    let mut sheet = [0; LONGEST_SHEET];
    assert_eq!(encode(WIDE, &diagonal(), &STATEMENT, &mut sheet).length, LONGEST_SHEET);
    sheet
}

/// The root sheet.
fn roots() -> [u8; 52] {
    let mut sheet = [0; 52];
    assert_eq!(encode(ROOTS, &[0; ENTRIES], &ROOT_STATEMENT, &mut sheet).length, 52);
    sheet
}

/// Eight numbers that rise from one.
fn rise(first: u32) -> Places {
    core::array::from_fn(|i| first + i as u32)
}

fn rising_round(first: u32) -> Round {
    Round { commitment: rise(first), challenge: first + 8, response: rise(first + 9) }
}

fn honest_round(challenge: u32, response: Places) -> Round {
    Round { commitment: COMMITMENT, challenge, response }
}

/// Peggy's session of the OR proof, committed with the witness of this side.
fn or_committed(side: u32) -> OrAnswer {
    let (nonce, response) = if side == 0 { (NONCE, ROOT_RESPONSE) } else { (ROOT_NONCE, RESPONSE) };
    or_prover_commit(&wide(), &roots(), or_prover_new(), side, &nonce, 3, &response)
}

/// What it answers to a challenge.
fn or_answered(side: u32, challenge: u32) -> OrAnswer {
    let witness = if side == 0 { &WITNESS } else { &ROOT_WITNESS };
    or_prover_respond(&wide(), &roots(), or_committed(side).session, challenge, witness)
}

/// The whole round.
fn or_round(side: u32, challenge: u32) -> OrRound {
    let OrAnswer { session, values0, values1, challenge0, .. } = or_answered(side, challenge);
    OrRound {
        commitment0: session.commitment0,
        commitment1: session.commitment1,
        response0: values0,
        response1: values1,
        challenge,
        challenge0,
    }
}

fn rising_or_round(first: u32) -> OrRound {
    OrRound {
        commitment0: rise(first),
        commitment1: rise(first + 8),
        response0: rise(first + 16),
        response1: rise(first + 24),
        challenge: first + 32,
        challenge0: first + 33,
    }
}

/// What two players bring, and numbers behind it that are not read.
fn parts(first: Places, second: Places) -> Parts {
    let mut parts = core::array::from_fn(|i| 1001 + i as u32);
    parts[..PLACES].copy_from_slice(&first);
    parts[PLACES..2 * PLACES].copy_from_slice(&second);
    parts
}

/// Adds a line for each value.
macro_rules! print {
    ($text:ident: $($value:expr),* $(,)?) => {
        $(writeln!($text, "{:?}", $value).unwrap();)*
    };
}

/// What asking for a sheet's entries answers, and what then stands, row by row, in an array of ones in each byte.
fn entries_over(sheet: &[u8]) -> (u32, Vec<Vec<u32>>) {
    let mut table = [0x0101_0101; ENTRIES];
    let refusal = entries(sheet, &mut table);
    (refusal, table.chunks(PLACES).map(<[u32]>::to_vec).collect())
}

/// The shipped pattern file.
fn shipped() -> [u8; SHIPPED_PATTERNS] {
    let mut file = [0; SHIPPED_PATTERNS];
    assert_eq!(patterns(&mut file).length, SHIPPED_PATTERNS);
    file
}

fn sheets(text: &mut String) {
    let mut file = [238; SHIPPED_PATTERNS + 2];
    print!(text: patterns(&mut file), file);

    let mut buffer = [0; LONGEST_SHEET];
    let made = from_pattern(&shipped(), 5, 23, 11, 5, &[2, 3, 3], &[12, 9], &mut buffer);
    let product = &buffer[..made.length];
    print!(text: made, load(product), entries_over(product));

    let (wide, diagonal) = (wide(), diagonal());
    let encoded = encode(WIDE, &diagonal, &STATEMENT, &mut buffer);
    print!(text: encoded, load(&wide), entries_over(&wide));
    assert_eq!(buffer, wide);
    print!(text:
        encode(Header { rows: 9, ..WIDE }, &diagonal, &STATEMENT, &mut buffer),
        from_pattern(&shipped(), 0, 35, 5, 5, &[], &[12], &mut buffer),
        from_pattern(&file, 0, 35, 5, 5, &[], &[12], &mut buffer),
    );
}

/// Sheets from linear forms: 2 rows, 3 generators and 4 columns, with another form in each.
fn forms(text: &mut String) {
    let coefficients: [u32; 24] = core::array::from_fn(|place| place as u32 * place as u32 % 11);
    let mut sheet = [238; 62];
    let made = linear(23, 11, 5, 2, 4, &[2, 3, 4], &coefficients, &[13, 8], &mut sheet);
    let front = &sheet[..made.length];
    print!(text: made, load(front), entries_over(front), sheet);
    print!(text:
        linear(23, 11, 5, 2, 9, &[2, 3, 4], &coefficients, &[13, 8], &mut sheet),
        linear(23, 11, 5, 2, 4, &[2, 3], &coefficients, &[13, 8], &mut sheet),
        linear(23, 11, 5, 2, 4, &[2, 3, 4], &coefficients[1..], &[13, 8], &mut sheet),
        linear(23, 11, 5, 2, 4, &[2, 3, 4], &coefficients, &[13], &mut sheet),
        linear(23, 7, 5, 2, 4, &[2, 3, 4], &coefficients, &[13, 8], &mut sheet),
        linear(23, 11, 5, 2, 4, &[2, 3, 5], &coefficients, &[13, 8], &mut sheet),
        linear(23, 11, 5, 2, 4, &[2, 3, 4], &coefficients, &[13, 7], &mut sheet),
        linear(23, 11, 5, 2, 4, &[2, 3, 4], &coefficients, &[13, 8], &mut sheet[..59]),
        sheet,
    );
}

fn files(text: &mut String) {
    let wide = wide();
    let mut buffer = [0; 200];
    print!(text:
        empty(1, &mut buffer),
        append(&wide, &mut buffer, 7, &rising_round(101)),
        append(&wide, &mut buffer, 75, &rising_round(201)),
        append(&wide, &mut buffer, 143, &rising_round(301)),
        count(&wide, &buffer[..143]),
        count(&wide, &buffer[..142]),
        part(&wide, &buffer[..143], 1),
        part(&wide, &buffer[..143], 2),
        read(&wide, &buffer[..143], 0),
        read(&wide, &buffer[..143], 1),
        read(&wide, &buffer[..143], 2),
        check(&wide, &buffer[..143], 1),
        check(&wide, &buffer[..143], usize::MAX),
        same_commitment(&wide, &buffer[..143], 1, 1),
        same_commitment(&wide, &buffer[..143], 0, 1),
        same_commitment(&wide, &buffer[..143], 0, usize::MAX),
    );
    let mut narrow = [238; 141];
    print!(text:
        empty(65_538, &mut narrow),
        convert(&wide, &buffer[..143], &mut narrow[..138]),
        convert(&wide, &buffer[..143], &mut narrow),
        narrow,
        read(&wide, &narrow[..139], 1),
        append(&wide, &mut narrow, 139, &Round { challenge: 65_536, ..rising_round(1) }),
        append(&wide, &mut narrow, 139, &Round { challenge: 65_535, ..rising_round(1) }),
        convert(&wide, &narrow[..139], &mut buffer),
        read(&wide, &buffer[..143], 1),
    );
}

fn rounds(text: &mut String) {
    let wide = wide();
    let mut wrong = RESPONSE;
    wrong[5] = 0;
    print!(text:
        judge(&wide, &honest_round(1, RESPONSE)),
        judge(&wide, &honest_round(2, RESPONSE)),
        judge(&wide, &honest_round(1, wrong)),
        judge(&wide, &honest_round(5, RESPONSE)),
        simulate(&wide, 1, &RESPONSE),
    );
    wrong[5] = 11;
    print!(text:
        simulate(&wide, 1, &wrong),
        extract(&wide, &honest_round(1, RESPONSE), &honest_round(0, NONCE)),
        extract(&wide, &honest_round(0, NONCE), &honest_round(1, NONCE)),
    );
}

/// A saved state with its nonce, which `Debug` does not show.
fn saved_text(saved: &Saved) -> String {
    let Saved { nonce, commitment, phase, kept } = saved;
    format!(
        "Saved {{ nonce: {nonce:?}, commitment: {commitment:?}, phase: {phase}, kept: {kept} }}"
    )
}

/// What a session keeps beside its state: of what is the same and follows each other the first, with how many they are.
fn memory_lines(memory: &Memory) -> String {
    let mut text = String::new();
    for run in memory.saved.chunk_by(|saved, next| saved == next) {
        writeln!(text, "{} of {}", run.len(), saved_text(&run[0])).unwrap();
    }
    for run in memory.answered.chunk_by(|listed, next| listed == next) {
        writeln!(text, "{} of {:?}", run.len(), run[0]).unwrap();
    }
    text + &format!("count: {}\n", memory.count)
}

/// Peggy's session, but for its memory.
fn session_text(session: &ProverSession) -> String {
    let ProverSession { nonce, commitment, phase, .. } = session;
    format!("ProverSession {{ nonce: {nonce:?}, commitment: {commitment:?}, phase: {phase} }}")
}

/// What a call on it answers, but for the session's memory.
fn step_line(answer: &ProverAnswer) -> String {
    let ProverAnswer { session, values, refusal } = answer;
    let session = session_text(session);
    format!("ProverAnswer {{ session: {session}, values: {values:?}, refusal: {refusal} }}\n")
}

fn answer_lines(answer: ProverAnswer) -> String {
    step_line(&answer) + &memory_lines(&answer.session.memory)
}

/// What a refused call answers, and whether the session is the given one.
fn refused_lines(answer: ProverAnswer, given: &ProverSession) -> String {
    let same = if answer.session == *given { "the same session" } else { "another session" };
    step_line(&answer) + same + "\n"
}

/// A session of Peggy's whose numbers all differ.
fn odd_prover() -> ProverSession {
    let saved = |i| Saved {
        nonce: rise(1000 + 100 * i),
        commitment: rise(1020 + 100 * i),
        phase: 1040 + 100 * i,
        kept: 1050 + 100 * i,
    };
    let memory = Memory {
        saved: core::array::from_fn(|i| saved(i as u32)),
        answered: core::array::from_fn(|i| Listed { commitment: rise(2000 + 10 * i as u32) }),
        count: 88,
    };
    ProverSession { phase: 77, nonce: rise(401), commitment: rise(501), memory }
}

fn provers(text: &mut String) {
    let (wide, fresh, odd) = (wide(), prover_new(), odd_prover());
    let committed = prover_commit(&wide, fresh, &NONCE);
    text.push_str(&(session_text(&fresh) + "\n" + &memory_lines(&fresh.memory)));
    text.push_str(&answer_lines(committed));
    text.push_str(&answer_lines(prover_drop(committed.session)));
    text.push_str(&answer_lines(prover_respond(&wide, committed.session, 1, &WITNESS)));
    text.push_str(&refused_lines(prover_commit(&wide, odd, &NONCE), &odd));
    text.push_str(&refused_lines(prover_respond(&wide, odd, 1, &WITNESS), &odd));
    text.push_str(&refused_lines(prover_drop(odd), &odd));
    text.push_str(&refused_lines(prover_save(odd, 8), &odd));
    text.push_str(&refused_lines(prover_return(odd, 9), &odd));
    text.push_str(&answer_lines(prover_save(odd, 6)));
    text.push_str(&answer_lines(prover_return(odd, 5)));
}

fn verifiers(text: &mut String) {
    let wide = wide();
    let mut wrong = RESPONSE;
    wrong[5] = 0;
    let holding = || verifier_commitment(&wide, verifier_new(), &COMMITMENT);
    let asked = || verifier_challenge(&wide, holding().session, 1);
    let odd = || VerifierSession { phase: 78, commitment: rise(601), challenge: 609 };
    print!(text:
        verifier_new(),
        holding(),
        asked(),
        verifier_response(&wide, asked().session, &RESPONSE),
        verifier_response(&wide, asked().session, &wrong),
        verifier_commitment(&wide, odd(), &COMMITMENT),
        verifier_challenge(&wide, odd(), 1),
        verifier_response(&wide, odd(), &RESPONSE),
    );
}

fn or_rounds(text: &mut String) {
    let (wide, roots) = (wide(), roots());
    let mut wrong = [or_round(0, 1); 5];
    wrong[0].response0[5] = 2;
    wrong[1].response1[6] = 1;
    wrong[2].challenge0 = 5;
    wrong[3].commitment1[7] = 7;
    wrong[4].response0[4] = 1;
    wrong[4].response1[2] = 1;
    print!(text: or_judge(&wide, &roots, &or_round(0, 1)), or_judge(&roots, &wide, &rising_or_round(1)));
    for round in wrong {
        print!(text: or_judge(&wide, &roots, &round));
    }
    print!(text:
        or_extract(&wide, &roots, &or_round(0, 1), &or_round(0, 3)),
        or_extract(&wide, &roots, &or_round(1, 1), &or_round(1, 3)),
        or_extract(&wide, &roots, &or_round(1, 1), &or_round(0, 3)),
    );
}

fn or_provers(text: &mut String) {
    let (wide, roots) = (wide(), roots());
    let odd = || OrSession {
        nonce: rise(401),
        response: rise(409),
        commitment0: rise(501),
        commitment1: rise(509),
        challenge: 517,
        side: 518,
        phase: 77,
    };
    print!(text:
        or_prover_new(),
        or_committed(0),
        or_committed(u32::MAX),
        or_answered(0, 1),
        or_answered(1, 2),
        or_prover_drop(or_committed(1).session),
        or_prover_commit(&wide, &roots, odd(), 0, &NONCE, 1, &ROOT_RESPONSE),
        or_prover_respond(&wide, &roots, odd(), 1, &ROOT_WITNESS),
        or_prover_drop(odd()),
    );
}

fn teams(text: &mut String) {
    let (wide, roots) = (wide(), roots());
    let images = parts(COMMITMENT, REST);
    let root_images = parts(ROOT_STATEMENT, [1; 8]);
    let commitments = parts(STATEMENT, COMMITMENT);
    let responses = parts(NONCE, RESPONSE);
    let root_responses = parts(ROOT_NONCE, ROOT_RESPONSE);
    print!(text:
        team_commitment(&wide, 2, &images, &commitments),
        team_response(&wide, 2, &images, &responses),
        team_commitment(&roots, 2, &root_images, &root_responses),
        team_response(&roots, 2, &root_images, &root_responses),
        team_commitment(&wide, 1, &images, &commitments),
        team_response(&wide, u32::MAX, &images, &responses),
        team_commitment(&wide, 3, &images, &commitments),
        team_response(&wide, 2, &commitments, &responses),
        team_commitment(&wide, 2, &commitments, &responses),
        team_response(&wide, 2, &commitments, &commitments),
    );
}

/// A watch: of rounds that are the same and follow each other the first, with how many they are; and the sheet's bytes.
fn watch_lines(watch: &Watch) -> String {
    let mut text = format!("length: {}, count: {}\n", watch.length, watch.count);
    for run in watch.rounds.chunk_by(|round, next| round == next) {
        writeln!(text, "{} of {:?}", run.len(), run[0]).unwrap();
    }
    writeln!(text, "{:?}", watch.sheet).unwrap();
    text
}

fn opened_lines(opened: Opened) -> String {
    format!("{}refusal: {}\n", watch_lines(&opened.watch), opened.refusal)
}

fn heard_line(answer: WatchAnswer) -> String {
    let WatchAnswer { witness, back, verdict, .. } = answer;
    format!("witness: {witness:?}, back: {back}, verdict: {verdict:?}\n")
}

/// A watch of the wide sheet that remembers 63 rounds: 62 that differ, and the oldest, which is accepted.
fn full_watch() -> Watch {
    let mut watch = watch_open(&wide()).watch;
    watch.rounds = core::array::from_fn(|i| rising_round(100 * i as u32));
    watch.rounds[62] = honest_round(0, NONCE);
    watch.count = 63;
    watch
}

fn watches(text: &mut String) {
    let (wide, roots, watch) = (wide(), roots(), full_watch());
    for sheet in [&wide[..], &roots, &wide[..LONGEST_SHEET - 1]] {
        text.push_str(&opened_lines(watch_open(sheet)));
    }
    let answer = watch_round(&wide, &watch, &honest_round(1, RESPONSE));
    text.push_str(&(heard_line(answer) + &watch_lines(&answer.watch)));
    text.push_str(&heard_line(watch_round(&wide, &answer.watch, &honest_round(0, NONCE))));
    for challenge in [2, 5] {
        let round = honest_round(challenge, RESPONSE);
        text.push_str(&heard_line(watch_round(&wide, &watch, &round)));
    }
    let mut odd = [watch; 5];
    odd[0].count += 1;
    odd[1].length += 1;
    odd[2].sheet[0] += 1;
    odd[3].sheet[307] += 1;
    odd[4].rounds[62].response[7] += 1;
    for odd in odd {
        let answer = watch_round(&wide, &odd, &honest_round(1, RESPONSE));
        let same = if answer.watch == odd { "the same watch" } else { "another watch" };
        text.push_str(&(heard_line(answer) + same + "\n"));
    }
}

/// A ledger: of lines that are the same and follow each other the first, with how many they are.
fn ledger_lines(ledger: &Ledger) -> String {
    let mut text = format!("count: {}\n", ledger.count);
    for run in ledger.lines.chunk_by(|line, next| line == next) {
        writeln!(text, "{} of {:?}", run.len(), run[0]).unwrap();
    }
    text
}

fn ledger_written_lines(written: LedgerWritten) -> String {
    format!("{}refusal: {}\n", ledger_lines(&written.ledger), written.refusal)
}

/// What the lines share. The order is above K, and is not prime.
const BASE: Base = Base { g: 4, h: 9, modulus: 143, order: 30, challenges: 2 };

/// Entries of all 64 lines, with another number in each field: commitments, then sums, then products.
fn full_entries() -> Entries {
    let entry = |i: u32| Entry {
        kind: 1 + i % 3,
        first: i.saturating_sub(2),
        second: i / 2,
        value: i % 30,
        blinding: (7 * i + 1) % 30,
        nonce: [(i + 2) % 30, (3 * i) % 30, (5 * i + 4) % 30],
        challenge: i / 3 % 2,
    };
    Entries { entries: core::array::from_fn(|i| entry(i as u32)), count: 64 }
}

/// A ledger of 64 lines with numbers that differ where they are not read.
fn full_ledger() -> Ledger {
    let mut ledger = ledger_write(BASE, &full_entries()).ledger;
    for (line, i) in ledger.lines.iter_mut().zip(1000..) {
        let Line { kind, first, second, commitment, .. } = *line;
        match kind {
            lines::COMMITMENT => *line = Line { kind, commitment, ..rising_line(10 * i) },
            lines::SUM => *line = Line { kind, first, second, ..rising_line(10 * i) },
            _ => {}
        }
    }
    ledger
}

/// A line of ten numbers that rise from one.
fn rising_line(first: u32) -> Line {
    Line {
        kind: first,
        first: first + 1,
        second: first + 2,
        commitment: first + 3,
        t: [first + 4, first + 5],
        challenge: first + 6,
        response: [first + 7, first + 8, first + 9],
    }
}

/// What is checked and made over another base, one number of which is changed.
fn other_bases(text: &mut String) {
    let bases = [
        Base { g: 5, ..BASE },
        Base { h: 11, ..BASE },
        Base { modulus: 2, ..BASE },
        Base { order: 1, ..BASE },
        Base { challenges: 3, ..BASE },
    ];
    for base in bases {
        print!(text: ledger_check(base, &full_ledger()));
        text.push_str(&ledger_written_lines(ledger_write(base, &full_entries())));
    }
}

/// One number is changed in each: of a ledger, and of entries.
fn ledgers(text: &mut String) {
    let (entries, ledger) = (full_entries(), full_ledger());
    text.push_str(&ledger_written_lines(ledger_write(BASE, &entries)));
    print!(text: ledger_check(BASE, &ledger), ledger_check(BASE, &Ledger::default()));
    other_bases(text);
    let mut odd = [ledger; 11];
    odd[0].count = 65;
    odd[1].lines[62].kind = 4;
    odd[2].lines[62].first = 62;
    odd[3].lines[62].second = 63;
    odd[4].lines[62].commitment = 0;
    odd[5].lines[62].t[1] = 143;
    odd[6].lines[62].challenge = 2;
    odd[7].lines[62].response[2] = 30;
    odd[8].lines[62].t[0] = 1;
    odd[9].lines[62].challenge ^= 1;
    odd[10].lines[5].response[0] ^= 1;
    for odd in odd {
        print!(text: ledger_check(BASE, &odd));
    }
    let mut odd = [entries; 9];
    odd[0].count = u32::MAX;
    odd[1].entries[63].kind = 0;
    odd[2].entries[62].first = 62;
    odd[3].entries[61].second = 61;
    odd[4].entries[62].challenge = 2;
    odd[5].entries[63].value = 30;
    odd[6].entries[62].blinding = 30;
    odd[7].entries[62].nonce[0] = 30;
    odd[8].entries[62].nonce[2] = 30;
    for odd in odd {
        text.push_str(&ledger_written_lines(ledger_write(BASE, &odd)));
    }
}

/// The length of the marker's text on three files, the text, and two bytes behind it, which stay.
fn mark_over(sheet: &[u8], file: &[u8], level: &[u8]) -> String {
    let mut text = [238; LONGEST_TEXT];
    let length = mark(sheet, file, level, &mut text);
    let marked = std::str::from_utf8(&text[..length]).unwrap();
    format!("{length}\n{marked}{} {}\n", text[length], text[LONGEST_TEXT - 1])
}

/// A file of one round with K = 5 passes at the level 2 and not at 3.
fn marks(text: &mut String) {
    let wide = wide();
    let mut file = [0; 200];
    empty(1, &mut file);
    let used = append(&wide, &mut file, 7, &honest_round(1, RESPONSE)).length;
    for level in [&[2][..], &[3], &[2, 3], &[]] {
        text.push_str(&mark_over(&wide, &file[..used], level));
    }
    let used = append(&wide, &mut file, used, &honest_round(5, RESPONSE)).length;
    text.push_str(&mark_over(&wide, &file[..used], &[2]));
    text.push_str(&mark_over(&[], &[], &[]));
}

/// The length of the reason's line on two files, two bytes behind it, which stay, and the line.
fn reason_over(sheet: &[u8], file: &[u8]) -> String {
    let mut text = [238; LONGEST_REASON];
    let length = reason(sheet, file, &mut text);
    let line = std::str::from_utf8(&text[..length]).unwrap();
    format!("{length} {} {} {line}", text[length], text[LONGEST_REASON - 1])
}

fn reasons(text: &mut String) {
    let wide = wide();
    let mut file = [0; 200];
    let mut wrong = RESPONSE;
    wrong[5] = 0;
    empty(1, &mut file);
    let used = append(&wide, &mut file, 7, &honest_round(1, wrong)).length;
    text.push_str(&reason_over(&wide, &file[..used]));
    text.push_str(&reason_over(&wide, &file[..used - 1]));
    text.push_str(&reason_over(&wide[..LONGEST_SHEET - 2], &file[..used - 1]));
    text.push_str(&reason_over(&[], &file[..used]));
    text.push_str(&reason_over(&wide, &[]));
}

/// The length of the game's text on two files, the text, and two bytes behind it, which stay.
fn game_over(sheet: &[u8], file: &[u8]) -> String {
    let mut text: Box<[u8; LONGEST_GAME]> = vec![238; LONGEST_GAME].try_into().unwrap();
    let length = game(sheet, file, &mut text);
    let lines = std::str::from_utf8(&text[..length]).unwrap();
    format!("{length}\n{lines}{} {}\n", text[length], text[LONGEST_GAME - 1])
}

/// A response has two numbers below 5, and the first leads. The challenge is not below 5. The wide sheet is too large.
fn games(text: &mut String) {
    let (mut sheet, mut file) = ([0; 32], [0; 200]);
    let made = from_pattern(&shipped(), 2, 11, 5, 5, &[3, 9], &[4], &mut sheet);
    let round = Round {
        commitment: [5, 0, 0, 0, 0, 0, 0, 0],
        challenge: 77,
        response: [88, 99, 0, 0, 0, 0, 0, 0],
    };
    empty(1, &mut file);
    text.push_str(&game_over(&sheet, &file[..7]));
    let used = append(&sheet, &mut file, 7, &round).length;
    text.push_str(&game_over(&sheet, &file[..used]));
    text.push_str(&game_over(&sheet, &file[..used - 1]));
    text.push_str(&game_over(&sheet[..made.length - 1], &file[..used]));
    text.push_str(&game_over(&sheet, &[]));
    text.push_str(&game_over(&[], &[]));
    empty(1, &mut file);
    let used = append(&wide(), &mut file, 7, &honest_round(1, RESPONSE)).length;
    text.push_str(&game_over(&wide(), &file[..used]));
}

/// Every slice of every call is empty.
fn empty_slices(text: &mut String) {
    let wide = wide();
    print!(text:
        entries_over(&[]),
        load(&[]),
        encode(WIDE, &diagonal(), &STATEMENT, &mut []),
        patterns(&mut []),
        from_pattern(&[], 0, 35, 5, 5, &[], &[], &mut []),
        from_pattern(&shipped(), 0, 35, 5, 5, &[], &[], &mut []),
        from_pattern(&shipped(), 0, 35, 5, 5, &[], &[2], &mut []),
        linear(23, 11, 5, 2, 4, &[], &[], &[], &mut []),
        linear(23, 11, 5, 2, 4, &STATEMENT[..2], &[], &STATEMENT[..2], &mut []),
        count(&[], &[]),
        count(&wide, &[]),
        check(&wide, &[], 0),
        part(&wide, &[], 0),
        read(&wide, &[], 0),
        same_commitment(&[], &[], 0, 0),
        same_commitment(&wide, &[], 0, 0),
        empty(1, &mut []),
        empty(0, &mut []),
        append(&wide, &mut [], 0, &rising_round(1)),
        append(&wide, &mut [], 7, &rising_round(1)),
        convert(&[], &[], &mut []),
        convert(&wide, &[], &mut []),
        convert(&wide, b"RND\0\x01\0\0", &mut []),
        judge(&[], &rising_round(1)),
        simulate(&[], 0, &RESPONSE),
        extract(&[], &rising_round(1), &rising_round(2)),
    );
    text.push_str(&answer_lines(prover_commit(&[], prover_new(), &NONCE)));
    text.push_str(&answer_lines(prover_respond(&[], prover_new(), 1, &WITNESS)));
    print!(text:
        verifier_commitment(&[], verifier_new(), &COMMITMENT),
        verifier_challenge(&[], verifier_new(), 1),
        verifier_response(&[], verifier_new(), &RESPONSE),
        or_judge(&[], &[], &rising_or_round(1)),
        or_extract(&wide, &[], &rising_or_round(1), &rising_or_round(2)),
        or_prover_commit(&[], &wide, or_prover_new(), 0, &NONCE, 1, &RESPONSE),
        or_prover_respond(&[], &[], or_prover_new(), 1, &WITNESS),
        team_commitment(&[], 2, &[1; PARTS], &[1; PARTS]),
        team_response(&[], 2, &[1; PARTS], &[1; PARTS]),
    );
    let opened = watch_open(&[]);
    text.push_str(&opened_lines(opened));
    text.push_str(&heard_line(watch_round(&[], &opened.watch, &rising_round(1))));
}

const EXPECTED: &str = include_str!("../echo.txt");

#[test]
fn fields_cross_from_rust() {
    let mut text = String::new();
    sheets(&mut text);
    forms(&mut text);
    files(&mut text);
    rounds(&mut text);
    provers(&mut text);
    verifiers(&mut text);
    or_rounds(&mut text);
    or_provers(&mut text);
    teams(&mut text);
    watches(&mut text);
    ledgers(&mut text);
    marks(&mut text);
    reasons(&mut text);
    games(&mut text);
    empty_slices(&mut text);
    assert_eq!(text, EXPECTED);
}

/// The nonces of this session are 401 to 408 and, of the saved states, 1000 to 1707, eight from each hundred.
#[test]
fn no_text_shows_a_nonce() {
    let odd = odd_prover();
    let answer = prover_save(odd, 8);
    assert_eq!(answer.session, odd);
    let nonces = odd.memory.saved.map(|saved| saved.nonce);
    for text in [format!("{odd:?}"), format!("{:?}", odd.memory), format!("{answer:?}")] {
        let shown: Vec<u32> = text
            .split(|c: char| !c.is_ascii_digit())
            .filter_map(|word| word.parse().ok())
            .collect();
        assert!([1020, 1720, 2630].iter().all(|commitment| shown.contains(commitment)));
        for value in nonces.iter().chain([&odd.nonce]).flatten() {
            assert!(!shown.contains(value), "{value} is shown");
        }
    }
}

#[test]
fn fields_cross_from_c() {
    assert_eq!(cc::run("echo.c"), EXPECTED);
}
