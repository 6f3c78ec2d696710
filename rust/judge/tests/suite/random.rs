//! Random sheets against the slow rules, and random bytes and numbers.

use judge::*;

use crate::naive::*;
use crate::tools::*;

/// A random small sheet that loads, with its bytes.
pub fn small(shifts: &mut Shifts) -> (Vec<u8>, Sheet) {
    let kind = 1 + shifts.below(2) as u32;
    let modulus = 3 + shifts.below(80) as u32;
    let order = 2 + shifts.below(40) as u32;
    let most = (2..=order).find(|d| order % *d == 0).unwrap();
    let rows = 1 + shifts.below(8) as u32;
    let columns = if kind == 1 { 1 + shifts.below(8) as u32 } else { rows };
    let mut sheet = Sheet {
        kind,
        modulus,
        order,
        challenges: 2 + shifts.below(u64::from(most) - 1) as u32,
        rows,
        columns,
        entries: [[0; 8]; 8],
        statement: [0; 8],
    };
    let elements = elements(&sheet);
    for i in 0..rows as usize {
        for j in 0..columns as usize {
            if kind == 1 {
                sheet.entries[i][j] = shifts.pick(&elements);
            }
        }
        sheet.statement[i] = shifts.pick(&elements);
    }
    if shifts.below(4) > 0 {
        let x = shifts.picks(&slots(&sheet));
        sheet.statement = slow_image(&sheet, &x);
    }
    let mut bytes = vec![0; 400];
    let length = encode(&sheet, &mut bytes).unwrap();
    bytes.truncate(length);
    assert_eq!(load(&bytes), Ok(sheet.clone()));
    (bytes, sheet)
}

#[test]
fn random_sheets_follow_the_slow_rules() {
    let mut shifts = Shifts(0x0BAD_5EED_0BAD_5EED);
    let mut accepted = 0;
    for _ in 0..3000 {
        let (bytes, sheet) = small(&mut shifts);
        let (s, n) = (sheet.rows as usize, sheet.columns as usize);
        let elements = elements(&sheet);
        let slots = slots(&sheet);
        let c = shifts.below(u64::from(sheet.challenges)) as u32;
        let r = shifts.picks(&slots);
        let t = simulate(&bytes, c, &r).unwrap();
        assert!(t[s..].iter().all(|value| *value == 0));
        assert_eq!(slow_rows(&sheet, &t, c, &r), [false; 8]);
        assert_eq!(judge(&bytes, &round(&t, c, &r)), Verdict::Accepted);
        // Up to three values of the commitment are picked anew.
        let mut other = t;
        for _ in 0..1 + shifts.below(3) {
            other[shifts.below(s as u64) as usize] = shifts.pick(&elements);
        }
        let expected = slow_verdict(&sheet, &other, c, &r);
        assert_eq!(judge(&bytes, &round(&other, c, &r)), expected);
        if expected == Verdict::Accepted {
            accepted += 1;
        }
        // A nonce and its image.
        let k = shifts.picks(&slots);
        let (image, session) = commit(&bytes, Prover::new(), &k);
        assert_eq!(image, Ok(slow_image(&sheet, &k)));
        // A random witness, which may be none.
        let x = shifts.picks(&slots);
        let (answer, _) = respond(&bytes, session, c, &x);
        if slow_image(&sheet, &x) == sheet.statement {
            let answer = answer.unwrap();
            assert!(answer[n..].iter().all(|value| *value == 0));
            let made = round(&image.unwrap(), c, &answer);
            assert_eq!(judge(&bytes, &made), Verdict::Accepted);
        } else {
            assert_eq!(answer, Err(17));
        }
    }
    assert!(accepted > 0);
}

#[test]
fn random_runs_extract_a_witness() {
    let mut shifts = Shifts(0x0123_4567_89AB_CDEF);
    for _ in 0..2000 {
        let (_, mut sheet) = small(&mut shifts);
        let slots = slots(&sheet);
        let x = shifts.picks(&slots);
        sheet.statement = slow_image(&sheet, &x);
        let mut bytes = vec![0; 400];
        let length = encode(&sheet, &mut bytes).unwrap();
        bytes.truncate(length);
        let k = shifts.picks(&slots);
        let c = shifts.below(u64::from(sheet.challenges)) as u32;
        let step = 1 + shifts.below(u64::from(sheet.challenges) - 1) as u32;
        let d = (c + step) % sheet.challenges;
        let [first, second] = [c, d].map(|challenge| {
            let (t, session) = commit(&bytes, Prover::new(), &k);
            let (r, _) = respond(&bytes, session, challenge, &x);
            round(&t.unwrap(), challenge, &r.unwrap())
        });
        let found = extract(&bytes, &first, &second).unwrap();
        assert_eq!(slow_image(&sheet, &found), sheet.statement);
        assert_eq!(extract(&bytes, &second, &first), Ok(found));
        if sheet.kind == 1 {
            // The formula again, with b found by trying.
            let q = i64::from(sheet.order);
            let away = i64::from(c) - i64::from(d);
            let b = (0..q).find(|b| (away * b - 1) % q == 0).unwrap();
            for (j, slot) in found.iter().enumerate().take(sheet.columns as usize) {
                let gap = i64::from(first.response[j]) - i64::from(second.response[j]);
                assert_eq!(i64::from(*slot), (b * gap).rem_euclid(q));
            }
        }
    }
}

/// Random bytes: none, a few, or a sheet or file with some bytes changed.
pub fn bytes(shifts: &mut Shifts) -> Vec<u8> {
    let mut bytes = match shifts.below(7) {
        0 => Vec::new(),
        6 => {
            let [t, c, r] = [shifts.edge(), shifts.edge() >> 16, shifts.edge()];
            narrow(shifts.below(3) as u16, (1, 1), &[t, c, r, r, c, t])
        }
        1 => (0..shifts.below(90)).map(|_| shifts.word() as u8).collect(),
        2 => file(shifts.below(4) as u16, &shifts.edges()[..6]),
        3 => page_g(),
        4 => page_a(),
        _ => small(shifts).0,
    };
    for _ in 0..shifts.below(4) {
        let value = shifts.edge() as u8;
        match shifts.below(5) {
            0 => bytes.push(value),
            1 => drop(bytes.pop()),
            _ if bytes.is_empty() => {}
            _ => {
                let at = shifts.below(bytes.len() as u64) as usize;
                bytes[at] = value;
            }
        }
    }
    bytes
}

fn any_round(shifts: &mut Shifts) -> Round {
    Round { commitment: shifts.edges(), challenge: shifts.edge(), response: shifts.edges() }
}

/// The part and the values of a round are refused as the check says.
fn try_files(sheet: &[u8], file: &[u8], number: u64) {
    let refusal = check(sheet, file, number);
    assert_eq!(part(sheet, file, number).is_empty(), refusal != 0);
    assert_eq!(read(sheet, file, number).err().unwrap_or(0), refusal);
    let _ = count(sheet, file);
    let text = marker(sheet, file, &[1]);
    assert!(text.ends_with('\n'));
    let line = reason(sheet, file);
    assert!(line.starts_with(&reason_start(&text)), "{text} {line}");
    assert_eq!(line.find('\n'), Some(line.len() - 1));
    if line.starts_with("rejected ") {
        // The reason has two values after each row, and the marker none.
        let words: Vec<&str> = line.split_whitespace().skip(1).collect();
        let rows: Vec<&str> = words.iter().copied().step_by(3).collect();
        assert_eq!(words.len(), 3 * rows.len());
        let marked = format!("\n0 rejected {}\n", rows.join(" "));
        assert!(text.contains(&marked), "{text} {line}");
    }
}

/// How the reason's line must start beside this text of the marker.
fn reason_start(text: &str) -> String {
    let (first, rest) = text.split_once('\n').unwrap();
    match first.split_once(' ').unwrap() {
        ("rounds", "0") => String::from("refused 13 "),
        ("rounds", _) if rest.starts_with("0 accepted\n") => String::from("accepted\n"),
        ("rounds", _) if rest.starts_with("0 rejected ") => String::from("rejected "),
        ("rounds", _) => format!("{} ", &rest[2..rest.find('\n').unwrap()]),
        (_, number) => format!("refused {number} "),
    }
}

/// Any level bytes change the marker's text in its last line only, or make it
/// `level 25` where neither sheet nor file is refused.
fn try_level(sheet: &[u8], file: &[u8], level: &[u8]) {
    let easy = marker(sheet, file, &[1]);
    let text = marker(sheet, file, level);
    if !easy.starts_with("rounds ") {
        assert_eq!(text, easy);
    } else if level.len() != 1 || level[0] < 1 || level[0] > 64 {
        assert_eq!(text, "level 25\n");
    } else {
        // Both last lines have five bytes.
        assert_eq!(text[..text.len() - 5], easy[..easy.len() - 5]);
        assert!(text.ends_with("\nfail\n") || text == easy);
    }
}

fn try_rounds(sheet: &[u8], first: &Round, second: &Round) {
    let _ = as_result(judge(sheet, first));
    let _ = simulate(sheet, first.challenge % 7, &first.response);
    let _ = extract(sheet, first, second);
}

/// Asserts that a refused call leaves the buffer that it is lent.
fn try_writer(before: &[u8], write: impl FnOnce(&mut [u8]) -> bool) {
    let mut buffer = before.to_vec();
    let refused = write(&mut buffer);
    assert!(!refused || buffer == before);
}

fn try_file_writers(shifts: &mut Shifts, sheet: &[u8], before: &[u8], long: u64, round: &Round) {
    let used = if shifts.below(3) == 0 { long } else { shifts.below(before.len() as u64 + 2) };
    try_writer(before, |buffer| append(sheet, buffer, used, round).is_err());
    try_writer(before, |buffer| empty(long, buffer).is_err());
    try_writer(before, |buffer| empty(long % 4, buffer).is_err());
    let file = bytes(shifts);
    try_writer(before, |buffer| convert(sheet, &file, buffer).is_err());
}

fn try_sheet_writers(shifts: &mut Shifts, before: &[u8], long: u64) {
    let values: Vec<u32> = (0..shifts.below(5)).map(|_| shifts.edge()).collect();
    let statement: Vec<u32> = (0..shifts.below(4)).map(|_| shifts.edge()).collect();
    let (m, l, k) = (shifts.edge(), shifts.edge(), shifts.edge());
    let made = |pattern, buffer: &mut [u8]| make(pattern, m, l, k, &values, &statement, buffer);
    try_writer(before, |buffer| made(long % 9, buffer).is_err());
    assert_eq!(made(long | 8, &mut before.to_vec()), Err(1));
    try_pattern_files(shifts, before, |file, number, buffer| {
        pattern_file::make(file, number, m, l, k, &values, &statement, buffer)
    });
    let any = Sheet {
        kind: shifts.below(4) as u32,
        modulus: m,
        order: l,
        challenges: k,
        rows: shifts.below(10) as u32,
        columns: shifts.edge(),
        entries: std::array::from_fn(|_| shifts.edges()),
        statement: shifts.edges(),
    };
    try_writer(before, |buffer| encode(&any, buffer).is_err());
}

/// The maker over the shipped file, often with some of its bytes changed.
fn try_pattern_files(
    shifts: &mut Shifts,
    before: &[u8],
    made: impl Fn(&[u8], u32, &mut [u8]) -> Written,
) {
    let mut file = pattern_file::SHIPPED.to_vec();
    for _ in 0..shifts.below(3) {
        file[shifts.below(34) as usize] = shifts.edge() as u8;
    }
    let number = shifts.edge() % 40;
    try_writer(before, |buffer| made(&file, number, buffer).is_err());
    file.truncate(shifts.below(34) as usize);
    try_writer(before, |buffer| made(&file, number, buffer).is_err());
    // The bytes in the buffer have another mark.
    assert_eq!(made(before, number, &mut before.to_vec()), Err(23));
}

/// Any state that could be saved.
fn any_state(shifts: &mut Shifts) -> Saved {
    Saved {
        phase: [
            ProverPhase::New,
            ProverPhase::Committed,
            ProverPhase::Answered,
            ProverPhase::Dropped,
        ][shifts.below(4) as usize],
        nonce: shifts.edges(),
        commitment: shifts.edges(),
    }
}

/// A refused call hands the prover's session back, and no other does.
fn try_prover(shifts: &mut Shifts, sheet: &[u8], challenge: u32, slots: &[u32; 8]) {
    let state = any_state(shifts);
    let prover = Prover {
        phase: state.phase,
        nonce: state.nonce,
        commitment: state.commitment,
        saved: std::array::from_fn(|_| match shifts.below(2) {
            0 => None,
            _ => Some(any_state(shifts)),
        }),
        answered: std::array::from_fn(|_| shifts.edges()),
        count: match shifts.below(2) {
            0 => shifts.next(),
            _ => shifts.below(70),
        },
    };
    let (answer, back) = commit(sheet, prover.clone(), slots);
    assert_eq!(answer.is_err(), back == prover);
    let (answer, back) = respond(sheet, prover.clone(), challenge, slots);
    assert_eq!(answer.is_err(), back == prover);
    let (answer, back) = drop_session(prover.clone());
    assert_eq!(answer.is_err(), back == prover);
    let name = match shifts.below(3) {
        0 => shifts.next(),
        _ => shifts.below(10),
    };
    let (answer, back) = save(prover.clone(), name);
    assert_eq!(answer.is_err(), back == prover);
    let (answer, back) = return_to(prover.clone(), name);
    assert_eq!(answer.is_err(), back == prover);
}

/// A refused call hands the verifier's session back, and no other does.
fn try_verifier(shifts: &mut Shifts, sheet: &[u8], challenge: u32, round: &Round) {
    let verifier = Verifier {
        phase: [
            VerifierPhase::Waiting,
            VerifierPhase::Holding,
            VerifierPhase::Asked,
            VerifierPhase::Judged,
        ][shifts.below(4) as usize],
        commitment: shifts.edges(),
        challenge: shifts.edge(),
    };
    let (answer, back) = take_commitment(sheet, verifier.clone(), &round.commitment);
    assert_eq!(answer.is_err(), back == verifier);
    let (answer, back) = take_challenge(sheet, verifier.clone(), challenge);
    assert_eq!(answer.is_err(), back == verifier);
    let (answer, back) = take_response(sheet, verifier.clone(), &round.response);
    assert_eq!(as_result(answer).is_err(), back == verifier);
}

#[test]
fn no_call_panics_and_refused_calls_change_nothing() {
    let mut shifts = Shifts(0xFEDC_BA98_7654_3211);
    let mut loaded = 0;
    for _ in 0..30_000 {
        let sheet = bytes(&mut shifts);
        let file = bytes(&mut shifts);
        let long = shifts.next();
        let number = if shifts.below(2) == 0 { long % 5 } else { long };
        loaded += u32::from(load(&sheet).is_ok());
        try_files(&sheet, &file, number);
        let level = long.to_be_bytes();
        try_level(&sheet, &file, &level[..shifts.below(4) as usize]);
        let (first, second) = (any_round(&mut shifts), any_round(&mut shifts));
        try_rounds(&sheet, &first, &second);
        let before = bytes(&mut shifts);
        try_file_writers(&mut shifts, &sheet, &before, long, &first);
        try_sheet_writers(&mut shifts, &before, long);
        try_prover(&mut shifts, &sheet, number as u32, &first.response);
        try_verifier(&mut shifts, &sheet, number as u32, &first);
    }
    assert!(loaded > 1000);
}
