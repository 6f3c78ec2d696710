//! Stored sessions. C and Rust write the same bytes, each reads what the other writes, and neither takes any other bytes.

use crate::cc;
use crate::pages::page_a;

use dimkhoros::{
    Damaged, Found, Listed, Memory, OrProver, OrProverParts, Pair, Places, Prover, ProverParts,
    ProverPhase, Refusal, STORED_OR_PROVER, STORED_PROVER, STORED_VERIFIER, Saved, Side, Verifier,
    VerifierParts, VerifierPhase, places,
};
use std::fmt::Write;

/// Eight numbers that use all their bits, or zeros.
fn eight(start: u32) -> Places {
    core::array::from_fn(|i| start.wrapping_mul(0x9e37_79b9).rotate_left(4 * i as u32))
}

/// What Peggy's session keeps beside its state: nothing, or numbers that differ, with 61 to 64 answered commitments.
fn memory(start: u32) -> Memory {
    if start == 0 {
        return Memory::default();
    }
    let saved = |i| Saved {
        nonce: eight(start + 10 * i),
        commitment: eight(start + 20 * i),
        phase: (start + i) % 4,
        kept: (start + i) % 2,
    };
    Memory {
        saved: core::array::from_fn(|i| saved(i as u32)),
        answered: core::array::from_fn(|i| Listed { commitment: eight(start + 30 * i as u32) }),
        count: 60 + start,
    }
}

fn peggy(phase: u32, start: u32) -> ProverParts {
    let (nonce, commitment, memory) = (eight(start), eight(3 * start), memory(start));
    ProverParts { phase: ProverPhase::from_number(phase), nonce, commitment, memory }
}

fn vic(phase: u32, start: u32) -> VerifierParts {
    let (commitment, challenge) = (eight(5 * start), eight(7 * start)[0]);
    VerifierParts { phase: VerifierPhase::from_number(phase), commitment, challenge }
}

/// Peggy's session of the OR proof.
fn either(phase: u32, start: u32) -> OrProverParts {
    OrProverParts {
        phase: ProverPhase::from_number(phase),
        side: Side::from_number(start % 2),
        nonce: eight(start),
        challenge: eight(7 * start)[0],
        response: eight(9 * start),
        commitments: [eight(3 * start), eight(5 * start)],
    }
}

/// The states of a session with zeros, and with numbers that use all their bits.
fn cases() -> impl Iterator<Item = (u32, u32)> {
    (0..4).flat_map(|phase| [(phase, 0), (phase, phase + 1)])
}

fn stored_peggy(phase: u32, start: u32) -> [u8; STORED_PROVER] {
    Prover::from_parts(peggy(phase, start)).to_stored()
}

fn stored_vic(phase: u32, start: u32) -> [u8; STORED_VERIFIER] {
    Verifier::from_parts(vic(phase, start)).to_stored()
}

fn stored_either(phase: u32, start: u32) -> [u8; STORED_OR_PROVER] {
    OrProver::from_parts(either(phase, start)).to_stored()
}

fn hex(bytes: &[u8]) -> String {
    bytes.iter().fold(String::new(), |text, byte| text + &format!("{byte:02x}"))
}

fn from_hex(text: &str) -> Vec<u8> {
    let digits = |i| u8::from_str_radix(&text[i..i + 2], 16).unwrap();
    (0..text.len()).step_by(2).map(digits).collect()
}

/// The CRC-32 of IEEE 802.3 as a division of polynomials, the highest power first.
fn remainder(bytes: &[u8]) -> u32 {
    let mut rest = u32::MAX;
    for byte in bytes {
        rest ^= u32::from(byte.reverse_bits()) << 24;
        for _ in 0..8 {
            rest = if rest >> 31 == 1 { rest << 1 ^ 0x04c1_1db7 } else { rest << 1 };
        }
    }
    !rest.reverse_bits()
}

/// Bytes with the check value that belongs to them.
fn checked(mut bytes: Vec<u8>) -> Vec<u8> {
    let check = remainder(&bytes).to_be_bytes();
    bytes.extend(check);
    bytes
}

/// How C prints values, a space before each.
fn spaced(values: &[u32]) -> String {
    values.iter().fold(String::new(), |text, value| text + &format!(" {value}"))
}

/// The same of what Peggy's session keeps beside its state.
fn memory_spaced(memory: &Memory) -> String {
    let saved = |saved: &Saved| {
        spaced(&saved.nonce) + &spaced(&saved.commitment) + &spaced(&[saved.phase, saved.kept])
    };
    let listed = |listed: &Listed| spaced(&listed.commitment);
    memory.saved.iter().map(saved).chain(memory.answered.iter().map(listed)).collect::<String>()
        + &spaced(&[memory.count])
}

/// How many damaged forms C tries of a session of this length: see the program.
fn damaged_forms(length: usize) -> usize {
    let changes = if length > 256 { 8 } else { 255 };
    length * changes + length + 256 + (3000 - length)
}

#[test]
fn the_bytes_are_those_of_the_header() {
    let (phase, places) = ("00000001", |first: &str| format!("{first}{}", "0".repeat(56)));
    let (nonce, commitment) = (places("00000005"), places("00000009"));
    let zeros = "0".repeat(8 * (8 * 18 + 64 * 8 + 1));
    let committed = format!("505256{}{}{nonce}{commitment}{phase}{zeros}84169c2b", "0002", "0a93");
    let (peggy, _) = Prover::new().commit(&page_a(), &dimkhoros::places([5])).unwrap();
    assert_eq!(hex(&peggy.to_stored()), committed);
    let asked =
        format!("565246{}{}{commitment}{}{}8c335ed4", "0001", "0033", "00000003", "00000002");
    let vic = Verifier::new().take_commitment(&page_a(), &dimkhoros::places([9])).unwrap();
    let vic = vic.take_challenge(&page_a(), 3).unwrap();
    assert_eq!(hex(&vic.to_stored()), asked);
    // She knows side 1 of page A beside itself, and simulates side 0 with the challenge 3 and the response 6.
    let [nonce, response, simulated] = ["00000005", "00000006", "0000000d"].map(places);
    let values = [nonce, response, simulated, commitment].concat();
    let either =
        format!("4f5250{}{}{values}{}{}{phase}78850757", "0001", "0097", "00000003", "00000001");
    let first = page_a();
    let pair = Pair::new(&first, &first).unwrap();
    let [nonce, response] = [5, 6].map(|value| dimkhoros::places([value]));
    let (peggy, _) = OrProver::new().commit(&pair, Side::Second, &nonce, 3, &response).unwrap();
    assert_eq!(hex(&peggy.to_stored()), either);
}

#[test]
fn c_and_rust_write_the_same_bytes_and_read_each_other() {
    let (mut input, mut expected) = (String::new(), String::new());
    for (phase, start) in cases() {
        let stored = hex(&stored_peggy(phase, start));
        let ProverParts { nonce, commitment, memory, .. } = peggy(phase, start);
        writeln!(input, "{stored}").unwrap();
        write!(expected, "peggy{}{} {phase}", spaced(&nonce), spaced(&commitment)).unwrap();
        writeln!(expected, "{}", memory_spaced(&memory)).unwrap();
        writeln!(expected, "{stored}\ndamaged {} taken 0", damaged_forms(STORED_PROVER)).unwrap();
        let stored = hex(&stored_vic(phase, start));
        let VerifierParts { commitment, challenge, .. } = vic(phase, start);
        writeln!(input, "{stored}").unwrap();
        writeln!(expected, "vic{} {challenge} {phase}", spaced(&commitment)).unwrap();
        writeln!(expected, "{stored}\ndamaged {} taken 0", damaged_forms(STORED_VERIFIER)).unwrap();
        let stored = hex(&stored_either(phase, start));
        let OrProverParts { side, nonce, challenge, response, commitments, .. } =
            either(phase, start);
        let values = [nonce, response, commitments[0], commitments[1]].concat();
        let side = side.number();
        writeln!(input, "{stored}").unwrap();
        writeln!(expected, "either{} {challenge} {side} {phase}", spaced(&values)).unwrap();
        writeln!(expected, "{stored}\ndamaged {} taken 0", damaged_forms(STORED_OR_PROVER))
            .unwrap();
    }
    let printed = cc::run_on("stored.c", &input);
    assert_eq!(printed, expected);
    // Every third line, from the second, is what C stored.
    let mut stored_by_c = printed.lines().skip(1).step_by(3).map(from_hex);
    for (phase, start) in cases() {
        let read = Prover::from_stored_with_nonce(&stored_by_c.next().unwrap()).unwrap();
        assert!(read.into_parts() == peggy(phase, start));
        let read = Verifier::from_stored(&stored_by_c.next().unwrap()).unwrap();
        assert_eq!(read.into_parts(), vic(phase, start));
        let read = OrProver::from_stored_with_nonce(&stored_by_c.next().unwrap()).unwrap();
        assert!(read.into_parts() == either(phase, start));
    }
}

/// These bytes with the byte at a place changed: to each other value, or in each bit if they are many.
fn changed(stored: &[u8], place: usize) -> impl Iterator<Item = Vec<u8>> {
    let many = stored.len() > 256;
    let changes = (1..=255).filter(move |change: &u8| !many || change.is_power_of_two());
    changes.map(move |change| {
        let mut bytes = stored.to_vec();
        bytes[place] ^= change;
        bytes
    })
}

/// Damaged forms of these bytes: each byte changed, each cut, and each byte or copy behind them.
fn damaged(stored: &[u8]) -> impl Iterator<Item = Vec<u8>> {
    let at = move |place: usize| {
        let forms = [stored[..place].to_vec(), [stored, &stored[..=place]].concat()];
        changed(stored, place).chain(forms)
    };
    (0..stored.len()).flat_map(at).chain((0..=255).map(move |byte| [stored, &[byte]].concat()))
}

#[test]
fn no_damaged_session_is_taken() {
    for (phase, start) in cases() {
        let stored = stored_peggy(phase, start);
        assert!(
            Prover::from_stored_with_nonce(&stored).unwrap().into_parts() == peggy(phase, start)
        );
        assert!(damaged(&stored).all(|bytes| Prover::from_stored_with_nonce(&bytes).is_err()));
        let stored = stored_vic(phase, start);
        assert_eq!(Verifier::from_stored(&stored).unwrap().into_parts(), vic(phase, start));
        assert!(damaged(&stored).all(|bytes| Verifier::from_stored(&bytes).is_err()));
        let stored = stored_either(phase, start);
        assert!(
            OrProver::from_stored_with_nonce(&stored).unwrap().into_parts() == either(phase, start)
        );
        assert!(damaged(&stored).all(|bytes| OrProver::from_stored_with_nonce(&bytes).is_err()));
    }
}

/// Stored bytes in which a number is another, under a check value that is right.
fn with_number(stored: &[u8], number: usize, value: u32) -> Vec<u8> {
    let mut bytes = stored[..stored.len() - 4].to_vec();
    bytes[7 + 4 * number..11 + 4 * number].copy_from_slice(&value.to_be_bytes());
    checked(bytes)
}

/// The numbers of a session that are below a bound, with it: the phases, flags and count of Peggy's, Vic's phase, and side and
/// phase of the OR proof.
fn bounds(length: usize) -> Vec<(usize, u32)> {
    match length {
        STORED_PROVER => {
            let saved = (0..8).flat_map(|name| [(33 + 18 * name, 4), (34 + 18 * name, 2)]);
            saved.chain([(16, 4), (673, 65)]).collect()
        }
        STORED_VERIFIER => vec![(9, 4)],
        _ => vec![(33, 2), (34, 4)],
    }
}

/// Stored sessions of Peggy's, Vic's and the OR proof's.
fn one_of_each() -> [Vec<u8>; 3] {
    [stored_peggy(1, 2).to_vec(), stored_vic(2, 3).to_vec(), stored_either(1, 4).to_vec()]
}

/// Bytes that no session is stored as, under check values that are right: zeros, every byte of mark, version and length changed to
/// every other value, and every number that has a bound at its bound and beyond it.
fn others() -> Vec<Vec<u8>> {
    let lengths = (0..=200).chain([STORED_PROVER]);
    let mut others: Vec<Vec<u8>> = lengths.map(|length| vec![0; length]).collect();
    for stored in one_of_each() {
        let before = &stored[..stored.len() - 4];
        assert_eq!(checked(before.to_vec()), stored);
        for (place, change) in (0..7).flat_map(|place| (1..=255).map(move |change| (place, change)))
        {
            let mut bytes = before.to_vec();
            bytes[place] ^= change;
            others.push(checked(bytes));
        }
        for (number, bound) in bounds(stored.len()) {
            let beyond = [bound, bound + 1, 256, 1 << 16, 1 << 24, u32::MAX];
            others.extend(beyond.map(|value| with_number(&stored, number, value)));
        }
    }
    others
}

/// Version 1 of Peggy's stored form, which had no memory.
#[test]
fn version_1_of_peggys_form_is_damaged() {
    let values = [0; 4 * 17];
    let old = checked([b"PRV\0\x01\0\x4f", &values[..]].concat());
    assert_eq!(old.len(), 79);
    assert_eq!(Prover::from_stored_with_nonce(&old).unwrap_err(), Damaged);
    assert_eq!(Prover::reopen(&old).1, Found::Damaged);
    assert_eq!(cc::run_on("stored.c", &(hex(&old) + "\n")), "refused\n");
}

#[test]
fn numbers_below_their_bounds_are_taken() {
    for stored in one_of_each() {
        for (number, bound) in bounds(stored.len()) {
            for value in 0..bound {
                let bytes = with_number(&stored, number, value);
                let taken = match stored.len() {
                    STORED_PROVER => Prover::from_stored_with_nonce(&bytes).is_ok(),
                    STORED_VERIFIER => Verifier::from_stored(&bytes).is_ok(),
                    _ => OrProver::from_stored_with_nonce(&bytes).is_ok(),
                };
                assert!(taken, "number {number} is {value}");
            }
        }
    }
}

#[test]
fn right_check_values_do_not_make_a_session() {
    let others = others();
    for bytes in &others {
        assert_eq!(Prover::from_stored_with_nonce(bytes).unwrap_err(), Damaged);
        assert_eq!(Verifier::from_stored(bytes).unwrap_err(), Damaged);
        assert_eq!(OrProver::from_stored_with_nonce(bytes).unwrap_err(), Damaged);
    }
    let input = others.iter().fold(String::new(), |text, bytes| text + &hex(bytes) + "\n");
    assert_eq!(cc::run_on("stored.c", &input), "refused\n".repeat(others.len()));
    let (peggy, vic, either) = (stored_peggy(1, 2), stored_vic(2, 3), stored_either(1, 4));
    for bytes in [&peggy[..], &either] {
        assert_eq!(Verifier::from_stored(bytes).unwrap_err(), Damaged);
    }
    for bytes in [&vic[..], &either] {
        assert_eq!(Prover::from_stored_with_nonce(bytes).unwrap_err(), Damaged);
    }
    for bytes in [&peggy[..], &vic] {
        assert_eq!(OrProver::from_stored_with_nonce(bytes).unwrap_err(), Damaged);
    }
}

/// What a session is that was stored in this state and is reopened.
fn reopened(phase: ProverPhase) -> (Found, ProverPhase) {
    match phase {
        ProverPhase::New => (Found::New, ProverPhase::New),
        ProverPhase::Committed => (Found::Committed, ProverPhase::Dropped),
        ProverPhase::Answered => (Found::Answered, ProverPhase::Answered),
        ProverPhase::Dropped => (Found::Dropped, ProverPhase::Dropped),
    }
}

#[test]
fn a_nonce_that_is_found_is_dropped() {
    for (phase, start) in cases() {
        let (read, found) = Prover::reopen(&stored_peggy(phase, start));
        let mut expected = peggy(phase, start);
        let committed = expected.phase == ProverPhase::Committed;
        let after = reopened(expected.phase);
        expected.nonce = if committed { [0; 8] } else { expected.nonce };
        expected.phase = after.1;
        assert_eq!(found, after.0);
        assert!(read.into_parts() == expected);
        let (read, found) = OrProver::reopen(&stored_either(phase, start));
        let parts = read.into_parts();
        assert_eq!((found, parts.phase), reopened(either(phase, start).phase));
        assert_eq!(parts.commitments, either(phase, start).commitments);
        if committed {
            assert_eq!((parts.nonce, parts.response, parts.challenge), ([0; 8], [0; 8], 0));
            assert_eq!(parts.side, Side::First);
        }
    }
}

#[test]
fn damaged_bytes_are_reopened_as_a_new_session() {
    let (new, either) = (Prover::new().to_stored(), OrProver::new().to_stored());
    for (phase, start) in [(1, 2), (2, 3)] {
        for bytes in damaged(&stored_peggy(phase, start)) {
            let (session, found) = Prover::reopen(&bytes);
            assert_eq!((found, session.to_stored()), (Found::Damaged, new));
        }
        for bytes in damaged(&stored_either(phase, start)) {
            let (session, found) = OrProver::reopen(&bytes);
            assert_eq!((found, session.to_stored()), (Found::Damaged, either));
        }
    }
}

#[test]
fn c_finds_what_rust_finds() {
    let mut lines: Vec<Vec<u8>> = others().into_iter().step_by(7).collect();
    for (phase, start) in cases() {
        lines.push(stored_peggy(phase, start).to_vec());
        lines.push(stored_vic(phase, start).to_vec());
        lines.push(stored_either(phase, start).to_vec());
    }
    let (mut input, mut expected) = (String::new(), String::new());
    for bytes in &lines {
        writeln!(input, "{}", hex(bytes)).unwrap();
        let (peggy, found) = Prover::reopen(bytes);
        writeln!(expected, "{} {}", found.number(), hex(&peggy.to_stored())).unwrap();
        let (either, found) = OrProver::reopen(bytes);
        writeln!(expected, "{} {}", found.number(), hex(&either.to_stored())).unwrap();
    }
    let printed = cc::run_on("reopen.c", &input);
    assert!(printed == expected, "C and Rust find different sessions");
    for number in 0..5 {
        assert!(expected.contains(&format!("\n{number} ")), "nothing is found as {number}");
    }
}

/// The accident of document 00: an old copy of the file comes back, and is asked a second challenge.
#[test]
fn an_old_copy_answers_no_second_challenge() {
    let a = page_a();
    let (peggy, _) = Prover::new().commit(&a, &places([5])).unwrap();
    let copy = peggy.to_stored();
    assert_eq!(peggy.respond(&a, 3, &places([7])).unwrap().1, places([4]));
    let (old, _) = Prover::reopen(&copy);
    assert_eq!(old.respond(&a, 1, &places([7])).unwrap_err().refusal, Refusal::Session);
    let pair = Pair::new(&a, &a).unwrap();
    let drawn = (places([5]), 3, places([6]));
    let (peggy, _) =
        OrProver::new().commit(&pair, Side::First, &drawn.0, drawn.1, &drawn.2).unwrap();
    let copy = peggy.to_stored();
    assert!(peggy.respond(&pair, 3, &places([7])).is_ok());
    let (old, _) = OrProver::reopen(&copy);
    assert_eq!(old.respond(&pair, 1, &places([7])).unwrap_err().refusal, Refusal::Session);
}

#[test]
fn a_session_that_is_read_with_its_nonce_goes_on() {
    let a = page_a();
    let (peggy, _) = Prover::new().commit(&a, &places([5])).unwrap();
    let peggy = Prover::from_stored_with_nonce(&peggy.to_stored()).unwrap();
    assert_eq!(peggy.respond(&a, 3, &places([7])).unwrap().1, places([4]));
}
