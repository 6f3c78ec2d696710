//! Each refusal is given under its number.

use crate::pages::{MAURER, SCHNORR, made, page_a, round};
use dimkhoros::{
    Base, Entries, Forms, Instance, Ledger, Line, LinearPlan, Memory, Pair, Patterns, Plan, Prover,
    ProverParts, Refusal, RoundFile, RoundWriter, Team, places,
};

/// What page A's sheet is refused with once a byte of it is changed.
fn changed(place: usize, byte: u8) -> Refusal {
    let mut sheet = page_a().bytes().to_vec();
    sheet[place] = byte;
    Instance::load(&sheet).unwrap_err()
}

/// What page A's sheet is refused with once a byte is added.
fn longer() -> Refusal {
    let sheet = [page_a().bytes(), &[0]].concat();
    Instance::load(&sheet).unwrap_err()
}

/// What a response by a wrong witness is refused with.
fn wrong_witness() -> Refusal {
    let (peggy, _) = Prover::new().commit(&page_a(), &places([5])).unwrap();
    peggy.respond(&page_a(), 3, &places([8])).unwrap_err().refusal
}

/// What a response is refused with after a return to the committed session that has answered.
fn answered_again() -> Refusal {
    let (peggy, _) = Prover::new().commit(&page_a(), &places([5])).unwrap();
    let (peggy, _) = peggy.save(0).unwrap().respond(&page_a(), 3, &places([7])).unwrap();
    peggy.return_to(0).unwrap().respond(&page_a(), 1, &places([7])).unwrap_err().refusal
}

/// What a response is refused with if 64 commitments are listed.
fn full_list() -> Refusal {
    let (peggy, _) = Prover::new().commit(&page_a(), &places([5])).unwrap();
    let memory = Memory { count: 64, ..Memory::default() };
    let peggy = Prover::from_parts(ProverParts { memory, ..peggy.into_parts() });
    peggy.respond(&page_a(), 3, &places([7])).unwrap_err().refusal
}

/// What page A's sheet is refused with beside one of another challenge count.
fn other_count() -> Refusal {
    let other = made(&Plan { challenges: 5, ..SCHNORR }).unwrap();
    Pair::new(&page_a(), &other).unwrap_err()
}

/// 25 is a number of the marker's text alone and 31 one of the game's, and no call answers them.
#[test]
fn every_number_is_given() {
    let a = page_a();
    let first = round(9, 3, 4);
    let file = b"RND\x00\x01\x00\x00";
    let base = Base { g: 2, h: 3, modulus: 23, order: 11, challenges: 11 };
    let given = [
        made(&Plan { pattern: 257, ..SCHNORR }).unwrap_err(),
        changed(0, b'h'),
        changed(4, 2),
        changed(5, 3),
        changed(9, 2),
        changed(13, 1),
        changed(18, 9),
        changed(17, 12),
        longer(),
        changed(23, 5),
        changed(27, 5),
        RoundFile::open(&a, b"RND").unwrap_err(),
        RoundFile::open(&a, file).unwrap().read(65536).unwrap_err(),
        a.judge(&round(5, 3, 4)).unwrap_err(),
        a.judge(&round(9, 11, 4)).unwrap_err(),
        a.judge(&round(9, 3, 11)).unwrap_err(),
        wrong_witness(),
        a.extract(&first, &round(8, 1, 1)).unwrap_err(),
        a.extract(&first, &first).unwrap_err(),
        a.extract(&first, &round(9, 1, 2)).unwrap_err(),
        Prover::new().respond(&a, 3, &places([7])).unwrap_err().refusal,
        RoundWriter::start(&a, 1, &mut [0; 6]).unwrap_err(),
        Patterns::load(b"PAT\x00\x01\x00").unwrap_err(),
        Patterns::load(b"PAT\x00\x01\x01\x01\x01\x01\x00").unwrap_err(),
        Refusal::Level,
        other_count(),
        Team::new(&a, &[places([13])]).unwrap_err(),
        Team::new(&a, &[places([8]); 2]).unwrap_err(),
        Instance::from_forms(&LinearPlan { statement: &[1], ..MAURER }).unwrap_err(),
        Instance::from_forms(&LinearPlan { forms: Forms::of(&[[[11; 4]; 3]; 2]), ..MAURER })
            .unwrap_err(),
        Refusal::GameSize,
        answered_again(),
        full_list(),
        Prover::new().save(8).unwrap_err().refusal,
        Ledger::from_lines(&base, &[Line::Unknown { kind: 4 }]).unwrap().check().unwrap_err(),
        Entries::new().sum(0, 0).unwrap_err(),
        Ledger::from_lines(&base, &[Line::Sum { first: 0, second: 0 }; 65]).unwrap_err(),
    ];
    assert_eq!(Refusal::from_number(given.len() as u32 + 1), None);
    for (number, refusal) in (1..).zip(given) {
        assert_eq!(refusal.number(), number, "{refusal}");
        assert_eq!(Refusal::from_number(number), Some(refusal));
        assert_eq!(refusal.to_string(), format!("refusal {number}: {}", refusal.sentence()));
        let hard = ["another than", "has to", "have to", "where", "are no ", "is no "];
        assert!(!hard.iter().any(|hard| refusal.sentence().contains(hard)), "{refusal}");
    }
}

#[test]
fn the_number_that_stands_first_is_given() {
    let plan = Plan { modulus: 2, order: 1, challenges: 1, ..SCHNORR };
    assert_eq!(made(&plan), Err(Refusal::Modulus));
    assert_eq!(page_a().judge(&round(5, 11, 11)), Err(Refusal::Commitment));
}
