//! Round files of version 2, and the turning of each version into the other.

use crate::pages::{PLANS, made, page_a, round};
use dimkhoros::{
    Instance, LONGEST_FILE, LONGEST_FILE_2, LONGEST_REASON, LONGEST_TEXT, MOST_ROUNDS, Refusal,
    Round, RoundFile, RoundWriter, Values, mark, places, reason,
};

/// The bytes of a file of this version with these rounds.
fn file(instance: &Instance, version: u32, rounds: &[Round]) -> Vec<u8> {
    let mut buffer = vec![0; LONGEST_FILE];
    let mut writer = RoundWriter::start(instance, version, &mut buffer).unwrap();
    for round in rounds {
        writer.append(round).unwrap();
    }
    writer.file().bytes().to_vec()
}

/// What converting these bytes gives, in a buffer that just fits, and that one byte fewer is refused.
fn converted(instance: &Instance, bytes: &[u8], length: usize) -> Vec<u8> {
    let file = RoundFile::open(instance, bytes).unwrap();
    let mut buffer = vec![0xee; length + 3];
    assert_eq!(file.convert_into(&mut buffer[..length - 1]).unwrap_err(), Refusal::Buffer);
    assert_eq!(buffer, vec![0xee; length + 3]);
    let result = file.convert_into(&mut buffer[..length]).unwrap();
    assert_eq!((result.count(), result.version()), (file.count(), 3 - file.version()));
    assert_eq!(buffer[length..], [0xee; 3]);
    buffer.truncate(length);
    buffer
}

#[test]
fn a_challenge_has_two_bytes_in_version_2() {
    let bytes = file(&page_a(), 2, &[round(9, 0x1234, 4)]);
    assert_eq!(bytes, b"RND\0\x02\0\x01\0\0\0\x09\x12\x34\0\0\0\x04");
    let page = page_a();
    let opened = RoundFile::open(&page, &bytes).unwrap();
    assert_eq!((opened.version(), opened.count()), (2, 1));
    assert_eq!(opened.read(0), Ok(round(9, 0x1234, 4)));
    assert_eq!(opened.part(0), Ok(&bytes[7..]));
}

#[test]
fn other_versions_are_refused() {
    let page = page_a();
    for version in [0, 3, 256, 65_537, 65_538, u32::MAX] {
        let mut buffer = [0xee; 20];
        let refused = RoundWriter::start(&page, version, &mut buffer).unwrap_err();
        assert_eq!((refused, buffer), (Refusal::File, [0xee; 20]));
        assert_eq!(RoundWriter::start(&page, version, &mut []).unwrap_err(), Refusal::File);
    }
    for version in [[0, 0], [0, 3], [1, 1], [1, 2], [2, 0], [255, 255]] {
        let bytes = [b"RND".as_slice(), &version, &[0, 0]].concat();
        assert_eq!(RoundFile::open(&page, &bytes).unwrap_err(), Refusal::File);
    }
}

#[test]
fn each_version_becomes_the_other() {
    for plan in &PLANS {
        let instance = made(plan).unwrap();
        let values = |k: u32| core::array::from_fn(|i| 1000 * k + i as u32);
        let rounds: Vec<Round> = (1..4)
            .map(|k| Round {
                commitment: values(k),
                challenge: 65_532 + k,
                response: values(2 * k),
            })
            .collect();
        for count in 0..=3 {
            let wide = file(&instance, 1, &rounds[..count]);
            let narrow = file(&instance, 2, &rounds[..count]);
            assert_eq!(wide.len() - narrow.len(), 2 * count);
            assert_eq!(converted(&instance, &wide, narrow.len()), narrow);
            assert_eq!(converted(&instance, &narrow, wide.len()), wide);
        }
    }
}

#[test]
fn the_longest_files_become_each_other() {
    let mut values = Values { statement: [1; 8], entries: [[1; 8]; 8], ..*page_a().values() };
    (values.header.rows, values.header.columns) = (8, 8);
    let instance = Instance::encode(&values).unwrap();
    let rounds: Vec<Round> = (0..MOST_ROUNDS as u32)
        .map(|k| Round { commitment: [k; 8], challenge: 128 * k, response: [k + 2; 8] })
        .collect();
    let (wide, narrow) = (file(&instance, 1, &rounds), file(&instance, 2, &rounds));
    assert_eq!((wide.len(), narrow.len()), (LONGEST_FILE, LONGEST_FILE_2));
    assert_eq!(converted(&instance, &wide, LONGEST_FILE_2), narrow);
    assert_eq!(converted(&instance, &narrow, LONGEST_FILE), wide);
}

/// The texts on a converted file are the original's, but for the offset of a response.
#[test]
fn verdicts_stay() {
    let page = page_a();
    let rounds = [round(9, 3, 4), round(9, 1, 2), round(5, 0, 0), round(9, 11, 4), round(9, 3, 11)];
    let [wide, narrow] = [1, 2].map(|version| file(&page, version, &rounds));
    let marked = |bytes: &[u8]| mark(page.bytes(), bytes, &[7], &mut [0; LONGEST_TEXT]).to_string();
    assert_eq!(marked(&wide), marked(&narrow));
    let words = ["accepted", "rejected 0", "refused 14", "refused 15", "refused 16"];
    for (number, word) in words.into_iter().enumerate() {
        assert!(marked(&narrow).contains(&format!("\n{number} {word}\n")));
    }
    let line = |version: u32, round: Round| {
        let bytes = file(&page, version, &[round]);
        reason(page.bytes(), &bytes, &mut [0; LONGEST_REASON]).to_string()
    };
    for round in &rounds[..4] {
        assert_eq!(line(1, *round), line(2, *round));
    }
    assert_eq!(
        [1, 2].map(|version| line(version, rounds[4])),
        ["refused 16 15\n", "refused 16 13\n"]
    );
}

/// 15 asks here whether 16 bits hold the challenge, wherever the round stands; one from K on is carried over.
#[test]
fn a_challenge_that_16_bits_do_not_hold_is_refused() {
    let page = page_a();
    for place in 0..3 {
        for challenge in [65_536, 65_537, 1 << 31, u32::MAX] {
            let mut rounds = [round(9, 3, 4); 3];
            rounds[place].challenge = challenge;
            let bytes = file(&page, 1, &rounds);
            let opened = RoundFile::open(&page, &bytes).unwrap();
            let mut buffer = [0xee; 50];
            assert_eq!(opened.convert_into(&mut buffer).unwrap_err(), Refusal::Challenge);
            assert_eq!(opened.convert_into(&mut []).unwrap_err(), Refusal::Challenge);
            let mut writer = RoundWriter::start(&page, 2, &mut buffer).unwrap();
            assert_eq!(writer.append(&rounds[place]), Err(Refusal::Challenge));
            assert_eq!(writer.file().bytes(), b"RND\0\x02\0\0");
        }
        let mut rounds = [round(9, 3, 4); 3];
        rounds[place].challenge = 65_535;
        let (wide, narrow) = (file(&page, 1, &rounds), file(&page, 2, &rounds));
        assert_eq!(converted(&page, &wide, narrow.len()), narrow);
    }
}

#[test]
fn a_converted_file_goes_on_in_its_version() {
    let page = page_a();
    for (version, length) in [(1, 17 + 10), (2, 19 + 12)] {
        let bytes = file(&page, version, &[round(9, 3, 4)]);
        let mut buffer = [0; 40];
        let used = RoundFile::open(&page, &bytes).unwrap().convert_into(&mut buffer).unwrap();
        let used = used.bytes().len();
        let mut writer = RoundWriter::resume(&page, &mut buffer, used).unwrap();
        writer.append(&round(9, 1, 1)).unwrap();
        let file = writer.file();
        assert_eq!((file.version(), file.bytes().len()), (3 - version, length));
        assert_eq!(file.read(1), Ok(round(9, 1, 1)));
        assert_eq!(file.same_commitment(0, 1), Ok(true));
        assert_eq!(file.read(0).unwrap().commitment, places([9]));
    }
}
