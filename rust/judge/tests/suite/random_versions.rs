//! Files of both versions on random sheets, and the converter on random bytes.

use judge::*;

use crate::naive::*;
use crate::random::{bytes, small};
use crate::tools::*;

/// The words of so many rounds. Most rounds are accepted, and the others have
/// one word anew, now and then a challenge above 65,535.
fn words(shifts: &mut Shifts, bytes: &[u8], sheet: &Sheet, count: u16) -> Vec<u32> {
    let (s, n) = (sheet.rows as usize, sheet.columns as usize);
    let mut words = Vec::new();
    for _ in 0..count {
        let c = shifts.below(u64::from(sheet.challenges)) as u32;
        let r = shifts.picks(&slots(sheet));
        let t = simulate(bytes, c, &r).unwrap();
        let mut record = [&t[..s], &[c], &r[..n]].concat();
        let place = shifts.below(record.len() as u64) as usize;
        match shifts.below(8) {
            0 => record[place] = shifts.pick(&elements(sheet)),
            1 => record[place] = shifts.below(70_000) as u32,
            2 => record[s] = 65_530 + shifts.below(8) as u32,
            _ => {}
        }
        words.extend(record);
    }
    words
}

/// The file in its other version, from a buffer that just fits or is longer.
fn converted(shifts: &mut Shifts, sheet: &[u8], file: &[u8], length: usize) -> Vec<u8> {
    let mut buffer = vec![0xAA; length + shifts.below(4) as usize];
    assert_eq!(convert(sheet, file, &mut buffer), Ok(length));
    assert!(buffer[length..].iter().all(|byte| *byte == 0xAA));
    buffer.truncate(length);
    buffer
}

#[test]
fn random_files_are_the_same_in_both_versions() {
    let mut shifts = Shifts(0x5EED_1602_5EED_1602);
    let mut met = [0; 2];
    for _ in 0..3000 {
        let (sheet, values) = small(&mut shifts);
        let (s, n) = (values.rows as usize, values.columns as usize);
        let rounds = shifts.below(6) as u16;
        let words = words(&mut shifts, &sheet, &values, rounds);
        let first = file(rounds, &words);
        let too_wide = words.chunks(s + 1 + n).any(|record| record[s] > 65_535);
        met[usize::from(too_wide)] += 1;
        if too_wide {
            let mut buffer = vec![0xAA; shifts.below(2 * first.len() as u64) as usize];
            let before = buffer.clone();
            assert_eq!(convert(&sheet, &first, &mut buffer), Err(15));
            assert_eq!(buffer, before);
            continue;
        }
        let second = narrow(rounds, (s, n), &words);
        let (long, short) = (first.len(), second.len());
        assert_eq!(converted(&mut shifts, &sheet, &first, short), second);
        assert_eq!(converted(&mut shifts, &sheet, &second, long), first);
        for (from, to) in [(&first, short), (&second, long)] {
            let mut buffer = vec![0xAA; shifts.below(to as u64) as usize];
            let before = buffer.clone();
            assert_eq!(convert(&sheet, from, &mut buffer), Err(22));
            assert_eq!(buffer, before);
        }
        let w = 1 + shifts.below(64) as u8;
        let text = marker(&sheet, &first, &[w]);
        assert_eq!(marker(&sheet, &second, &[w]), text);
        assert_eq!(count(&sheet, &first), count(&sheet, &second));
        for number in 0..=u64::from(rounds) {
            let [one, other] = [&first, &second].map(|file| read(&sheet, file, number));
            assert_eq!(one, other);
            let [one, other] =
                [&first, &second].map(|file| same_commitment(&sheet, file, 0, number));
            assert_eq!(one, other);
        }
    }
    assert!(met[0] > 1000 && met[1] > 100);
}

#[test]
fn random_rounds_are_added_in_either_version() {
    let mut shifts = Shifts(0x5EED_0216_5EED_0216);
    let mut met = [0; 2];
    for _ in 0..3000 {
        let (sheet, values) = small(&mut shifts);
        let (s, n) = (values.rows as usize, values.columns as usize);
        let mut all = Vec::new();
        let mut rounds = 0;
        let mut buffers = [[0xAA; 400]; 2];
        let mut used = [1, 2].map(|version| empty(version, &mut buffers[version as usize - 1]));
        for _ in 0..4 {
            let next = Round {
                commitment: shifts.edges(),
                challenge: shifts.below(80_000) as u32,
                response: shifts.edges(),
            };
            let narrow = next.challenge <= 65_535;
            met[usize::from(narrow)] += 1;
            let start = used[1].unwrap() as u64;
            let second = append(&sheet, &mut buffers[1], start, &next);
            if !narrow {
                assert_eq!(second, Err(15));
                continue;
            }
            used[1] = second.map(|length| length as usize);
            let start = used[0].unwrap() as u64;
            let first = append(&sheet, &mut buffers[0], start, &next);
            used[0] = first.map(|length| length as usize);
            all.extend(&next.commitment[..s]);
            all.push(next.challenge);
            all.extend(&next.response[..n]);
            rounds += 1;
        }
        let expected = [file(rounds, &all), narrow(rounds, (s, n), &all)];
        for (version, expected) in expected.into_iter().enumerate() {
            let length = used[version].unwrap();
            assert_eq!(buffers[version][..length], expected);
            assert!(buffers[version][length..].iter().all(|byte| *byte == 0xAA));
        }
    }
    assert!(met[0] > 1000 && met[1] > 1000);
}

#[test]
fn any_bytes_are_converted_as_the_count_says() {
    let mut shifts = Shifts(0x7A1E_1602_7A1E_1602);
    let mut met = [0; 3];
    for _ in 0..30_000 {
        // The files that read are mostly for one row and one column.
        let sheet = match shifts.below(3) {
            0 => page_a(),
            1 => page_g(),
            _ => bytes(&mut shifts),
        };
        let file = bytes(&mut shifts);
        let mut buffer = [0xAA; 200];
        let answer = convert(&sheet, &file, &mut buffer);
        let kind = match (count(&sheet, &file), answer) {
            (Err(number), _) => {
                assert_eq!(answer, Err(number));
                0
            }
            (Ok(rounds), Ok(length)) => {
                assert_eq!(count(&sheet, &buffer[..length]), Ok(rounds));
                let mut back = [0xAA; 200];
                let again = convert(&sheet, &buffer[..length], &mut back);
                assert_eq!(again, Ok(file.len()));
                assert_eq!(back[..file.len()], file);
                1
            }
            (Ok(rounds), Err(number)) => {
                assert_eq!((number, file[4]), (15, 1));
                let challenges =
                    (0..rounds).map(|n| read(&sheet, &file, n.into()).unwrap().challenge);
                assert!(challenges.into_iter().any(|challenge| challenge > 65_535));
                2
            }
        };
        assert!(kind == 1 || buffer == [0xAA; 200]);
        met[kind] += 1;
    }
    assert!(met.iter().all(|times| *times > 100), "{met:?}");
}
