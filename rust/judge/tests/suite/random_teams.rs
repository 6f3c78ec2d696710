//! Random teams against the slow rules, and random bytes and numbers.

use judge::*;

use crate::naive::*;
use crate::random::{bytes, small};
use crate::tools::*;

type Rows = [[u32; 8]; 8];

/// A sheet's bytes with another statement.
fn stated(sheet: &Sheet, z: &[u32; 8]) -> Vec<u8> {
    let mut other = sheet.clone();
    other.statement = *z;
    let mut bytes = vec![0; 400];
    let length = encode(&other, &mut bytes).unwrap();
    bytes.truncate(length);
    bytes
}

/// A team whose players made their rounds for one challenge.
struct Team {
    sheet: Sheet,
    count: usize,
    /// The joined witness and the joined nonce.
    witness: [u32; 8],
    nonce: [u32; 8],
    challenge: u32,
    images: Rows,
    commitments: Rows,
    responses: Rows,
}

fn team(shifts: &mut Shifts) -> Team {
    let (_, sheet) = small(shifts);
    let count = 2 + shifts.below(7) as usize;
    let slots = slots(&sheet);
    let challenge = shifts.below(u64::from(sheet.challenges)) as u32;
    let [parts, nonces] = [0; 2].map(|_| -> Rows { std::array::from_fn(|_| shifts.picks(&slots)) });
    let mut team = Team {
        witness: slow_joined(&sheet, &parts[..count]),
        nonce: slow_joined(&sheet, &nonces[..count]),
        count,
        challenge,
        images: [[99; 8]; 8],
        commitments: [[98; 8]; 8],
        responses: [[97; 8]; 8],
        sheet,
    };
    for player in 0..count {
        team.images[player] = slow_image(&team.sheet, &parts[player]);
        let bytes = stated(&team.sheet, &team.images[player]);
        let (t, session) = commit(&bytes, Prover::new(), &nonces[player]);
        let (r, _) = respond(&bytes, session, challenge, &parts[player]);
        team.commitments[player] = t.unwrap();
        team.responses[player] = r.unwrap();
    }
    team.sheet.statement = slow_image(&team.sheet, &team.witness);
    team
}

impl Team {
    /// The sheet's bytes with the whole statement.
    fn bytes(&self) -> Vec<u8> {
        stated(&self.sheet, &self.sheet.statement)
    }

    /// The round that the combiner makes.
    fn whole(&self) -> Round {
        let (bytes, count) = (self.bytes(), self.count as u64);
        let t = multiply_commitments(&bytes, count, &self.images, &self.commitments);
        let r = join_responses(&bytes, count, &self.images, &self.responses);
        Round { commitment: t.unwrap(), challenge: self.challenge, response: r.unwrap() }
    }

    /// The verdict on one player's round under the own image.
    fn part(&self, player: usize) -> Verdict {
        let bytes = stated(&self.sheet, &self.images[player]);
        let (t, r) = (self.commitments[player], self.responses[player]);
        judge(&bytes, &round(&t, self.challenge, &r))
    }
}

#[test]
fn a_team_sends_what_one_peggy_sends() {
    let mut shifts = Shifts(0x7EA1_7EA1_7EA1_7EA1);
    for _ in 0..1500 {
        let team = team(&mut shifts);
        let bytes = team.bytes();
        let whole = team.whole();
        let (t, session) = commit(&bytes, Prover::new(), &team.nonce);
        let (r, _) = respond(&bytes, session, team.challenge, &team.witness);
        assert_eq!((t, r), (Ok(whole.commitment), Ok(whole.response)));
        assert_eq!(judge(&bytes, &whole), Verdict::Accepted);
        assert!((0..team.count).all(|player| team.part(player) == Verdict::Accepted));
    }
}

#[test]
fn one_rejected_part_makes_the_whole_rejected_in_its_rows() {
    let mut shifts = Shifts(0x0ABE_7EA1_0ABE_7EA1);
    let mut rejected = 0;
    for _ in 0..3000 {
        let mut team = team(&mut shifts);
        let player = shifts.below(team.count as u64) as usize;
        if shifts.below(2) == 0 {
            let row = shifts.below(u64::from(team.sheet.rows)) as usize;
            team.commitments[player][row] = shifts.pick(&elements(&team.sheet));
        } else {
            let column = shifts.below(u64::from(team.sheet.columns)) as usize;
            team.responses[player][column] = shifts.pick(&slots(&team.sheet));
        }
        let verdict = team.part(player);
        assert_eq!(judge(&team.bytes(), &team.whole()), verdict);
        rejected += u32::from(verdict != Verdict::Accepted);
    }
    assert!(rejected > 1000);
}

/// Whether all values of these rows that are in use pass the test.
fn all(rows: &[[u32; 8]], used: u32, test: impl Fn(u32) -> bool) -> bool {
    let mut rows = rows.iter();
    rows.all(|row| row[..used as usize].iter().all(|value| test(*value)))
}

/// The two refusals for a sheet that loads, 0 where there is none.
fn slow_refusals(team: &Team, count: usize) -> [u32; 2] {
    if !(2..=8).contains(&count) {
        return [27; 2];
    }
    let (sheet, images) = (&team.sheet, &team.images[..count]);
    let is_element = |value| slow_element(sheet, value);
    if !all(images, sheet.rows, is_element) {
        return [11; 2];
    }
    let multiplies = slow_multiplied(sheet, images) == sheet.statement;
    let images_number = if multiplies { 0 } else { 28 };
    let mut numbers = [images_number; 2];
    if !all(&team.commitments[..count], sheet.rows, is_element) {
        numbers[0] = 14;
    }
    let slots = slots(sheet);
    if !all(&team.responses[..count], sheet.columns, |value| slots.contains(&value)) {
        numbers[1] = 16;
    }
    numbers
}

#[test]
fn random_teams_are_refused_by_the_slow_rules() {
    let mut shifts = Shifts(0x5107_7EA1_5107_7EA1);
    let mut met = std::collections::BTreeSet::new();
    for _ in 0..4000 {
        let mut team = team(&mut shifts);
        for rows in [&mut team.images, &mut team.commitments, &mut team.responses] {
            if shifts.below(4) == 0 {
                let [row, place] = [0; 2].map(|_| shifts.below(8) as usize);
                rows[row][place] = shifts.edge() % 90;
            }
        }
        let count = match shifts.below(4) {
            0 => shifts.below(11) as usize,
            _ => team.count,
        };
        let bytes = team.bytes();
        let t = multiply_commitments(&bytes, count as u64, &team.images, &team.commitments);
        let r = join_responses(&bytes, count as u64, &team.images, &team.responses);
        let found = [t, r].map(|answer| answer.err().unwrap_or(0));
        assert_eq!(found, slow_refusals(&team, count));
        if found == [0, 0] {
            let parts = &team.commitments[..count];
            assert_eq!(t, Ok(slow_multiplied(&team.sheet, parts)));
            let parts = &team.responses[..count];
            assert_eq!(r, Ok(slow_joined(&team.sheet, parts)));
        }
        met.extend(found);
    }
    assert_eq!(Vec::from_iter(met), [0, 11, 14, 16, 27, 28]);
}

#[test]
fn no_call_panics() {
    let mut shifts = Shifts(0x4A11_7EA1_4A11_7EA1);
    for _ in 0..20_000 {
        let sheet = bytes(&mut shifts);
        let [images, parts] = [0; 2].map(|_| -> Rows { std::array::from_fn(|_| shifts.edges()) });
        let count = match shifts.below(2) {
            0 => shifts.next(),
            _ => shifts.below(10),
        };
        let refusal = load(&sheet).err().unwrap_or(12);
        let is_team = (2..=8).contains(&count);
        for answer in [
            multiply_commitments(&sheet, count, &images, &parts),
            join_responses(&sheet, count, &images, &parts),
        ] {
            match refusal {
                2..=9 => assert_eq!(answer, Err(refusal)),
                _ if !is_team => assert_eq!(answer, Err(27)),
                10 | 11 => assert_eq!(answer, Err(refusal)),
                _ => {}
            }
        }
    }
}
