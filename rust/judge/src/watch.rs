//! A watch for used nonces.
//!
//! A watch is opened on one sheet and is given rounds one by one. It remembers
//! the last 63 accepted ones. Two accepted rounds with one commitment and two
//! challenges come from one nonce, and they give a witness away.
//!
//! A call takes a watch by value and hands it back beside the answer. A refused
//! call hands it back unchanged.

use crate::bytes::first;
use crate::protocol::{Round, Verdict, combine, differ, tested_verdict};
use crate::sheet::{Sheet, load};

/// The bytes of the longest sheet: 20, 8 × 8 entries and 8 statement values.
pub const MOST_BYTES: usize = 308;

/// How many rounds a watch remembers at most.
pub const WINDOW: usize = 63;

/// A watch. It may be made by hand, with any values.
#[derive(Clone, Debug, PartialEq, Eq)]
pub struct Watch {
    /// The bytes of the sheet that it is opened on. Those after the length are
    /// not read.
    pub sheet: [u8; MOST_BYTES],
    /// The length of the sheet in bytes.
    pub length: u64,
    /// The remembered rounds, newest first. Those at or beyond the count are
    /// not read.
    pub rounds: [Round; WINDOW],
    /// How many rounds are remembered.
    pub count: u32,
}

/// What a watch answers to a round.
#[derive(Clone, Copy, Debug, PartialEq, Eq)]
pub struct Watched {
    /// The verdict on the round.
    pub verdict: Verdict,
    /// By how many accepted rounds back the named round stands. The newest
    /// remembered round is 1 back, and 0 says none.
    pub back: u32,
    /// The witness that the two rounds give, with 0 beyond the columns in use.
    /// It is zeros if no round is named.
    pub witness: [u32; 8],
}

impl Watched {
    /// The answer that names no round.
    fn none(verdict: Verdict) -> Watched {
        Watched { verdict, back: 0, witness: [0; 8] }
    }
}

impl Watch {
    /// The watch that holds these bytes, zeros after them and no rounds. There
    /// are at most 308 bytes.
    fn on(sheet: &[u8]) -> Watch {
        let mut held = [0; MOST_BYTES];
        held[..sheet.len()].copy_from_slice(sheet);
        Watch {
            sheet: held,
            length: sheet.len() as u64,
            rounds: std::array::from_fn(|_| Round {
                commitment: [0; 8],
                challenge: 0,
                response: [0; 8],
            }),
            count: 0,
        }
    }

    /// Whether the held sheet has exactly these bytes.
    fn is_on(&self, sheet: &[u8]) -> bool {
        // By 9 a sheet that loads has at most 308 bytes.
        self.length == sheet.len() as u64 && self.sheet.starts_with(sheet)
    }

    /// Whether the watch is on these bytes and counts at most 63 rounds.
    fn fits(&self, sheet: &[u8]) -> bool {
        self.is_on(sheet) && self.count as usize <= WINDOW
    }

    /// The place of the nearest remembered round with the same commitment and
    /// another challenge, if there is one.
    fn nearest(&self, sheet: &Sheet, round: &Round) -> Option<usize> {
        let mut remembered = self.rounds.iter().take(self.count as usize);
        remembered.position(|earlier| {
            !differ(sheet, &earlier.commitment, &round.commitment)
                && earlier.challenge != round.challenge
        })
    }

    /// The watch after it has remembered an accepted round. It counts at most
    /// 63 before.
    fn after(&self, sheet: &Sheet, round: &Round) -> Watch {
        // Decision: the older rounds keep all their places, also those that
        // are not read. So do the rounds at or beyond the count, which move on
        // with the others.
        let mut next = self.clone();
        next.rounds.rotate_right(1);
        // Decision: places beyond s and n "are not read", so they cannot be
        // stored. The watch holds 0 there.
        next.rounds[0] = Round {
            commitment: first(&round.commitment, sheet.s()),
            challenge: round.challenge,
            response: first(&round.response, sheet.n()),
        };
        next.count = (self.count + 1).min(WINDOW as u32);
        next
    }
}

/// Opens a watch on a sheet. The watch holds the sheet's bytes with zeros after
/// them and remembers no round.
///
/// Refuses with 2 to 11 for the sheet. The watch handed back is then one of no
/// bytes, with zeros everywhere.
pub fn open(sheet: &[u8]) -> (Result<(), u32>, Watch) {
    match load(sheet) {
        Ok(_) => (Ok(()), Watch::on(sheet)),
        Err(number) => (Err(number), Watch::on(&[])),
    }
}

/// Takes a round and answers its verdict. For an accepted round it names the
/// nearest remembered round with the same commitment and another challenge, and
/// gives the witness that the two extract, or says none. After that the watch
/// remembers the accepted round, with 0 beyond the rows and columns in use. A
/// rejected round changes nothing.
///
/// Refuses with 2 to 11 for the sheet, 14 for a commitment value that is no
/// group element, 15 for a challenge of K or more and 16 for a response slot
/// that is no domain slot. Refuses with 21 if the watch is opened on other
/// bytes, if it counts more than 63 rounds or if the named round is not
/// accepted.
pub fn take_round(sheet: &[u8], watch: Watch, round: &Round) -> (Watched, Watch) {
    match watched(sheet, &watch, round) {
        Ok((answer, Some(next))) => (answer, next),
        Ok((answer, None)) => (answer, watch),
        Err(number) => (Watched::none(Verdict::Refused(number)), watch),
    }
}

/// The answer to a round, and the watch after it if the round is remembered.
fn watched(bytes: &[u8], watch: &Watch, round: &Round) -> Result<(Watched, Option<Watch>), u32> {
    let sheet = load(bytes)?;
    let verdict = tested_verdict(&sheet, round)?;
    // Decision: a verdict is a result, so 21 comes before it. A rejected round
    // gets 21 too if the watch does not fit.
    if !watch.fits(bytes) {
        return Err(21);
    }
    // Decision: only an accepted round has a named round. A rejected one is
    // not held against the remembered rounds.
    if verdict != Verdict::Accepted {
        return Ok((Watched::none(verdict), None));
    }
    let answer = match watch.nearest(&sheet, round) {
        Some(place) => named(&sheet, watch, place, round)?,
        None => Watched::none(verdict),
    };
    Ok((answer, Some(watch.after(&sheet, round))))
}

/// The answer to an accepted round that names the round in this place.
///
/// Refuses with 21 if the named round is not accepted.
fn named(sheet: &Sheet, watch: &Watch, place: usize, round: &Round) -> Result<Watched, u32> {
    let earlier = &watch.rounds[place];
    // Decision: a held round that 14 to 16 would refuse is not accepted, and
    // "held values are tested by 21 only". Farther rounds do not mend it.
    if tested_verdict(sheet, earlier) != Ok(Verdict::Accepted) {
        return Err(21);
    }
    Ok(Watched {
        verdict: Verdict::Accepted,
        back: place as u32 + 1,
        witness: combine(sheet, earlier, round),
    })
}
