//! Sessions made by hand, in both libraries: lists at each bound, and saved states with
//! each name, flag and phase. What is to be answered is also said in fields.

use std::iter::once;

use crate::cases::{Sessions, Step};
use crate::library::Library::{self, Judge};
use crate::library::phases::prover::{ANSWERED, COMMITTED, DROPPED};
use crate::library::{Header, Listed, Memory, Places, ProverAnswer, ProverSession, Saved};
use crate::printing::prover;
use crate::returning::made;
use crate::sheets::Sheet;

/// Counts of a list: below 64, 64, and more than a list has.
const COUNTS: [u32; 9] = [0, 1, 2, 62, 63, 64, 65, 0x100, u32::MAX];

/// Places of the list in which the held commitment stands, or one like it.
const PLACES: [usize; 6] = [0, 1, 2, 61, 62, 63];

/// Phases, held and saved.
const PHASES: [u32; 7] = [0, 1, 2, 3, 4, 0x101, u32::MAX];

/// Names, and numbers that are none.
const NAMES: [u32; 7] = [0, 6, 7, 8, 15, 0x100, u32::MAX];

/// Flags of a saved state.
const FLAGS: [u32; 4] = [0, 1, 2, u32::MAX];

/// A sheet of this kind and so many rows, with a nonce and a witness.
struct Page {
    bytes: Vec<u8>,
    rows: usize,
    nonce: Places,
    commitment: Places,
    witness: Places,
}

impl Page {
    /// Pages A and G of 01 with so many rows.
    fn new(kind: u32, rows: u32) -> Page {
        let (modulus, order, columns, slots) = match kind {
            1 => (23, 11, 1, [5, 7]),
            _ => (35, 5, rows, [3, 2]),
        };
        let mut sheet = Sheet {
            header: Header { kind, modulus, order, challenges: order, rows, columns },
            entries: [0; 64],
            statement: [0; 8],
        };
        for row in 0..rows as usize {
            sheet.entries[8 * row] = if kind == 1 { 2 } else { 0 };
        }
        let [nonce, witness] = slots.map(|slot| {
            let mut slots = [0; 8];
            slots[..columns as usize].fill(slot);
            slots
        });
        sheet.statement = sheet.image(&witness);
        Page {
            bytes: sheet.bytes(),
            rows: rows as usize,
            nonce,
            commitment: sheet.image(&nonce),
            witness,
        }
    }

    fn respond(&self) -> Step {
        Step::Respond { challenge: 3, witness: self.witness }
    }

    /// The call in both libraries. An error says what is not as it is to be.
    fn answer(
        &self,
        library: Library,
        session: &ProverSession,
        step: &Step,
    ) -> Result<ProverAnswer, String> {
        let asked = |library| made(step, library, &self.bytes, &mut Sessions::from(*session));
        let (answer, judged) = (asked(library), asked(Judge));
        let clean = answer.session == *session && answer.values == [0; 8];
        let what = match () {
            _ if answer != judged => "another answer than the judge's",
            _ if answer.refusal != 0 && !clean => "a refused call changes or answers something",
            _ => return Ok(answer),
        };
        let session = prover(session);
        Err(format!("card 13 fails by hand: {what} in {step:?} on {session}"))
    }
}

/// Tries all sessions and answers how many calls were made in either library.
pub fn check(library: Library) -> Result<u64, String> {
    let pages = [1, 2].map(|kind| [1, 3, 8].map(|rows| Page::new(kind, rows)));
    let of_pages = pages.as_flattened().iter().map(|page| {
        let mut lists = lists(page).into_iter();
        lists.try_fold(0, |calls, list| Ok(calls + list.check(library, page)?))
    });
    let of_lists = of_pages.sum::<Result<u64, String>>()?;
    let page = &pages[0][0];
    let of_states = states().into_iter().map(|state| state.check(library, page));
    Ok(of_lists + of_states.sum::<Result<u64, String>>()?)
}

/// A list of this count with the held commitment at a place, changed in one place of eight
/// or in none.
struct List {
    count: u32,
    place: usize,
    changed: Option<usize>,
}

/// All lists on a page.
fn lists(page: &Page) -> Vec<List> {
    let changes = [None, Some(0), Some(page.rows - 1), Some(7)];
    let counted = COUNTS.iter().flat_map(|count| {
        let at_count = (*count as usize).min(63);
        let places = PLACES.into_iter().chain(once(at_count));
        places.map(move |place| (*count, place))
    });
    let lists =
        counted.flat_map(|(count, place)| changes.map(|changed| List { count, place, changed }));
    lists.collect()
}

impl List {
    /// A session that can answer but for its list.
    fn session(&self, page: &Page) -> ProverSession {
        let mut memory = Memory { count: self.count, ..Memory::default() };
        for (place, listed) in memory.answered.iter_mut().enumerate() {
            listed.commitment[0] = 100 + place as u32;
        }
        let entry = &mut memory.answered[self.place].commitment;
        *entry = page.commitment;
        if let Some(place) = self.changed {
            entry[place] ^= 1;
        }
        ProverSession { nonce: page.nonce, commitment: page.commitment, phase: COMMITTED, memory }
    }

    /// The number that responding is to give.
    fn number(&self) -> u32 {
        let counted = self.place < self.count as usize;
        match self.count {
            _ if counted && self.changed.is_none() => 32,
            64.. => 33,
            _ => 0,
        }
    }

    /// The session after a response that is given.
    fn after(&self, page: &Page) -> ProverSession {
        let mut session = self.session(page);
        session.memory.answered[self.count as usize] = Listed { commitment: page.commitment };
        session.memory.count += 1;
        session.phase = ANSWERED;
        session.nonce = [0; 8];
        session
    }

    /// Responds, and responds in sessions that get 21. Committing is never refused.
    fn check(&self, library: Library, page: &Page) -> Result<u64, String> {
        let session = self.session(page);
        let fails = |what| format!("card 13 fails by hand: {what}, count {}", self.count);
        let answer = page.answer(library, &session, &page.respond())?;
        if answer.refusal != self.number() {
            return Err(fails("another number"));
        }
        if answer.refusal == 0 && answer.session != self.after(page) {
            return Err(fails("another list"));
        }
        let (mut answered, mut unfit, mut new) = (session, session, session);
        answered.phase = ANSWERED;
        unfit.nonce[0] += 1;
        new.phase = 0;
        for session in [answered, unfit] {
            if page.answer(library, &session, &page.respond())?.refusal != 21 {
                return Err(fails("21 is not given"));
            }
        }
        let commit = Step::Commit { nonce: page.nonce };
        let committed = page.answer(library, &new, &commit)?;
        if committed.refusal == 0 && committed.session == session {
            Ok(4)
        } else {
            Err(fails("committing is another"))
        }
    }
}

/// A session in a phase, and a saved state of a phase and a flag under a name. The list
/// may hold the saved commitment.
struct State {
    held: u32,
    saved: u32,
    flag: u32,
    name: u32,
    listed: bool,
}

/// All states.
fn states() -> Vec<State> {
    let phases = PHASES.iter().flat_map(|held| PHASES.map(|saved| (*held, saved)));
    let flags = phases.flat_map(|phases| FLAGS.map(|flag| (phases, flag)));
    let names = flags.flat_map(|flags| NAMES.map(|name| (flags, name)));
    let states = names.flat_map(|(((held, saved), flag), name)| {
        [false, true].map(|listed| State { held, saved, flag, name, listed })
    });
    states.collect()
}

impl State {
    /// The session, in which another name has a state that no call makes.
    fn session(&self, page: &Page) -> ProverSession {
        let mut memory = Memory { count: self.listed.into(), ..Memory::default() };
        memory.answered[0].commitment = page.commitment;
        memory.saved[3] = Saved { nonce: [1; 8], commitment: [2; 8], phase: 5, kept: 7 };
        memory.saved[(self.name % 8) as usize] = Saved {
            nonce: page.nonce,
            commitment: page.commitment,
            phase: self.saved,
            kept: self.flag,
        };
        ProverSession {
            nonce: [6, 0, 0, 0, 0, 0, 0, 9],
            commitment: [18, 0, 0, 0, 0, 0, 0, 8],
            phase: self.held,
            memory,
        }
    }

    /// The session after a save, if it is not to be refused.
    fn after_save(&self, page: &Page) -> Option<ProverSession> {
        let mut session = self.session(page);
        session.phase = self.held.min(DROPPED);
        *session.memory.saved.get_mut(self.name as usize)? = Saved {
            nonce: session.nonce,
            commitment: session.commitment,
            phase: session.phase,
            kept: 1,
        };
        Some(session)
    }

    /// The session after a return, if it is not to be refused.
    fn after_return(&self, page: &Page) -> Option<ProverSession> {
        let mut session = self.session(page);
        session.phase = self.saved.min(DROPPED);
        session.nonce = page.nonce;
        session.commitment = page.commitment;
        (self.name < 8 && self.flag != 0).then_some(session)
    }

    /// Saves and returns, and makes each call after it.
    fn check(&self, library: Library, page: &Page) -> Result<u64, String> {
        let (name, session) = (self.name, self.session(page));
        let mut calls = 0;
        for (step, expected) in [
            (Step::Save { name }, self.after_save(page)),
            (Step::Return { name }, self.after_return(page)),
        ] {
            let answer = page.answer(library, &session, &step)?;
            let refusal = if expected.is_some() { 0 } else { 34 };
            if answer.refusal != refusal || answer.session != expected.unwrap_or(session) {
                let phase = self.held;
                return Err(format!("card 13 fails by hand: {step:?} in phase {phase}"));
            }
            let next = [
                Step::Commit { nonce: page.nonce },
                page.respond(),
                Step::Drop,
                Step::Save { name: 7 },
                Step::Return { name },
            ];
            calls += 1 + next.len() as u64;
            let mut answers = next.iter().map(|step| page.answer(library, &answer.session, step));
            answers.try_for_each(|answer| answer.map(|_| ()))?;
        }
        Ok(calls)
    }
}
