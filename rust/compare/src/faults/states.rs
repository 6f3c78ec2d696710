//! Faults of saved states and of the list of answered commitments.

use crate::faults::Fault;
use crate::faults::prover::refused;
use crate::library::Library::Judge;
use crate::library::phases::prover::{ANSWERED, COMMITTED, DROPPED, NEW};
use crate::library::{Listed, MOST_ANSWERED, Memory, Places, ProverAnswer, ProverSession, Saved};

/// The listed commitments that are counted.
fn counted(memory: &Memory) -> &[Listed] {
    &memory.answered[..(memory.count as usize).min(MOST_ANSWERED)]
}

/// Whether one of these agrees with the commitment in the first so many places.
fn agrees(listed: &[Listed], commitment: &Places, places: usize) -> bool {
    let mut listed = listed.iter();
    listed.any(|other| other.commitment[..places] == commitment[..places])
}

/// The memory with one more listed commitment, if there is room.
fn listing(mut memory: Memory, commitment: Places) -> Memory {
    if let Some(listed) = memory.answered.get_mut(memory.count as usize) {
        *listed = Listed { commitment };
        memory.count += 1;
    }
    memory
}

/// Clears all saved nonces.
fn clear_saved(memory: &mut Memory) {
    for state in &mut memory.saved {
        state.nonce = [0; 8];
    }
}

/// A new session.
pub fn created(fault: Fault, mut right: ProverSession) -> ProverSession {
    match fault {
        Fault::NewSaved => right.memory.saved[0].kept = 1,
        Fault::NewListed => right.memory.count = 1,
        _ => {}
    }
    right
}

/// What committing answers.
pub fn committed(fault: Fault, session: &ProverSession, mut right: ProverAnswer) -> ProverAnswer {
    if right.refusal != 0 {
        return right;
    }
    let memory = &mut right.session.memory;
    match fault {
        Fault::CommitListed if agrees(counted(memory), &right.values, 8) => {
            return refused(32, *session);
        }
        Fault::CommitForgetsList => memory.count = 0,
        Fault::CommitForgetsSaved => memory.saved = Default::default(),
        _ => {}
    }
    right
}

/// What dropping answers.
pub fn dropped(fault: Fault, mut right: ProverAnswer) -> ProverAnswer {
    match (fault, right.refusal) {
        (Fault::DropClearsSaved, 0) => clear_saved(&mut right.session.memory),
        (Fault::DropForgetsList, 0) => right.session.memory.count = 0,
        _ => {}
    }
    right
}

/// A call of responding.
pub struct Asked<'a> {
    pub sheet: &'a [u8],
    pub session: ProverSession,
    pub challenge: u32,
    pub witness: &'a Places,
}

impl Asked<'_> {
    /// What is answered if nothing is listed, with this memory after it.
    fn answered(&self, memory: Memory) -> ProverAnswer {
        let session = ProverSession { memory: Memory::default(), ..self.session };
        let mut answer = Judge.prover_respond(self.sheet, session, self.challenge, self.witness);
        answer.session.memory = memory;
        answer
    }

    /// What is answered if the held commitment is not found in the list.
    fn unlisted(&self) -> ProverAnswer {
        match self.session.memory.count {
            0..64 => self.answered(listing(self.session.memory, self.session.commitment)),
            _ => refused(33, self.session),
        }
    }

    /// What responding answers.
    pub fn answer(&self, fault: Fault, right: ProverAnswer) -> ProverAnswer {
        match right.refusal {
            0 => self.given(fault, right),
            32 => self.listed(fault, right),
            33 => self.full(fault, right),
            _ => self.refused(fault, right),
        }
    }

    /// Responding where nothing is refused.
    fn given(&self, fault: Fault, mut right: ProverAnswer) -> ProverAnswer {
        let (before, held) = (&self.session.memory, &self.session.commitment);
        let (count, memory) = (before.count as usize, &mut right.session.memory);
        let rows = Judge.load(self.sheet).header.rows as usize;
        let found = match fault {
            Fault::ListedRows => agrees(counted(before), held, rows),
            Fault::ListedSeven => agrees(counted(before), held, 7),
            Fault::ListedFirstPlace => agrees(counted(before), held, 1),
            Fault::ListedBehind => agrees(&before.answered, held, 8),
            _ => false,
        };
        match fault {
            _ if found => return refused(32, self.session),
            Fault::FullEarly if count == 63 => return refused(33, self.session),
            Fault::ListsFirst => memory.answered[..=count].rotate_right(1),
            Fault::ListsUncounted => memory.count = before.count,
            Fault::ListsNothing => memory.answered = before.answered,
            Fault::ListsChallenges => {
                memory.answered[count].commitment = [self.challenge, 0, 0, 0, 0, 0, 0, 0];
            }
            Fault::RespondClearsSaved => clear_saved(memory),
            Fault::RespondForgetsSaved => memory.saved = Default::default(),
            _ => {}
        }
        right
    }

    /// Responding where the held commitment is listed.
    fn listed(&self, fault: Fault, mut right: ProverAnswer) -> ProverAnswer {
        let (memory, held) = (&self.session.memory, &self.session.commitment);
        let listed = counted(memory);
        let seen = match fault {
            Fault::ListedUnread => &[],
            Fault::ListedFromOne => &listed[1..],
            Fault::ListedLeavesLast => &listed[..listed.len() - 1],
            Fault::ListedLeavesEnd => &listed[..listed.len().min(63)],
            Fault::ListedCountAbove if memory.count > 64 => &[],
            _ => listed,
        };
        match fault {
            _ if !agrees(seen, held, 8) => return self.unlisted(),
            Fault::ThirtyThreeFirst if memory.count >= 64 => return refused(33, self.session),
            Fault::ListsAgain => right.session.memory = listing(*memory, *held),
            Fault::ListedDrops => right.session.phase = DROPPED,
            _ => {}
        }
        right
    }

    /// Responding where the list is full.
    fn full(&self, fault: Fault, right: ProverAnswer) -> ProverAnswer {
        let mut memory = self.session.memory;
        match (fault, memory.count) {
            (Fault::FullAnswers, 64) | (Fault::FullAbove, 65..) => {}
            (Fault::FullCut, count) if count & 0xff < 64 => {
                memory.count &= 0xff;
                memory = listing(memory, self.session.commitment);
            }
            _ => return right,
        }
        self.answered(memory)
    }

    /// Responding where the challenge, the witness or the session is refused.
    fn refused(&self, fault: Fault, mut right: ProverAnswer) -> ProverAnswer {
        let (memory, held) = (&self.session.memory, &self.session.commitment);
        match (fault, right.refusal) {
            (Fault::ThirtyTwoFirst, 21) if agrees(counted(memory), held, 8) => {
                return refused(32, self.session);
            }
            (Fault::ThirtyThreeEarly, 21) if memory.count >= 64 => {
                return refused(33, self.session);
            }
            (Fault::ListsRefused, 15..=17) if self.session.phase == COMMITTED => {
                right.session.memory = listing(*memory, *held);
            }
            _ => {}
        }
        right
    }
}

pub fn prover_save(fault: Fault, session: ProverSession, name: u32) -> ProverAnswer {
    let right = Judge.prover_save(session, name);
    match (fault, right.refusal) {
        (_, 0) => saved(fault, session, name as usize, right),
        (Fault::SaveNameWraps, _) => Judge.prover_save(session, name % 8),
        (Fault::SaveNameCut, _) => match Judge.prover_save(session, name & 0xff) {
            answer if answer.refusal == 0 => answer,
            _ => right,
        },
        _ => right,
    }
}

/// Saving under this name, which is one.
fn saved(
    fault: Fault,
    session: ProverSession,
    name: usize,
    mut right: ProverAnswer,
) -> ProverAnswer {
    let before = &session.memory.saved[name];
    let state = &mut right.session.memory.saved[name];
    match fault {
        Fault::SaveSeven if name == 7 => return refused(34, session),
        Fault::SaveAnswered if session.phase == ANSWERED => return refused(21, session),
        Fault::SaveDropped if session.phase >= DROPPED => return refused(21, session),
        Fault::SaveKeeps if before.kept != 0 => *state = *before,
        Fault::SaveNoNonce => state.nonce = [0; 8],
        Fault::SaveNoCommitment => state.commitment = before.commitment,
        Fault::SaveFlagKept if before.kept != 0 => state.kept = before.kept,
        Fault::SavePhaseKept => state.phase = session.phase,
        Fault::SaveHeldPhase => right.session.phase = session.phase,
        Fault::SaveMoves => right.session.nonce = [0; 8],
        Fault::SaveForgetsOthers => {
            let state = *state;
            right.session.memory.saved = Default::default();
            right.session.memory.saved[name] = state;
        }
        Fault::SaveForgetsList => right.session.memory.count = 0,
        _ => {}
    }
    right
}

pub fn prover_return(fault: Fault, session: ProverSession, name: u32) -> ProverAnswer {
    let mut right = Judge.prover_return(session, name);
    if right.refusal == 0 {
        return returned(fault, session, name as usize, right);
    }
    let mut taken = session;
    let under = match fault {
        Fault::ReturnNameWraps => name % 8,
        Fault::ReturnNameCut => name & 0xff,
        _ => name,
    };
    match (fault, taken.memory.saved.get_mut(name as usize)) {
        (Fault::ReturnNeverSaved, Some(state)) => state.kept = 1,
        (Fault::ReturnRefusedNew, _) => right.session.phase = NEW,
        _ => {}
    }
    let mut answer = Judge.prover_return(taken, under);
    if answer.refusal != 0 {
        return right;
    }
    answer.session.memory = session.memory;
    answer
}

/// Returning to this name, under which something was saved.
fn returned(
    fault: Fault,
    session: ProverSession,
    name: usize,
    mut right: ProverAnswer,
) -> ProverAnswer {
    let before = session.memory.saved[name];
    let next = &mut right.session;
    let saved = &mut next.memory.saved;
    match fault {
        Fault::ReturnSeven if name == 7 => return refused(34, session),
        Fault::ReturnAnswered if session.phase == ANSWERED => return refused(21, session),
        Fault::ReturnToEnded if before.phase >= ANSWERED => return refused(21, session),
        Fault::ReturnFlagOne if before.kept != 1 => return refused(34, session),
        Fault::ReturnForgetsList => next.memory.count = 0,
        Fault::ReturnForgetsSaved => *saved = Default::default(),
        Fault::ReturnSpends => saved[name] = Saved::default(),
        Fault::ReturnMendsFlag => saved[name].kept = 1,
        Fault::ReturnMendsPhase => saved[name].phase = before.phase.min(DROPPED),
        Fault::ReturnNoCommitment => next.commitment = session.commitment,
        Fault::ReturnNoNonce => next.nonce = session.nonce,
        Fault::ReturnNoPhase => next.phase = session.phase,
        Fault::ReturnPhaseKept => next.phase = before.phase,
        Fault::ReturnValues => right.values = before.commitment,
        _ => {}
    }
    right
}
