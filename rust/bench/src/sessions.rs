//! Saving Peggy's session under a name and returning to it, which do not grow.

use std::hint::black_box;

use dimkhoros_sys::phases::prover::COMMITTED;
use dimkhoros_sys::{self as proved, Listed, MOST_ANSWERED, ProverAnswer, ProverSession, Saved};

use crate::reference::{Phase, Prover};
use crate::table::{Case, Inputs, Table};

/// Saving and returning.
pub const TABLE: Table<SessionInputs, 2> = Table {
    title: "Saved states",
    on: "session",
    sides: ["library", "idiomatic"],
    cases: &[
        Case { name: "save", calls: [library_save, rust_save], alike: &[alike_save] },
        Case { name: "return", calls: [library_return, rust_return], alike: &[alike_return] },
    ],
    count: 2,
    make: |i| [one_saved, all_saved][i](),
    compared: || vec![SessionInputs { name: 8, ..one_saved() }],
};

/// A session and a name. The library is handed a session and hands back another; the
/// reference changes its own.
pub struct SessionInputs {
    on: &'static str,
    handed: ProverSession,
    own: Prover,
    name: u32,
}

impl Inputs for SessionInputs {
    fn name(&self) -> &str {
        self.on
    }

    fn taken(&mut self) -> (&mut [u8], Vec<&mut u32>) {
        let ProverSession { nonce, commitment, phase, memory } = &mut self.handed;
        let saved = memory.saved.iter_mut().flat_map(|saved| {
            let Saved { nonce, commitment, phase, kept } = saved;
            nonce.iter_mut().chain(commitment).chain([phase, kept])
        });
        let listed = memory.answered.iter_mut().flat_map(|listed| &mut listed.commitment);
        let held = nonce.iter_mut().chain(commitment).chain([phase, &mut self.name]);
        (&mut [], held.chain(saved).chain(listed).collect())
    }
}

/// A committed session with a saved state and no answered commitment.
fn one_saved() -> SessionInputs {
    let nonce = [5, 4, 3, 2, 1, 0, 6, 7];
    let commitment = [9, 8, 7, 6, 5, 4, 3, 2];
    let mut handed = ProverSession { nonce, commitment, phase: COMMITTED, ..proved::prover_new() };
    handed.memory.saved[3] = Saved { nonce, commitment, phase: COMMITTED, kept: 1 };
    inputs("1 saved state, no answered commitment", handed, 3)
}

/// A committed session with eight saved states and 64 answered commitments.
fn all_saved() -> SessionInputs {
    let SessionInputs { mut handed, .. } = one_saved();
    handed.memory.saved = [handed.memory.saved[3]; 8];
    handed.memory.answered = [Listed { commitment: [1; 8] }; MOST_ANSWERED];
    handed.memory.count = MOST_ANSWERED as u32;
    inputs("8 saved states, 64 answered commitments", handed, 7)
}

fn inputs(on: &'static str, handed: ProverSession, name: u32) -> SessionInputs {
    SessionInputs { on, own: own(&handed), handed, name }
}

/// The reference's session with what the library's holds.
fn own(session: &ProverSession) -> Prover {
    let &ProverSession { nonce, commitment, phase, memory } = session;
    Prover { phase: Phase::from(phase), nonce, commitment, memory }
}

fn library_save(inputs: &mut SessionInputs) {
    let SessionInputs { handed, name, .. } = black_box(inputs);
    let answer = proved::prover_save(*handed, *name);
    black_box(&answer);
}

fn library_return(inputs: &mut SessionInputs) {
    let SessionInputs { handed, name, .. } = black_box(inputs);
    let answer = proved::prover_return(*handed, *name);
    black_box(&answer);
}

fn rust_save(inputs: &mut SessionInputs) {
    let SessionInputs { own, name, .. } = black_box(inputs);
    _ = black_box(own.save(*name));
}

fn rust_return(inputs: &mut SessionInputs) {
    let SessionInputs { own, name, .. } = black_box(inputs);
    _ = black_box(own.return_to(*name));
}

fn alike_save(inputs: &mut SessionInputs) -> bool {
    let mut own = own(&inputs.handed);
    let told = own.save(inputs.name);
    same(proved::prover_save(inputs.handed, inputs.name), told, own, &inputs.handed)
}

fn alike_return(inputs: &mut SessionInputs) -> bool {
    let mut own = own(&inputs.handed);
    let told = own.return_to(inputs.name);
    same(proved::prover_return(inputs.handed, inputs.name), told, own, &inputs.handed)
}

/// Whether the library answers what was told, and hands back the session that the
/// reference has, or, if it is refused, the one that it was handed.
fn same(answer: ProverAnswer, told: Result<(), u32>, own: Prover, handed: &ProverSession) -> bool {
    let Prover { phase, nonce, commitment, memory } = own;
    let session = ProverSession { nonce, commitment, phase: phase as u32, memory };
    let (session, refusal) = match told {
        Ok(()) => (session, 0),
        Err(number) => (*handed, number),
    };
    answer == ProverAnswer { session, values: [0; 8], refusal }
}
