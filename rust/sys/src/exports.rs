//! The exports of the archive, as include/dimkhoros.h declares them.

use crate::{
    Base, Checked, Compared, Computed, Counted, Entries, Fetched, Header, Judgement, Ledger,
    LedgerWritten, Loaded, Opened, OrAnswer, OrExtracted, OrJudgement, OrRound, OrSession, Part,
    ProverAnswer, ProverSession, Round, VerifierAnswer, VerifierJudgement, VerifierSession, Watch,
    WatchAnswer, Written,
};

/// Peggy's session as it is handed to an export: by value on the stack, where each argument begins at a multiple of 8 bytes. That
/// the type says so leaves the call as it is, and the session is then copied by 8 bytes and not by 4, which is much faster.
#[repr(C, align(8))]
pub struct Handed(pub ProverSession);

const _: () = assert!(size_of::<Handed>() == size_of::<ProverSession>());

unsafe extern "C" {
    pub fn dimkhoros_version() -> u32;

    pub fn dimkhoros_load(sheet: *const u8, sheet_length: usize) -> Loaded;

    pub fn dimkhoros_entries(sheet: *const u8, sheet_length: usize, entries: *mut u32) -> u32;

    pub fn dimkhoros_encode(
        header: Header,
        entries: *const u32,
        statement: *const u32,
        buffer: *mut u8,
        buffer_length: usize,
    ) -> Written;

    pub fn dimkhoros_patterns(buffer: *mut u8, buffer_length: usize) -> Written;

    pub fn dimkhoros_from_pattern(
        patterns: *const u8,
        patterns_length: usize,
        number: u32,
        modulus: u32,
        order: u32,
        challenges: u32,
        values: *const u32,
        value_count: usize,
        statement: *const u32,
        statement_count: usize,
        buffer: *mut u8,
        buffer_length: usize,
    ) -> Written;

    pub fn dimkhoros_linear(
        modulus: u32,
        order: u32,
        challenges: u32,
        rows: u32,
        columns: u32,
        generators: *const u32,
        generator_count: usize,
        coefficients: *const u32,
        coefficient_count: usize,
        statement: *const u32,
        statement_count: usize,
        buffer: *mut u8,
        buffer_length: usize,
    ) -> Written;

    pub fn dimkhoros_count(
        sheet: *const u8,
        sheet_length: usize,
        file: *const u8,
        file_length: usize,
    ) -> Counted;

    pub fn dimkhoros_check(
        sheet: *const u8,
        sheet_length: usize,
        file: *const u8,
        file_length: usize,
        number: usize,
    ) -> u32;

    pub fn dimkhoros_part(
        sheet: *const u8,
        sheet_length: usize,
        file: *const u8,
        file_length: usize,
        number: usize,
    ) -> Part;

    pub fn dimkhoros_read(
        sheet: *const u8,
        sheet_length: usize,
        file: *const u8,
        file_length: usize,
        number: usize,
    ) -> Fetched;

    pub fn dimkhoros_same_commitment(
        sheet: *const u8,
        sheet_length: usize,
        file: *const u8,
        file_length: usize,
        i: usize,
        j: usize,
    ) -> Compared;

    pub fn dimkhoros_empty(version: u32, buffer: *mut u8, buffer_length: usize) -> Written;

    pub fn dimkhoros_append(
        sheet: *const u8,
        sheet_length: usize,
        buffer: *mut u8,
        buffer_length: usize,
        used: usize,
        round: Round,
    ) -> Written;

    pub fn dimkhoros_convert(
        sheet: *const u8,
        sheet_length: usize,
        file: *const u8,
        file_length: usize,
        buffer: *mut u8,
        buffer_length: usize,
    ) -> Written;

    pub fn dimkhoros_judge(sheet: *const u8, sheet_length: usize, round: Round) -> Judgement;

    pub fn dimkhoros_simulate(
        sheet: *const u8,
        sheet_length: usize,
        challenge: u32,
        response: *const u32,
    ) -> Computed;

    pub fn dimkhoros_extract(
        sheet: *const u8,
        sheet_length: usize,
        first: Round,
        second: Round,
    ) -> Computed;

    pub fn dimkhoros_or_judge(
        first: *const u8,
        first_length: usize,
        second: *const u8,
        second_length: usize,
        round: OrRound,
    ) -> OrJudgement;

    pub fn dimkhoros_or_extract(
        first: *const u8,
        first_length: usize,
        second: *const u8,
        second_length: usize,
        a: OrRound,
        b: OrRound,
    ) -> OrExtracted;

    pub fn dimkhoros_team_commitment(
        sheet: *const u8,
        sheet_length: usize,
        count: u32,
        images: *const u32,
        commitments: *const u32,
    ) -> Computed;

    pub fn dimkhoros_team_response(
        sheet: *const u8,
        sheet_length: usize,
        count: u32,
        images: *const u32,
        responses: *const u32,
    ) -> Computed;

    pub fn dimkhoros_watch_open(sheet: *const u8, sheet_length: usize) -> Opened;

    pub fn dimkhoros_watch_round(
        sheet: *const u8,
        sheet_length: usize,
        watch: Watch,
        round: Round,
    ) -> WatchAnswer;

    pub fn dimkhoros_ledger_check(base: Base, ledger: Ledger) -> Checked;

    pub fn dimkhoros_ledger_write(base: Base, entries: Entries) -> LedgerWritten;

    pub fn dimkhoros_mark(
        sheet: *const u8,
        sheet_length: usize,
        file: *const u8,
        file_length: usize,
        level: *const u8,
        level_length: usize,
        text: *mut u8,
    ) -> usize;

    pub fn dimkhoros_reason(
        sheet: *const u8,
        sheet_length: usize,
        file: *const u8,
        file_length: usize,
        text: *mut u8,
    ) -> usize;

    pub fn dimkhoros_game(
        sheet: *const u8,
        sheet_length: usize,
        file: *const u8,
        file_length: usize,
        text: *mut u8,
    ) -> usize;

    pub fn dimkhoros_prover_new() -> ProverSession;

    pub fn dimkhoros_prover_commit(
        sheet: *const u8,
        sheet_length: usize,
        session: Handed,
        nonce: *const u32,
    ) -> ProverAnswer;

    pub fn dimkhoros_prover_respond(
        sheet: *const u8,
        sheet_length: usize,
        session: Handed,
        challenge: u32,
        witness: *const u32,
    ) -> ProverAnswer;

    pub fn dimkhoros_prover_drop(session: Handed) -> ProverAnswer;

    pub fn dimkhoros_prover_save(session: Handed, name: u32) -> ProverAnswer;

    pub fn dimkhoros_prover_return(session: Handed, name: u32) -> ProverAnswer;

    pub fn dimkhoros_verifier_new() -> VerifierSession;

    pub fn dimkhoros_verifier_commitment(
        sheet: *const u8,
        sheet_length: usize,
        session: VerifierSession,
        commitment: *const u32,
    ) -> VerifierAnswer;

    pub fn dimkhoros_verifier_challenge(
        sheet: *const u8,
        sheet_length: usize,
        session: VerifierSession,
        challenge: u32,
    ) -> VerifierAnswer;

    pub fn dimkhoros_verifier_response(
        sheet: *const u8,
        sheet_length: usize,
        session: VerifierSession,
        response: *const u32,
    ) -> VerifierJudgement;

    pub fn dimkhoros_or_prover_new() -> OrSession;

    pub fn dimkhoros_or_prover_commit(
        first: *const u8,
        first_length: usize,
        second: *const u8,
        second_length: usize,
        session: OrSession,
        side: u32,
        nonce: *const u32,
        challenge: u32,
        response: *const u32,
    ) -> OrAnswer;

    pub fn dimkhoros_or_prover_respond(
        first: *const u8,
        first_length: usize,
        second: *const u8,
        second_length: usize,
        session: OrSession,
        challenge: u32,
        witness: *const u32,
    ) -> OrAnswer;

    pub fn dimkhoros_or_prover_drop(session: OrSession) -> OrAnswer;
}
