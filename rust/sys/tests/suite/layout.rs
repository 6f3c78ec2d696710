//! Sizes and places are the same in this crate as in C.

use crate::cc;

use dimkhoros_sys::*;
use std::fmt::Write;
use std::mem::offset_of;

/// The size of the field that a function takes out of a struct.
fn field_size<S, F>(_: fn(&S) -> &F) -> usize {
    size_of::<F>()
}

/// A line with the size of a struct, then a line with the place and size of each of its fields, all of which are named.
macro_rules! describe {
    ($text:ident, $name:ident { $($field:ident),* }) => {
        let _ = |$name { $($field: _),* }: $name| ();
        writeln!($text, "Dimkhoros{} {}", stringify!($name), size_of::<$name>()).unwrap();
        $(
            let (place, size) = (offset_of!($name, $field), field_size(|value: &$name| &value.$field));
            writeln!($text, "Dimkhoros{}.{} {place} {size}", stringify!($name), stringify!($field)).unwrap();
        )*
    };
}

#[test]
fn every_struct_is_laid_out_as_in_c() {
    let mut text = String::new();
    describe!(text, Header { kind, modulus, order, challenges, rows, columns });
    describe!(text, Loaded { header, statement, refusal });
    describe!(text, Written { length, refusal });
    describe!(text, Round { commitment, challenge, response });
    describe!(text, Counted { count, refusal });
    describe!(text, Fetched { round, refusal });
    describe!(text, Part { offset, length });
    describe!(text, Compared { same, refusal });
    describe!(text, Computed { values, refusal });
    describe!(text, Judgement { accepted, rows, refusal });
    describe!(text, Saved { nonce, commitment, phase, kept });
    describe!(text, Listed { commitment });
    describe!(text, Memory { saved, answered, count });
    describe!(text, ProverSession { nonce, commitment, phase, memory });
    describe!(text, ProverAnswer { session, values, refusal });
    describe!(text, VerifierSession { commitment, challenge, phase });
    describe!(text, VerifierAnswer { session, refusal });
    describe!(text, VerifierJudgement { verdict, session });
    describe!(
        text,
        OrRound { commitment0, commitment1, response0, response1, challenge, challenge0 }
    );
    describe!(text, OrJudgement { accepted, rows0, rows1, refusal });
    describe!(text, OrExtracted { values, side, refusal });
    describe!(
        text,
        OrSession { nonce, response, commitment0, commitment1, challenge, side, phase }
    );
    describe!(text, OrAnswer { session, values0, values1, challenge0, refusal });
    describe!(text, Watch { rounds, sheet, length, count });
    describe!(text, Opened { watch, refusal });
    describe!(text, WatchAnswer { watch, witness, back, verdict });
    describe!(text, Base { g, h, modulus, order, challenges });
    describe!(text, Line { kind, first, second, commitment, t, challenge, response });
    describe!(text, Ledger { lines, count });
    describe!(text, Checked { accepted, line, refusal });
    describe!(text, Entry { kind, first, second, value, blinding, nonce, challenge });
    describe!(text, Entries { entries, count });
    describe!(text, LedgerWritten { ledger, refusal });
    assert_eq!(text, cc::run("layout.c"));
}
