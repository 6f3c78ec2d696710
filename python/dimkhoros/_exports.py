"""What the shared library exports: the answer and the arguments of each call, as include/dimkhoros.h declares them."""

import ctypes
from typing import Any

from . import _structs as c

U32 = c.U32
Size = c.Size

# Bytes, or a buffer of bytes to write to.
Bytes = ctypes.c_char_p
# Bytes, and their length.
Given: list[type[Any]] = [Bytes, Size]
# The address of several numbers.
Numbers = ctypes.POINTER(U32)

EXPORTS: dict[str, tuple[type[Any], list[type[Any]]]] = {
    "version": (U32, []),
    "load": (c.Loaded, [*Given]),
    "entries": (U32, [*Given, Numbers]),
    "encode": (c.Written, [c.Header, Numbers, Numbers, *Given]),
    "patterns": (c.Written, [*Given]),
    "from_pattern": (c.Written, [*Given, U32, U32, U32, U32, Numbers, Size, Numbers, Size, *Given]),
    "linear": (
        c.Written,
        [U32, U32, U32, U32, U32, Numbers, Size, Numbers, Size, Numbers, Size, *Given],
    ),
    "count": (c.Counted, [*Given, *Given]),
    "check": (U32, [*Given, *Given, Size]),
    "part": (c.Part, [*Given, *Given, Size]),
    "read": (c.Fetched, [*Given, *Given, Size]),
    "same_commitment": (c.Compared, [*Given, *Given, Size, Size]),
    "empty": (c.Written, [U32, *Given]),
    "append": (c.Written, [*Given, *Given, Size, c.Round]),
    "convert": (c.Written, [*Given, *Given, *Given]),
    "judge": (c.Judgement, [*Given, c.Round]),
    "simulate": (c.Computed, [*Given, U32, Numbers]),
    "extract": (c.Computed, [*Given, c.Round, c.Round]),
    "or_judge": (c.OrJudgement, [*Given, *Given, c.OrRound]),
    "or_extract": (c.OrExtracted, [*Given, *Given, c.OrRound, c.OrRound]),
    "team_commitment": (c.Computed, [*Given, U32, Numbers, Numbers]),
    "team_response": (c.Computed, [*Given, U32, Numbers, Numbers]),
    "watch_open": (c.Opened, [*Given]),
    "watch_round": (c.WatchAnswer, [*Given, c.Watch, c.Round]),
    "ledger_check": (c.Checked, [c.Base, c.Ledger]),
    "ledger_write": (c.LedgerWritten, [c.Base, c.Entries]),
    "mark": (Size, [*Given, *Given, *Given, Bytes]),
    "reason": (Size, [*Given, *Given, Bytes]),
    "game": (Size, [*Given, *Given, Bytes]),
    "prover_new": (c.ProverSession, []),
    "prover_commit": (c.ProverAnswer, [*Given, c.ProverSession, Numbers]),
    "prover_respond": (c.ProverAnswer, [*Given, c.ProverSession, U32, Numbers]),
    "prover_drop": (c.ProverAnswer, [c.ProverSession]),
    "prover_save": (c.ProverAnswer, [c.ProverSession, U32]),
    "prover_return": (c.ProverAnswer, [c.ProverSession, U32]),
    "verifier_new": (c.VerifierSession, []),
    "verifier_commitment": (c.VerifierAnswer, [*Given, c.VerifierSession, Numbers]),
    "verifier_challenge": (c.VerifierAnswer, [*Given, c.VerifierSession, U32]),
    "verifier_response": (c.VerifierJudgement, [*Given, c.VerifierSession, Numbers]),
    "or_prover_new": (c.OrSession, []),
    "or_prover_commit": (c.OrAnswer, [*Given, *Given, c.OrSession, U32, Numbers, U32, Numbers]),
    "or_prover_respond": (c.OrAnswer, [*Given, *Given, c.OrSession, U32, Numbers]),
    "or_prover_drop": (c.OrAnswer, [c.OrSession]),
}
