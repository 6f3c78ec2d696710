"""The structs of include/dimkhoros.h, under their names without the library's."""

import ctypes

from ._sizes import (
    ENTRIES,
    LONGEST_SHEET,
    MOST_ANSWERED,
    MOST_LINES,
    MOST_REMEMBERED,
    PARTS,
    PLACES,
    SAVED_STATES,
)

U32 = ctypes.c_uint32
Size = ctypes.c_size_t

Places = U32 * PLACES
Table = U32 * ENTRIES
Parts = U32 * PARTS


class Header(ctypes.Structure):
    """The fixed fields of a sheet."""

    _fields_ = [("kind", U32), ("modulus", U32), ("order", U32), ("challenges", U32), ("rows", U32), ("columns", U32)]


class Loaded(ctypes.Structure):
    """A loaded sheet, but for its entries."""

    _fields_ = [("header", Header), ("statement", Places), ("refusal", U32)]


class Written(ctypes.Structure):
    """What a call that writes to a buffer answers."""

    _fields_ = [("length", Size), ("refusal", U32)]


class Round(ctypes.Structure):
    """One run of the protocol."""

    _fields_ = [("commitment", Places), ("challenge", U32), ("response", Places)]


class Counted(ctypes.Structure):
    """How many rounds a round file has."""

    _fields_ = [("count", U32), ("refusal", U32)]


class Fetched(ctypes.Structure):
    """A round that was read from a round file."""

    _fields_ = [("round", Round), ("refusal", U32)]


class Part(ctypes.Structure):
    """Where a round stands in a round file."""

    _fields_ = [("offset", Size), ("length", Size)]


class Compared(ctypes.Structure):
    """Whether two rounds of a file have the same commitment."""

    _fields_ = [("same", U32), ("refusal", U32)]


class Computed(ctypes.Structure):
    """A simulated commitment, an extracted witness, or a commitment or response of a team."""

    _fields_ = [("values", Places), ("refusal", U32)]


class Judgement(ctypes.Structure):
    """A verdict."""

    _fields_ = [("accepted", U32), ("rows", U32), ("refusal", U32)]


class Saved(ctypes.Structure):
    """A saved state of Peggy's session."""

    _fields_ = [("nonce", Places), ("commitment", Places), ("phase", U32), ("kept", U32)]


class Listed(ctypes.Structure):
    """A commitment that was answered."""

    _fields_ = [("commitment", Places)]


class Memory(ctypes.Structure):
    """What Peggy's session keeps beside its state."""

    _fields_ = [("saved", Saved * SAVED_STATES), ("answered", Listed * MOST_ANSWERED), ("count", U32)]


class ProverSession(ctypes.Structure):
    """Peggy's session."""

    _fields_ = [("nonce", Places), ("commitment", Places), ("phase", U32), ("memory", Memory)]


class ProverAnswer(ctypes.Structure):
    """What a call on Peggy's session answers."""

    _fields_ = [("session", ProverSession), ("values", Places), ("refusal", U32)]


class VerifierSession(ctypes.Structure):
    """Vic's session."""

    _fields_ = [("commitment", Places), ("challenge", U32), ("phase", U32)]


class VerifierAnswer(ctypes.Structure):
    """What bringing a commitment or a challenge to Vic's session answers."""

    _fields_ = [("session", VerifierSession), ("refusal", U32)]


class VerifierJudgement(ctypes.Structure):
    """What bringing a response to Vic's session answers."""

    _fields_ = [("verdict", Judgement), ("session", VerifierSession)]

    @property
    def refusal(self) -> int:
        """The refusal, which stands in the verdict."""
        return int(self.verdict.refusal)


class OrRound(ctypes.Structure):
    """One run of the OR proof."""

    _fields_ = [
        ("commitment0", Places),
        ("commitment1", Places),
        ("response0", Places),
        ("response1", Places),
        ("challenge", U32),
        ("challenge0", U32),
    ]


class OrJudgement(ctypes.Structure):
    """A verdict on a round of the OR proof."""

    _fields_ = [("accepted", U32), ("rows0", U32), ("rows1", U32), ("refusal", U32)]


class OrExtracted(ctypes.Structure):
    """An extracted witness of one of two sheets."""

    _fields_ = [("values", Places), ("side", U32), ("refusal", U32)]


class OrSession(ctypes.Structure):
    """Peggy's session of the OR proof."""

    _fields_ = [
        ("nonce", Places),
        ("response", Places),
        ("commitment0", Places),
        ("commitment1", Places),
        ("challenge", U32),
        ("side", U32),
        ("phase", U32),
    ]


class OrAnswer(ctypes.Structure):
    """What a call on Peggy's session of the OR proof answers."""

    _fields_ = [
        ("session", OrSession),
        ("values0", Places),
        ("values1", Places),
        ("challenge0", U32),
        ("refusal", U32),
    ]


class Watch(ctypes.Structure):
    """A watch for used nonces."""

    _fields_ = [
        ("rounds", Round * MOST_REMEMBERED),
        ("sheet", ctypes.c_uint8 * LONGEST_SHEET),
        ("length", U32),
        ("count", U32),
    ]


class Opened(ctypes.Structure):
    """What opening a watch answers."""

    _fields_ = [("watch", Watch), ("refusal", U32)]


class WatchAnswer(ctypes.Structure):
    """What a watch answers to a round."""

    _fields_ = [("watch", Watch), ("witness", Places), ("back", U32), ("verdict", Judgement)]


class Base(ctypes.Structure):
    """What all lines of a ledger share."""

    _fields_ = [("g", U32), ("h", U32), ("modulus", U32), ("order", U32), ("challenges", U32)]


class Line(ctypes.Structure):
    """A line of a ledger."""

    _fields_ = [
        ("kind", U32),
        ("first", U32),
        ("second", U32),
        ("commitment", U32),
        ("t", U32 * 2),
        ("challenge", U32),
        ("response", U32 * 3),
    ]


class Ledger(ctypes.Structure):
    """A ledger."""

    _fields_ = [("lines", Line * MOST_LINES), ("count", U32)]


class Checked(ctypes.Structure):
    """What a checked ledger is found to be."""

    _fields_ = [("accepted", U32), ("line", U32), ("refusal", U32)]


class Entry(ctypes.Structure):
    """What a line of a ledger is made of."""

    _fields_ = [
        ("kind", U32),
        ("first", U32),
        ("second", U32),
        ("value", U32),
        ("blinding", U32),
        ("nonce", U32 * 3),
        ("challenge", U32),
    ]


class Entries(ctypes.Structure):
    """What all lines of a ledger are made of."""

    _fields_ = [("entries", Entry * MOST_LINES), ("count", U32)]


class LedgerWritten(ctypes.Structure):
    """What making a ledger answers."""

    _fields_ = [("ledger", Ledger), ("refusal", U32)]
