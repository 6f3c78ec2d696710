"""What calls are refused with."""

from __future__ import annotations

# Every refusal's sentence. They are those of include/dimkhoros.h, to which a test holds them.
SENTENCES = {
    1: "the pattern file has no pattern of this number, or the pattern takes a different number of values",
    2: "the sheet is shorter than a header or does not begin with HOM",
    3: "the sheet's version is not 1",
    4: "the kind must be 1, exponent, or 2, root",
    5: "the modulus must be 3 or more",
    6: "the order or exponent must be 2 or more",
    7: "rows and columns must be 1 to 8 each, and equal in a root sheet",
    8: "the challenge count K must be 2 to 65536, and no number from 2 to K - 1 may divide the order or exponent",
    9: "the sheet is longer or shorter than its header says",
    10: "a table entry, public value or generator lies outside the group",
    11: "a value of the statement or of a player's image lies outside the group",
    12: "the bytes are not a round file of this sheet, the file is full, or the version asked for is not 1 or 2",
    13: "the file has no round of this number",
    14: "a commitment value lies outside the group",
    15: "the challenge must be below the challenge count K, or at most 65535 if it is written to a round file of"
    " version 2",
    16: "a value of the witness, nonce, response or ledger's entry lies outside the domain",
    17: "the image of the witness is not the statement",
    18: "the two rounds have different commitments",
    19: "the two rounds have the same challenge",
    20: "one of the two rounds, or both, would be rejected",
    21: "the session's state does not allow the call, or what the session or watch holds does not fit this sheet",
    22: "the buffer is too short for the result",
    23: "the bytes are not a pattern file: the mark, version, count, rows, columns, number of values or length is wrong",
    24: "a pattern has a digit above its number of values, or a value that no digit names",
    25: "the level must be one byte from 1 to 64",
    26: "the two sheets have different challenge counts",
    27: "the team must have 2 to 8 players",
    28: "the images of the team's players do not multiply to the statement",
    29: "there must be 1 to 8 generators, a coefficient for each row, generator and column, and a statement value"
    " for each row",
    30: "a coefficient must be below the order",
    31: "the sheet is too large for the game, which takes q^n up to 4096, or in a root sheet m up to 4096 and one row",
    32: "the commitment that the session holds was answered before",
    33: "the session's list of answered commitments is full: it holds 64",
    34: "the name of a saved state must be 0 to 7, and a return needs one that was saved",
    35: "the kind of a ledger's line must be 1, commitment, 2, sum, or 3, product",
    36: "a sum or product of a ledger must name two lines above its own",
    37: "a ledger has at most 64 lines",
}


class Refusal(Exception):
    """A call that was refused. It has changed nothing.

    If several refusals apply, the earliest in the order 23, 24, 1 to 9, 27, 29, 30, 10, 11, 26, 37, 35, 36, 12, 25,
    13 to 16, 28, 31, 17 to 21, 32 to 34, 22 is given."""

    def __init__(self, number: int) -> None:
        """The refusal of a number."""
        super().__init__(number)
        self._number = number

    @property
    def number(self) -> int:
        """The refusal's number, from 1 on."""
        return self._number

    @property
    def sentence(self) -> str:
        """What the refusal says, in one sentence without its number."""
        return SENTENCES.get(self._number, "no refusal has this number")

    def __str__(self) -> str:
        """The number with the sentence."""
        return f"refusal {self.number}: {self.sentence}"


def check(number: int) -> None:
    """Raises the refusal of this number, which an answer of the library has. 0 refuses nothing."""
    if number != 0:
        raise Refusal(number)
