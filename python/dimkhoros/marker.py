"""The marker's text, the reason's line and the game's text."""

from __future__ import annotations

from ._library import buffer, calls
from ._numbers import data, given
from ._sizes import LONGEST_GAME, LONGEST_REASON, LONGEST_TEXT


def mark(sheet: bytes, file: bytes, level: bytes) -> str:
    """The marker's text on the bytes of a sheet, a round file and a level file, which is one byte w from 1 to 64. Its
    last line is `pass` if every round is accepted and the product of one K for each round is at least 2^w, and
    otherwise `fail`. A refused sheet, file or level gives one line with its number."""
    text = buffer(LONGEST_TEXT)
    judged = (*given(data(sheet, "the sheet")), *given(data(file, "the round file")))
    length = calls.mark(*judged, *given(data(level, "the level")), text)
    return text.raw[:length].decode("ascii")


def reason(sheet: bytes, file: bytes) -> str:
    """What is wrong with a sheet, a round file or its round 0, in one line: `refused` with the number and the byte
    offset of the first value that breaks the rule, or `length` and the length found; `rejected` with each row that
    differs and both values; or `accepted`."""
    text = buffer(LONGEST_REASON)
    length = calls.reason(*given(data(sheet, "the sheet")), *given(data(file, "the round file")), text)
    return text.raw[:length].decode("ascii")


def game(sheet: bytes, file: bytes) -> str:
    """Which challenges Peggy can answer on the commitment of a file's round 0, with or without a witness: a line for
    each challenge that has an accepting response, rising, with the smallest one; or `none`; or `refused` with the
    number, 2 to 14, or 31 for a sheet that is not small: q^n above 4,096, or in a root sheet m above 4,096 or
    several rows. The challenge and the response of round 0 are not tested."""
    text = buffer(LONGEST_GAME)
    length = calls.game(*given(data(sheet, "the sheet")), *given(data(file, "the round file")), text)
    return text.raw[:length].decode("ascii")
