"""The stored form of sessions: mark, version, length, values and check value, as docs/FORMATS.md has it."""

from __future__ import annotations

import struct
import zlib

LAST_PHASE = 3


class Damaged(ValueError):
    """The bytes are not a stored session. Their length, mark, version or check value is wrong, or no call makes a
    session of these numbers."""

    def __init__(self) -> None:
        """The error, in a sentence."""
        super().__init__("the bytes are not a stored session, or they are damaged")


def write(mark: bytes, version: int, values: tuple[int, ...]) -> bytes:
    """The stored form of these values under a mark of three letters and a version."""
    start = struct.pack(">3sHH", mark, version, 11 + 4 * len(values))
    before = start + struct.pack(f">{len(values)}I", *values)
    return before + struct.pack(">I", zlib.crc32(before))


def read(mark: bytes, version: int, count: int, stored: bytes) -> tuple[int, ...]:
    """The values of which these bytes are the stored form under a mark and a version."""
    if len(stored) != 11 + 4 * count:
        raise Damaged()
    values = struct.unpack_from(f">{count}I", stored, 7)
    if write(mark, version, values) != stored:
        raise Damaged()
    return values
