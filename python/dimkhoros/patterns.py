"""Pattern files."""

from __future__ import annotations

from dataclasses import dataclass
from enum import IntEnum

from ._library import buffer, calls
from ._numbers import data, given, several
from ._sizes import SHIPPED_PATTERNS
from .refusals import check

# How many bytes stand before the first pattern: mark, version and count.
_HEADER = 6

# What a sheet is refused with whose pattern is not there, or takes another count of values.
_NO_PATTERN = 1


class Pattern(IntEnum):
    """The numbers of the patterns of the shipped file, and 0, which asks for a root sheet of any file."""

    ROOT = 0
    SCHNORR = 1
    OKAMOTO = 2
    EQUALITY = 3
    DIFFIE_HELLMAN = 4
    PRODUCT = 5


@dataclass(frozen=True)
class Layout:
    """A pattern of a file: the table of a sheet before its public values are known. Digit i stands for the i-th public
    value, from 1, and 0 for the entry 1."""

    rows: int
    columns: int
    values: int
    digits: tuple[tuple[int, ...], ...]


class Patterns:
    """A pattern file that has been tested: 1 to 32 tables of digits, by which sheets are made.

    The patterns count from 1, and 0 asks for a root sheet, whatever the file."""

    __slots__ = ("_bytes",)

    def __init__(self, file: bytes) -> None:
        """Tests a pattern file, as `load` does."""
        file = data(file, "the pattern file")
        # No call of the library only tests a pattern file: the sheet maker does so first, whatever it is asked for. A
        # root sheet takes a statement value, so one without is refused with 1 if the file is right, and else with
        # 23 or 24.
        none = several(())
        made = calls.from_pattern(*given(file), Pattern.ROOT, 0, 0, 0, none, 0, none, 0, buffer(0), 0)
        if made.refusal != _NO_PATTERN:
            check(made.refusal)
        self._bytes = file

    @classmethod
    def load(cls, file: bytes) -> Patterns:
        """Tests a pattern file, or refuses it with 23 or 24."""
        return cls(file)

    @classmethod
    def shipped(cls) -> Patterns:
        """The shipped file, whose five patterns `Pattern` names."""
        file = buffer(SHIPPED_PATTERNS)
        written = calls.patterns(file, len(file))
        check(written.refusal)
        return cls(file.raw[: written.length])

    @property
    def bytes(self) -> bytes:
        """The file's bytes."""
        return self._bytes

    @property
    def layouts(self) -> tuple[Layout, ...]:
        """All patterns, in the file's order: the first one has the number 1."""
        found: list[Layout] = []
        rest = self._bytes[_HEADER:]
        while rest:
            rows, columns, values = rest[:3]
            digits = [tuple(rest[3 + columns * row : 3 + columns * (row + 1)]) for row in range(rows)]
            found.append(Layout(rows, columns, values, tuple(digits)))
            rest = rest[3 + rows * columns :]
        return tuple(found)

    def __len__(self) -> int:
        """How many patterns the file has, 1 to 32."""
        return self._bytes[_HEADER - 1]

    def __eq__(self, other: object) -> bool:
        """Whether the other is the same file."""
        return isinstance(other, Patterns) and self._bytes == other._bytes

    def __hash__(self) -> int:
        """The hash of the file's bytes."""
        return hash(self._bytes)

    def __repr__(self) -> str:
        """The patterns."""
        return f"Patterns({', '.join(map(repr, self.layouts))})"
