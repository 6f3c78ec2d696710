"""Rounds and the verdicts on them."""

from __future__ import annotations

from collections.abc import Iterable
from dataclasses import dataclass
from enum import IntEnum

from . import _structs
from ._numbers import exactly, hold, number, numbers, of_kind, places


@dataclass(frozen=True, init=False)
class Round:
    """One run of the protocol: the commitment t, s values, the challenge c, and the response r, n values."""

    commitment: tuple[int, ...]
    challenge: int
    response: tuple[int, ...]

    def __init__(self, commitment: Iterable[int], challenge: int, response: Iterable[int]) -> None:
        """Lists become tuples."""
        hold(self, "commitment", numbers(commitment, "the commitment"))
        hold(self, "challenge", number(challenge, "the challenge"))
        hold(self, "response", numbers(response, "the response"))


@dataclass(frozen=True, init=False)
class OrRound:
    """One run of the OR proof: both commitments, c, the first side's challenge c0, and both responses. The second
    side has the challenge (c - c0) mod K."""

    commitment0: tuple[int, ...]
    commitment1: tuple[int, ...]
    challenge: int
    challenge0: int
    response0: tuple[int, ...]
    response1: tuple[int, ...]

    def __init__(
        self,
        commitment0: Iterable[int],
        commitment1: Iterable[int],
        challenge: int,
        challenge0: int,
        response0: Iterable[int],
        response1: Iterable[int],
    ) -> None:
        """Lists become tuples."""
        hold(self, "commitment0", numbers(commitment0, "the commitment of side 0"))
        hold(self, "commitment1", numbers(commitment1, "the commitment of side 1"))
        hold(self, "challenge", number(challenge, "the challenge"))
        hold(self, "challenge0", number(challenge0, "the challenge of side 0"))
        hold(self, "response0", numbers(response0, "the response of side 0"))
        hold(self, "response1", numbers(response1, "the response of side 1"))


def round_struct(round: Round, rows: int, columns: int) -> _structs.Round:
    """A round as the library takes it, if it has the values of a sheet of so many rows and columns."""
    of_kind(Round, round, "the round")
    commitment = exactly(rows, round.commitment, "the commitment")
    response = exactly(columns, round.response, "the response")
    return _structs.Round(places(commitment), round.challenge, places(response))


def _rows_in_words(rows: tuple[int, ...]) -> str:
    """Rows as a verdict names them."""
    return " ".join(["row" if len(rows) == 1 else "rows", *map(str, rows)])


@dataclass(frozen=True)
class Verdict:
    """What the verifier says of a round. It is true if the round is accepted."""

    accepted: bool
    rows: tuple[int, ...] = ()
    """The rows, from 0 and rising, in which the two sides differ: at least one if the round is rejected."""

    def __bool__(self) -> bool:
        """Whether the round is accepted."""
        return self.accepted

    def __str__(self) -> str:
        """`accepted`, or `rejected` with the rows."""
        return "accepted" if self.accepted else f"rejected in {_rows_in_words(self.rows)}"


@dataclass(frozen=True)
class OrVerdict:
    """What is said of a round of the OR proof. It is true if both sides are accepted."""

    accepted: bool
    rows0: tuple[int, ...] = ()
    """The rows in which side 0's two values differ: none if that side is accepted."""
    rows1: tuple[int, ...] = ()
    """The same of side 1."""

    def __bool__(self) -> bool:
        """Whether the round is accepted."""
        return self.accepted

    def __str__(self) -> str:
        """`accepted`, or `rejected` with the rows of each side that is rejected."""
        sides = [
            f"on side {side} in {_rows_in_words(rows)}" for side, rows in enumerate((self.rows0, self.rows1)) if rows
        ]
        return "accepted" if self.accepted else f"rejected {' and '.join(sides)}"


class Side(IntEnum):
    """One of two sheets."""

    FIRST = 0
    SECOND = 1

    @classmethod
    def _missing_(cls, value: object) -> Side:
        """No other number is a side."""
        raise ValueError("a side must be 0 or 1")

    @property
    def other(self) -> Side:
        """The other side."""
        return Side(1 - self)


@dataclass(frozen=True)
class OrWitness:
    """A witness of one of two sheets: the side that it is a witness of, and its values."""

    side: Side
    values: tuple[int, ...]
