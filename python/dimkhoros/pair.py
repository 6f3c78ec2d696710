"""Two sheets, and the OR proof of a witness of one of them: judging and extracting."""

from __future__ import annotations

from . import _structs
from ._library import calls
from ._numbers import exactly, given, number, of_kind, places, rows
from .instance import Instance, sheet_of
from .refusals import check
from .rounds import OrRound, OrVerdict, OrWitness, Side

# What a commitment that is none is refused with.
_COMMITMENT = 14


class Pair:
    """Two sheets with one challenge count K, of one of which a witness is claimed. They may differ in everything else.
    Sheets with different counts are refused with 26."""

    __slots__ = ("_first", "_second")

    def __init__(self, first: Instance, second: Instance) -> None:
        """Takes two sheets together, or refuses them with 26."""
        # No call of the library only tests two sheets: judging does so first. A commitment of zeros is none, so that
        # it is refused with 14 if the counts are the same, and else with 26.
        judged = calls.or_judge(*sheet_of(first), *sheet_of(second), _structs.OrRound())
        if judged.refusal != _COMMITMENT:
            check(judged.refusal)
        self._first, self._second = first, second

    def instance(self, side: int) -> Instance:
        """The sheet of a side."""
        return self._second if Side(number(side, "the side")) == Side.SECOND else self._first

    def judge(self, round: OrRound) -> OrVerdict:
        """The verdict on a round, or a refusal 14 to 16: accepted if both sides are, else rejected with the rows
        of each side in which its two values differ."""
        judged = calls.or_judge(*sheets(self), self._struct(round))
        check(judged.refusal)
        return OrVerdict(judged.accepted == 1, rows(judged.rows0), rows(judged.rows1))

    def extract(self, one: OrRound, other: OrRound) -> OrWitness:
        """The extractor: the witness that two accepted rounds with the same two commitments and different challenges
        c give away, or a refusal 14 to 16 or 18 to 20. It is the first sheet's if the two c0 differ, else the
        second's."""
        extracted = calls.or_extract(*sheets(self), self._struct(one), self._struct(other))
        check(extracted.refusal)
        side = Side(extracted.side)
        return OrWitness(side, tuple(extracted.values[: self.instance(side).header.columns]))

    def _struct(self, round: OrRound) -> _structs.OrRound:
        """A round as the library takes it, if it has as many values as rounds of these sheets have."""
        of_kind(OrRound, round, "the round")
        first, second = self._first.header, self._second.header
        return _structs.OrRound(
            places(exactly(first.rows, round.commitment0, "the commitment of side 0")),
            places(exactly(second.rows, round.commitment1, "the commitment of side 1")),
            places(exactly(first.columns, round.response0, "the response of side 0")),
            places(exactly(second.columns, round.response1, "the response of side 1")),
            round.challenge,
            round.challenge0,
        )

    def __repr__(self) -> str:
        """Both sheets."""
        return f"Pair({self._first!r}, {self._second!r})"


def sheets(pair: Pair) -> tuple[bytes, int, bytes, int]:
    """Both sheets' bytes as the library takes them."""
    of_kind(Pair, pair, "the pair")
    return (*given(pair.instance(Side.FIRST).bytes), *given(pair.instance(Side.SECOND).bytes))
