"""Peggy as a team: players who each hold a part of the witness, and the combiner of their rounds."""

from __future__ import annotations

import ctypes
from collections.abc import Callable, Iterable

from . import _structs
from ._library import calls
from ._numbers import exactly, given, listed, parts
from ._sizes import MOST_PLAYERS, PARTS
from .instance import Instance, sheet_of
from .refusals import Refusal, check

# What a team of another number of players is refused with.
_TEAM = 27


class Team:
    """Two to eight players on a sheet, each with a part of the witness, by the images of their parts, which multiply
    to the sheet's statement.

    Each player proves a part with a `Prover` of their own, on the sheet with the player's image as its statement
    (`Instance.with_statement`), and all hear the same challenge. The team joins what they send to one round, which is
    judged by the sheet itself."""

    __slots__ = ("_instance", "_images", "_players")

    def __init__(self, instance: Instance, images: Iterable[Iterable[int]]) -> None:
        """Takes the players of these images together, or refuses them: with 27 if they are not 2 to 8, 11 if an
        image's value is not in the group, and 28 if the images do not multiply to the statement."""
        sheet = sheet_of(instance)
        found = [exactly(instance.header.rows, image, "an image") for image in listed(images, "the images")]
        self._instance, self._players = instance, len(found)
        self._images = parts(found[:MOST_PLAYERS])
        # No call of the library only tests a team: both joining calls do so. Ones are commitments on every sheet.
        ones = _structs.Parts(*[1] * PARTS)
        joined = calls.team_commitment(*sheet, self._players, self._images, ones)
        check(joined.refusal)

    @property
    def instance(self) -> Instance:
        """The sheet."""
        return self._instance

    @property
    def players(self) -> int:
        """How many players the team has, 2 to 8."""
        return self._players

    def join_commitments(self, commitments: Iterable[Iterable[int]]) -> tuple[int, ...]:
        """The players' commitments, in the order of their images, multiplied modulo m row by row; or refusal 14. If
        there are not as many commitments as players, they are refused with 27."""
        rows = self._instance.header.rows
        brought = [exactly(rows, values, "a commitment") for values in listed(commitments, "the commitments")]
        return self._joined(brought, calls.team_commitment)[:rows]

    def join_responses(self, responses: Iterable[Iterable[int]]) -> tuple[int, ...]:
        """The players' responses, in the order of their images, joined column by column: added modulo q (exponent
        sheets) or multiplied modulo m (root sheets); or refusal 16. If there are not as many responses as players,
        they are refused with 27."""
        columns = self._instance.header.columns
        brought = [exactly(columns, values, "a response") for values in listed(responses, "the responses")]
        return self._joined(brought, calls.team_response)[:columns]

    def _joined(self, brought: list[tuple[int, ...]], call: Callable[..., ctypes.Structure]) -> tuple[int, ...]:
        """What one of the two calls makes of what the players bring, in eight places."""
        if len(brought) != self._players:
            raise Refusal(_TEAM)
        joined = call(*given(self._instance.bytes), self._players, self._images, parts(brought))
        check(joined.refusal)
        return tuple(joined.values)

    def __repr__(self) -> str:
        """The number of players, and the sheet."""
        return f"Team({self._players} players, {self._instance!r})"
