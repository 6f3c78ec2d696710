"""A watch for nonces that are used twice."""

from __future__ import annotations

import threading
from dataclasses import dataclass

from . import _structs
from ._library import calls
from .instance import Instance, sheet_of, verdict
from .refusals import check
from .rounds import Round, Verdict, round_struct


@dataclass(frozen=True)
class Reuse:
    """An earlier use of a nonce: a remembered round with the same commitment and a different challenge."""

    back: int
    """How many accepted rounds back it stands, 1 to 63: 1 is the accepted round just before."""
    witness: tuple[int, ...]
    """The witness that the two rounds give away."""


@dataclass(frozen=True)
class Heard:
    """What a watch says of a round. It is true if the round is accepted."""

    verdict: Verdict
    reuse: Reuse | None = None
    """The nearest earlier use of the round's nonce with another challenge, if the watch remembers one."""

    def __bool__(self) -> bool:
        """Whether the round is accepted."""
        return self.verdict.accepted


class Watch:
    """A watch for used nonces: it is opened on one sheet, is given rounds one by one, and remembers the last 63
    accepted ones.

    For each accepted round it names the nearest remembered round with the same commitment and a different challenge. It
    names none exactly if it remembers no such round. So two uses of a nonce that are more than 63 accepted rounds apart
    are not seen. Rounds that are rejected or refused are not remembered, and do not count.

    `copy` makes a watch that goes on apart: neither knows the rounds that the other is given."""

    __slots__ = ("_instance", "_held", "_lock")

    def __init__(self, instance: Instance) -> None:
        """Opens a watch on a sheet, as `open` does."""
        opened = calls.watch_open(*sheet_of(instance))
        check(opened.refusal)
        self._hold(instance, opened.watch)

    @classmethod
    def open(cls, instance: Instance) -> Watch:
        """Opens a watch on a sheet. It remembers nothing."""
        return cls(instance)

    def _hold(self, instance: Instance, held: _structs.Watch) -> None:
        """Makes this the object of a watch of the library."""
        self._instance, self._lock = instance, threading.Lock()
        self._held = _structs.Watch.from_buffer_copy(held)

    @classmethod
    def _of(cls, instance: Instance, held: _structs.Watch) -> Watch:
        """The object of a watch of the library."""
        watch = cls.__new__(cls)
        watch._hold(instance, held)
        return watch

    def hear(self, round: Round, instance: Instance | None = None) -> Heard:
        """Gives the watch a round, and answers the verdict on it and the reuse that the watch sees. An accepted round
        is then the newest that it remembers, and of 63 older ones the oldest is forgotten.

        `instance` is the sheet of the round, if it may differ from the watch's. Refused with 14 to 16 by that sheet,
        and then with 21 if its bytes differ from the watch's. A round that is rejected or refused leaves the watch
        as it is."""
        sheet = self._instance if instance is None else instance
        given = sheet_of(sheet)
        made = round_struct(round, sheet.header.rows, sheet.header.columns)
        # Two threads that give a round at once lose none.
        with self._lock:
            answer = calls.watch_round(*given, self._held, made)
            said = verdict(answer.verdict)
            self._held = _structs.Watch.from_buffer_copy(answer.watch)
        if answer.back == 0:
            return Heard(said)
        return Heard(said, Reuse(answer.back, tuple(answer.witness[: sheet.header.columns])))

    @property
    def instance(self) -> Instance:
        """The sheet."""
        return self._instance

    @property
    def remembered(self) -> tuple[Round, ...]:
        """The rounds that the watch remembers, the newest first, 63 at most."""
        held, header = self._held, self._instance.header
        return tuple(
            Round(found.commitment[: header.rows], found.challenge, found.response[: header.columns])
            for found in held.rounds[: held.count]
        )

    def copy(self) -> Watch:
        """A watch that remembers the same, and goes on apart."""
        return Watch._of(self._instance, self._held)

    def __copy__(self) -> Watch:
        """As `copy`."""
        return self.copy()

    def __deepcopy__(self, memo: object) -> Watch:
        """As `copy`."""
        return self.copy()

    def __repr__(self) -> str:
        """How many rounds are remembered, and the sheet."""
        return f"Watch({len(self.remembered)} remembered, {self._instance!r})"
