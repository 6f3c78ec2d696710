"""Peggy's session."""

from __future__ import annotations

from collections.abc import Callable, Iterable
from enum import IntEnum
from typing import Any, TypeVar

from . import _sizes, _structs
from ._library import calls
from ._numbers import exactly, function, held, number, places
from ._stored import LAST_PHASE, Damaged
from .instance import Instance, sheet_of
from .session import NotStored, Session

_Peggy = TypeVar("_Peggy", bound="ProverSession")


class ProverPhase(IntEnum):
    """The phases of a prover's session."""

    NEW = _sizes.PROVER_NEW
    COMMITTED = _sizes.PROVER_COMMITTED
    ANSWERED = _sizes.PROVER_ANSWERED
    DROPPED = _sizes.PROVER_DROPPED


class Found(IntEnum):
    """What `reopen` found: a session in one of the prover's phases, or bytes that are not a session."""

    NEW = _sizes.PROVER_NEW
    """Nothing had happened."""
    COMMITTED = _sizes.PROVER_COMMITTED
    """It held a nonce, which may have been used. It is dropped: store the session that is returned."""
    ANSWERED = _sizes.PROVER_ANSWERED
    """A challenge was answered."""
    DROPPED = _sizes.PROVER_DROPPED
    """It was given up."""
    DAMAGED = 4
    """The bytes are not a stored session. Store the session that is returned, which is a new one."""


class ProverSession(Session):
    """What both kinds of a prover's session have in common."""

    __slots__ = ()

    @classmethod
    def reopen(cls: type[_Peggy], stored: bytes) -> tuple[_Peggy, Found]:
        """Reads a stored session back without the nonce that it holds, and answers the session and what was found. A
        session that was committed is dropped. If the bytes are damaged, a new session is returned. Store both over
        these bytes. A session in another phase is returned as it was stored.

        So the session is never committed. This is rule 1 of docs/BOXES.md: only what this run has drawn is answered.
        The bytes may be an old copy, from a backup or a write that the disk lost, of a session whose challenge was
        answered long ago. Saved states and the list of a `Prover` come back as they were stored: a box must not return
        to a state that it finds saved, for the same reason."""
        try:
            session = cls.from_stored_with_nonce(stored)
        except Damaged:
            return cls(), Found.DAMAGED
        found = Found(session.phase)
        return (session.drop() if found == Found.COMMITTED else session), found

    @classmethod
    def from_stored_with_nonce(cls: type[_Peggy], stored: bytes) -> _Peggy:
        """Reads a stored session back with its nonce. Raises `Damaged` if the bytes are not a stored session.

        A box must not answer on what this returns. Rule 1 of docs/BOXES.md: only what this run has drawn is
        answered, and a committed session that is found in a file is dropped. If the same nonce was answered before,
        another answer gives the witness away, and nothing in the bytes tells. Use `reopen`. This is for programs that
        look at stored sessions, and for those who know that no other copy of these bytes is ever read."""
        return cls._read(stored)

    def drop(self: _Peggy) -> _Peggy:
        """Gives up a new or committed session. Refused with 21."""
        raise NotImplementedError

    @property
    def phase(self) -> ProverPhase:
        """The session's phase."""
        return ProverPhase(self._look().phase)


class Prover(ProverSession):
    """A prover's session.

    Over any chain of calls in which each is made on the session that the last one returned, no commitment is
    answered twice, and at most one challenge is answered if no call returns: this is proved of the library. It cannot
    know of copies that are made by `to_stored` and `from_stored_with_nonce`. A box that stores its session answers by
    `respond_after` and reads it back by `reopen`. Nor does anything wipe the memory that a nonce stood in.

    A session can be saved under eight names and returned to, by `save` and `return_to`. That is for demonstrations,
    and a box must not save: a saved copy keeps its nonce, also after the session has answered or was dropped."""

    __slots__ = ()
    _MARK = b"PRV"
    _VERSION = 2
    _STRUCT = _structs.ProverSession

    def __init__(self) -> None:
        """A new session, which holds zeros. Nothing is saved in it, and nothing listed as answered."""
        self._hold(calls.prover_new())

    def commit(self, instance: Instance, nonce: Iterable[int]) -> tuple[Prover, tuple[int, ...]]:
        """Commits a new session to a nonce, and answers the session and the commitment. Refused with 16 or 21.

        You must draw the nonce at random from all coordinates, anew for each commitment. A commitment that was
        answered before is not refused here: responding to it is, with 32."""
        sheet, k = sheet_of(instance), places(exactly(instance.header.columns, nonce, "the nonce"))
        session, answer = self._step(lambda found: calls.prover_commit(*sheet, found, k))
        return session, tuple(answer.values[: instance.header.rows])

    def respond(self, instance: Instance, challenge: int, witness: Iterable[int]) -> tuple[Prover, tuple[int, ...]]:
        """Answers the session and the response of a committed session to a challenge, by a witness, sets the held nonce
        to zeros and lists the commitment as answered. Saved states stay, with their nonces. Refused with 15 to 17, 21,
        then 32 if the held commitment is listed, compared in all eight places, and 33 if the list holds 64. A committed
        session that is refused with 15 to 21 can still answer; after 32 and 33 it can be dropped or returned from."""
        sheet, c = sheet_of(instance), number(challenge, "the challenge")
        x = places(exactly(instance.header.columns, witness, "the witness"))
        session, answer = self._step(lambda found: calls.prover_respond(*sheet, found, c, x))
        return session, tuple(answer.values[: instance.header.columns])

    def respond_after(
        self, instance: Instance, challenge: int, witness: Iterable[int], store: Callable[[bytes], object]
    ) -> tuple[Prover, tuple[int, ...]]:
        """Responds as `respond` does, and returns the response only after `store` has succeeded.

        `store` is given the stored form of the whole session as it is after the response, with its saved states and
        its list. It must write this over the one that was stored before, and must return only once it would be found
        again after the box is switched off. If it raises an error, `NotStored` is raised and the response is gone.
        If the call is refused, `store` is not called."""
        function(store, "the store")
        session, response = self.respond(instance, challenge, witness)
        store_or_raise(session, store)
        return session, response

    def drop(self) -> Prover:
        """Gives up a new or committed session, and sets the held nonce to zeros. Saved states stay, with their nonces.
        Refused with 21."""
        session, _ = self._step(calls.prover_drop)
        return session

    def save(self, name: int) -> Prover:
        """Saves the state, nonce and commitment of a session, in whatever phase, under a name from 0 to 7, in the place
        of what was saved there. Nothing else changes. Refused with 34.

        Saving is for demonstrations: a box must not save. The saved copy keeps its nonce until the same name is
        saved again, whatever the session does, and it stands in `to_stored` too."""
        under = number(name, "the name")
        session, _ = self._step(lambda found: calls.prover_save(found, under))
        return session

    def return_to(self, name: int) -> Prover:
        """Brings back the state, nonce and commitment that were saved under a name, in whatever phase the session is.
        Nothing else changes: the saved states and the list of answered commitments stay, so that the return can be made
        again. Refused with 34, for a name of 8 or more and for one that was never saved."""
        under = number(name, "the name")
        session, _ = self._step(lambda found: calls.prover_return(found, under))
        return session

    def saved(self, name: int) -> ProverPhase | None:
        """The phase that is saved under a name, `None` for a name of 8 or more and for one that was never saved."""
        under, saved = number(name, "the name"), self._look().memory.saved
        if under >= len(saved) or saved[under].kept == 0:
            return None
        return ProverPhase(saved[under].phase)

    @property
    def answered(self) -> int:
        """How many commitments the session has answered, at most 64. A return does not lower it."""
        return int(self._look().memory.count)

    @classmethod
    def _is_made(cls, held: Any) -> bool:
        """Whether calls can have made a session that holds this: the phases, the flags and the count."""
        memory = held.memory
        states = all(saved.phase <= LAST_PHASE and saved.kept <= 1 for saved in memory.saved)
        return super()._is_made(held) and states and bool(memory.count <= _sizes.MOST_ANSWERED)

    @property
    def commitment(self) -> tuple[int, ...]:
        """The commitment that the session holds, no values in a new one."""
        return held(self._look().commitment)

    def _shown(self) -> str:
        """The phase and the commitment, and never a nonce, held or saved."""
        return f"phase={self.phase.name}, commitment={self.commitment}"


def store_or_raise(session: Session, store: Callable[[bytes], object]) -> None:
    """Stores a session that has answered, or raises `NotStored` with it."""
    try:
        store(session.to_stored())
    except Exception as error:
        raise NotStored(session, error) from error
