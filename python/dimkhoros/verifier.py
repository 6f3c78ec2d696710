"""Vic's session."""

from __future__ import annotations

from collections.abc import Iterable
from enum import IntEnum

from . import _sizes, _structs
from ._library import calls
from ._numbers import exactly, held, number, places
from .instance import Instance, sheet_of, verdict
from .rounds import Verdict
from .session import Session


class VerifierPhase(IntEnum):
    """The phases of a verifier's session, in their order."""

    WAITING = _sizes.VERIFIER_WAITING
    HOLDING = _sizes.VERIFIER_HOLDING
    ASKED = _sizes.VERIFIER_ASKED
    JUDGED = _sizes.VERIFIER_JUDGED


class Verifier(Session):
    """A verifier's session.

    It takes the commitment, then the challenge, then the response, one in a call, and refuses any other order with
    21: a challenge cannot be given before the commitment is heard."""

    __slots__ = ()
    _MARK = b"VRF"
    _STRUCT = _structs.VerifierSession

    def __init__(self) -> None:
        """A new session, which holds zeros."""
        self._hold(calls.verifier_new())

    def take_commitment(self, instance: Instance, commitment: Iterable[int]) -> Verifier:
        """Brings the commitment to a waiting session. Refused with 14 or 21."""
        sheet, t = sheet_of(instance), places(exactly(instance.header.rows, commitment, "the commitment"))
        session, _ = self._step(lambda found: calls.verifier_commitment(*sheet, found, t))
        return session

    def take_challenge(self, instance: Instance, challenge: int) -> Verifier:
        """Brings the challenge to a session that holds a commitment. Refused with 15 or 21. You must draw the
        challenge at random below the sheet's challenge count."""
        sheet, c = sheet_of(instance), number(challenge, "the challenge")
        session, _ = self._step(lambda found: calls.verifier_challenge(*sheet, found, c))
        return session

    def take_response(self, instance: Instance, response: Iterable[int]) -> tuple[Verifier, Verdict]:
        """Brings the response to a session that has asked, and answers the session and the verdict. Refused with 16
        or 21."""
        sheet, r = sheet_of(instance), places(exactly(instance.header.columns, response, "the response"))
        session, answer = self._step(lambda found: calls.verifier_response(*sheet, found, r))
        return session, verdict(answer.verdict)

    @classmethod
    def from_stored(cls, stored: bytes) -> Verifier:
        """Reads a stored session back. Raises `Damaged` if the bytes are not a stored session.

        Vic goes on with what he finds: it holds no secret, and he asks the stored challenge again and never another."""
        return cls._read(stored)

    @property
    def phase(self) -> VerifierPhase:
        """The session's phase."""
        return VerifierPhase(self._look().phase)

    @property
    def commitment(self) -> tuple[int, ...]:
        """The commitment that the session holds, no values in a new one."""
        return held(self._look().commitment)

    @property
    def challenge(self) -> int:
        """The challenge that the session holds, 0 in a new one."""
        return int(self._look().challenge)

    def _shown(self) -> str:
        """The phase and all that is held."""
        return f"phase={self.phase.name}, commitment={self.commitment}, challenge={self.challenge}"
