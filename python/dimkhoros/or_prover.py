"""Peggy's session of the OR proof."""

from __future__ import annotations

from collections.abc import Callable, Iterable

from . import _structs
from ._library import calls
from ._numbers import exactly, function, held, number, numbers, places
from ._stored import Damaged
from .pair import Pair, sheets
from .prover import ProverPhase, ProverSession, store_or_raise
from .rounds import OrRound, Side


class OrProver(ProverSession):
    """A prover's session of the OR proof. It saves nothing: over any chain of calls in which each is made on the
    session that the last one returned, at most one challenge is answered. This is proved of the library.

    Holders of either witness make exactly the accepted rounds for a challenge, each from a single choice of nonce,
    simulated challenge and simulated response. So a round does not tell which witness is known, if these are drawn
    at random."""

    __slots__ = ()
    _MARK = b"ORP"
    _STRUCT = _structs.OrSession

    def __init__(self) -> None:
        """A new session, which holds zeros."""
        self._hold(calls.or_prover_new())

    def commit(
        self, pair: Pair, known: int, nonce: Iterable[int], challenge: int, response: Iterable[int]
    ) -> tuple[OrProver, tuple[tuple[int, ...], tuple[int, ...]]]:
        """Commits a new session: to a nonce of the side whose witness is known, and to a challenge and a response
        with which the other side is simulated. Answers the session and both commitments. Refused with 15, 16 or 21.

        You must draw nonce, challenge and response at random, anew for each session."""
        both, side = sheets(pair), Side(number(known, "the side"))
        k = places(exactly(_columns(pair, side), nonce, "the nonce"))
        d = number(challenge, "the simulated challenge")
        r = places(exactly(_columns(pair, side.other), response, "the simulated response"))
        session, _ = self._step(lambda found: calls.or_prover_commit(*both, found, side, k, d, r))
        return session, session.commitments

    def respond(self, pair: Pair, challenge: int, witness: Iterable[int]) -> tuple[OrProver, OrRound]:
        """Answers a challenge by a witness of the side that the session holds, and sets nonce, side and simulated
        values to zeros. The answer is the session and the whole round. Refused with 15 to 17 or 21; a committed
        session that is refused can still answer."""
        both, c = sheets(pair), number(challenge, "the challenge")
        x = places(self._witness(pair, witness))
        session, answer = self._step(lambda found: calls.or_prover_respond(*both, found, c, x))
        response0 = tuple(answer.values0[: _columns(pair, Side.FIRST)])
        response1 = tuple(answer.values1[: _columns(pair, Side.SECOND)])
        return session, OrRound(*session.commitments, c, answer.challenge0, response0, response1)

    def respond_after(
        self, pair: Pair, challenge: int, witness: Iterable[int], store: Callable[[bytes], object]
    ) -> tuple[OrProver, OrRound]:
        """Responds as `respond` does, and returns the round only after `store` has succeeded, as
        `Prover.respond_after` does."""
        function(store, "the store")
        session, round = self.respond(pair, challenge, witness)
        store_or_raise(session, store)
        return session, round

    def drop(self) -> OrProver:
        """Gives up a new or committed session, and sets all but its commitments to zeros. Refused with 21."""
        session, _ = self._step(calls.or_prover_drop)
        return session

    @classmethod
    def _read(cls, stored: bytes) -> OrProver:
        """The session of a stored form. One whose side is neither 0 nor 1 is `Damaged` too."""
        session = super()._read(stored)
        if session._look().side > Side.SECOND:
            raise Damaged()
        return session

    @property
    def commitments(self) -> tuple[tuple[int, ...], tuple[int, ...]]:
        """The commitments that the session holds, no values in a new one."""
        found = self._look()
        return held(found.commitment0), held(found.commitment1)

    def _witness(self, pair: Pair, witness: Iterable[int]) -> tuple[int, ...]:
        """The witness, if it has as many values as the side that a committed session holds asks for. A session in any
        other phase holds no side, and is refused whatever the witness: then it may have those of either side."""
        found = numbers(witness, "the witness")
        if self.phase == ProverPhase.COMMITTED or len(found) not in [_columns(pair, side) for side in Side]:
            return exactly(_columns(pair, self._look().side), found, "the witness")
        return found

    def _shown(self) -> str:
        """The phase and the commitments, and never the nonce or which side is known."""
        return f"phase={self.phase.name}, commitments={self.commitments}"


def _columns(pair: Pair, side: int) -> int:
    """How many values a witness, a nonce or a response of a side has."""
    return pair.instance(side).header.columns
