"""What all sessions have in common: a call spends the object that it is called on and returns another."""

from __future__ import annotations

import ctypes
import threading
from collections.abc import Callable
from typing import Any, TypeVar

from . import _stored
from ._numbers import data
from ._structs import U32
from .refusals import check

_Self = TypeVar("_Self", bound="Session")


class SessionSpent(RuntimeError):
    """A call was made on a session that an earlier call has spent. Go on with the session that the earlier call
    returned."""

    def __init__(self) -> None:
        """The error, with what to do."""
        super().__init__("this session is spent: go on with the one that the last call handed back")


class NotStored(Exception):
    """The session was not stored, and so the response was not returned and is gone. `session` is the session as it is
    after the response: it answers no challenge if no call returns. `error` is what the storing raised."""

    def __init__(self, session: Session, error: Exception) -> None:
        """The error, with why the session is not stored."""
        super().__init__(f"the session is not stored: {error}")
        self.session = session
        self.error = error


class Session:
    """A session of Peggy's or Vic's.

    A call that is carried out spends the object and returns another, with which to go on. A call that is refused
    spends nothing. A spent object allows nothing, not even to be looked at. Sessions cannot be copied or pickled."""

    __slots__ = ("_held", "_lock")

    # What the stored form begins with, and its version.
    _MARK: bytes
    _VERSION = 1
    # The struct of the library.
    _STRUCT: type[ctypes.Structure]

    def _hold(self, held: ctypes.Structure) -> None:
        """Makes this the object of a session of the library."""
        self._lock = threading.Lock()
        self._held: Any = held

    @classmethod
    def _of(cls: type[_Self], held: ctypes.Structure) -> _Self:
        """The object of a session of the library."""
        session = cls.__new__(cls)
        session._hold(held)
        return session

    def _look(self) -> Any:
        """What the session holds, if it is not spent."""
        held = self._held
        if held is None:
            raise SessionSpent()
        return held

    def _step(self: _Self, call: Callable[[Any], Any]) -> tuple[_Self, Any]:
        """Makes a call on what the session holds, and answers the session that comes after it with the call's answer.
        The object is spent before the call, and is given back what it held if the call is refused. So no two
        threads get an answer of one object, and whatever ends the call in between leaves the object spent."""
        with self._lock:
            held = self._look()
            self._held = None
            answer = call(held)
            if answer.refusal != 0:
                self._held = held
        check(answer.refusal)
        return self._of(self._STRUCT.from_buffer_copy(answer.session)), answer

    def to_stored(self) -> bytes:
        """The session's stored form, as docs/FORMATS.md describes it. Peggy's bytes hold her nonce and every saved
        one, these also after she has answered or was dropped."""
        held = self._look()
        words = (U32 * (ctypes.sizeof(held) // 4)).from_buffer_copy(held)
        return _stored.write(self._MARK, self._VERSION, tuple(words))

    @classmethod
    def _read(cls: type[_Self], stored: bytes) -> _Self:
        """The session of a stored form, with all that it holds. Any other bytes are `Damaged`."""
        count = ctypes.sizeof(cls._STRUCT) // 4
        values = _stored.read(cls._MARK, cls._VERSION, count, data(stored, "the stored session"))
        held = cls._STRUCT.from_buffer_copy((U32 * count)(*values))
        if not cls._is_made(held):
            raise _stored.Damaged()
        return cls._of(held)

    @classmethod
    def _is_made(cls, held: Any) -> bool:
        """Whether calls can have made a session that holds this."""
        return bool(held.phase <= _stored.LAST_PHASE)

    def _shown(self) -> str:
        """What of a session that is not spent is shown: no secret."""
        raise NotImplementedError

    def __repr__(self) -> str:
        """The phase and what is public."""
        name = type(self).__name__
        return f"{name}(spent)" if self._held is None else f"{name}({self._shown()})"

    def __reduce_ex__(self, protocol: object) -> Any:
        """A session is neither copied nor pickled."""
        raise TypeError("a session cannot be copied: two answers from two copies give the witness away")
