"""Round files: reading them, adding rounds to them and converting them."""

from __future__ import annotations

from collections.abc import Iterator
from typing import overload

from ._library import buffer, calls
from ._numbers import counted, data, given, number, of_kind, size, whole
from ._sizes import LONGEST_FILE
from .instance import Instance
from .refusals import check
from .rounds import Round, round_struct


class RoundFile:
    """A round file of an instance. Its version is 1 or 2: in version 2 a challenge is stored in 16 bits, in version 1
    in 32.

    It has a length, the number of its rounds, goes through them in order, and gives each by its number: `file[0]`."""

    __slots__ = ("_instance", "_bytes", "_count")

    def __init__(self, instance: Instance, file: bytes) -> None:
        """Opens a round file, as `open` does."""
        of_kind(Instance, instance, "the sheet")
        self._instance, self._bytes = instance, data(file, "the round file")
        found = calls.count(*self._given())
        check(found.refusal)
        self._count = int(found.count)

    @classmethod
    def open(cls, instance: Instance, file: bytes) -> RoundFile:
        """Opens a round file, or refuses it with 12."""
        return cls(instance, file)

    def _given(self) -> tuple[bytes, int, bytes, int]:
        """The sheet and the file as the library takes them."""
        return (*given(self._instance.bytes), *given(self._bytes))

    @property
    def bytes(self) -> bytes:
        """The file's bytes."""
        return self._bytes

    @property
    def version(self) -> int:
        """The file's version, 1 or 2."""
        return int.from_bytes(self._bytes[3:5], "big")

    def __len__(self) -> int:
        """How many rounds the file has."""
        return self._count

    def __iter__(self) -> Iterator[Round]:
        """All rounds of the file, in order."""
        return map(self.read, range(self._count))

    @overload
    def __getitem__(self, number: int) -> Round: ...

    @overload
    def __getitem__(self, number: slice) -> tuple[Round, ...]: ...

    def __getitem__(self, number: int | slice) -> Round | tuple[Round, ...]:
        """The round of this number as in a tuple of all rounds: -1 is the last, and one that is not there is an
        `IndexError`. A slice gives a tuple of rounds."""
        if isinstance(number, slice):
            return tuple(map(self.read, range(self._count)[number]))
        place = whole(number, "the number of a round")
        if not -self._count <= place < self._count:
            raise IndexError(f"the file has {counted(self._count, 'round')}, and none of this number")
        return self.read(place % self._count)

    def part(self, number: int) -> slice:
        """Where the round of this number, from 0, stands in the file's bytes, or refusal 13:
        `file.bytes[file.part(0)]` are those of the first round."""
        place = size(number, "the number of a round")
        check(calls.check(*self._given(), place))
        part = calls.part(*self._given(), place)
        return slice(part.offset, part.offset + part.length)

    def read(self, number: int) -> Round:
        """The values of the round of this number, from 0, as they stand in the file, or refusal 13. They are not
        tested; `Instance.judge` tests them."""
        fetched = calls.read(*self._given(), size(number, "the number of a round"))
        check(fetched.refusal)
        header, found = self._instance.header, fetched.round
        return Round(found.commitment[: header.rows], found.challenge, found.response[: header.columns])

    def same_commitment(self, i: int, j: int) -> bool:
        """Whether the rounds of these two numbers, from 0, have the same commitment, byte for byte, or refusal 13. Two
        accepted rounds with the same commitment and different challenges give the witness away."""
        compared = calls.same_commitment(
            *self._given(), size(i, "the number of a round"), size(j, "the number of a round")
        )
        check(compared.refusal)
        return bool(compared.same == 1)

    def convert(self) -> RoundFile:
        """The file in its other version, 2 for 1 and 1 for 2. The rounds keep their order and all their values. A
        file of version 1 with a challenge above 65535 is refused with 15. Every verdict stays the same, and the
        result converts to the file again."""
        converted = buffer(LONGEST_FILE)
        written = calls.convert(*self._given(), converted, len(converted))
        check(written.refusal)
        return RoundFile(self._instance, converted.raw[: written.length])

    def __eq__(self, other: object) -> bool:
        """Whether the other is the same file of the same sheet."""
        return isinstance(other, RoundFile) and (self._instance, self._bytes) == (other._instance, other._bytes)

    def __hash__(self) -> int:
        """The hash of the file's bytes."""
        return hash(self._bytes)

    def __repr__(self) -> str:
        """The version and the number of rounds."""
        return f"RoundFile(version={self.version}, rounds={self._count})"


class RoundWriter:
    """A round file of an instance that grows, from no rounds in this version on."""

    __slots__ = ("_instance", "_buffer", "_used")

    def __init__(self, instance: Instance, version: int = 1) -> None:
        """Begins a file, as `start` does."""
        of_kind(Instance, instance, "the sheet")
        self._instance, self._buffer = instance, buffer(LONGEST_FILE)
        written = calls.empty(number(version, "the version"), self._buffer, len(self._buffer))
        check(written.refusal)
        self._used = int(written.length)

    @classmethod
    def start(cls, instance: Instance, version: int = 1) -> RoundWriter:
        """A file of version 1 or 2 without rounds. Any other version is refused with 12."""
        return cls(instance, version)

    @classmethod
    def resume(cls, instance: Instance, file: bytes) -> RoundWriter:
        """Goes on with a file, or refuses it with 12."""
        opened = RoundFile(instance, file)
        writer = cls(instance)
        writer._used = len(opened.bytes)
        writer._buffer.raw = opened.bytes
        return writer

    def append(self, round: Round) -> None:
        """Adds a round in the file's version. Its values are not tested, but for a challenge above 65535, which a
        file of version 2 cannot hold and which is refused with 15. A file of 512 rounds is refused with 12. What is
        refused changes nothing."""
        header, sheet = self._instance.header, given(self._instance.bytes)
        added = round_struct(round, header.rows, header.columns)
        written = calls.append(*sheet, self._buffer, len(self._buffer), self._used, added)
        check(written.refusal)
        self._used = written.length

    @property
    def file(self) -> RoundFile:
        """The file as far as it is written."""
        return RoundFile(self._instance, self._buffer.raw[: self._used])
