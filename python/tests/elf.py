"""What the tests read of a shared library's file (ELF, 64 bits, low byte first)."""

from __future__ import annotations

import struct

DYNAMIC_SYMBOLS = 11
DYNAMIC = 6
SONAME = 14
STACK = 0x6474E551
EXECUTABLE = 1


class Elf:
    """A shared library's file."""

    def __init__(self, file: bytes) -> None:
        """Reads the places of the file's sections and segments."""
        self.file = file
        segments, sections = struct.unpack_from("<QQ", file, 32)
        _, segment_count, section_size, section_count = struct.unpack_from("<HHHH", file, 54)
        self.segments = [struct.unpack_from("<IIQQQQQQ", file, segments + 56 * i) for i in range(segment_count)]
        starts = [sections + section_size * i for i in range(section_count)]
        self.sections = [struct.unpack_from("<IIQQQQIIQQ", file, start) for start in starts]

    def section(self, kind: int) -> tuple[list[bytes], int]:
        """The entries' bytes of the section of this kind, and where its names begin."""
        found = next(section for section in self.sections if section[1] == kind)
        _, _, _, _, offset, size, names, _, _, each = found
        entries = [self.file[offset + i : offset + i + each] for i in range(0, size, each)]
        return entries, self.sections[names][4]

    def name(self, place: int) -> str:
        """The name that begins at a place of the file."""
        return self.file[place : self.file.index(b"\0", place)].decode()

    def symbols(self) -> tuple[set[str], set[str]]:
        """The names that the library exports, and those that it needs from elsewhere without fail."""
        entries, names = self.section(DYNAMIC_SYMBOLS)
        found = [struct.unpack("<IBBHQQ", entry) for entry in entries[1:]]
        exported = {self.name(names + symbol[0]) for symbol in found if symbol[3] != 0}
        needed = {self.name(names + symbol[0]) for symbol in found if symbol[3] == 0 and symbol[1] >> 4 == 1}
        return exported, needed

    def soname(self) -> str:
        """The name under which programs that are linked to the library look for it."""
        entries, names = self.section(DYNAMIC)
        tags = {tag: value for tag, value in (struct.unpack("<QQ", entry) for entry in entries)}
        return self.name(names + tags[SONAME])

    def has_executable_stack(self) -> bool:
        """Whether the library asks for a stack that can be executed, as one does that says nothing."""
        flags = [segment[1] for segment in self.segments if segment[0] == STACK]
        return not flags or bool(flags[0] & EXECUTABLE)
