"""The lines of docs/vectors.txt, whose own first lines say how they are read, and bytes and numbers in them."""

from __future__ import annotations

from collections.abc import Iterator

from .repository import ROOT

VECTORS = ROOT / "docs" / "vectors.txt"

# What a line that is no call gives to the calls below it.
GIVEN = ("sheet", "second_sheet", "file", "pattern_file")


# The lists of a line. `Inputs` has a method `list`, so the types are named before it.
Words = list[str]
Numbers = list[int]
Rows = list[list[int]]
Rounds = list[tuple[list[int], int, list[int]]]


class NoCall(Exception):
    """The line asks for what no call of the module takes, and why that is so."""


def bytes_of(text: str) -> bytes:
    """The bytes of a text: pieces with a dot between them, each of which may stand so many times."""
    if text == "-":
        return b""
    pieces = [piece.partition("*") for piece in text.split(".")]
    return b"".join(bytes.fromhex(digits) * int(count or 1) for digits, _, count in pieces)


def numbers_of(text: str) -> Numbers:
    """The numbers of a list."""
    return [] if text == "-" else [int(word) for word in text.split(",")]


class Inputs:
    """The inputs of a line, each of which is to be taken once."""

    def __init__(self, words: Words) -> None:
        """Words NAME=VALUE."""
        self.left = dict(word.split("=") for word in words)

    def text(self, name: str) -> str:
        """A value as it stands on the line."""
        return self.left.pop(name)

    def has(self, name: str) -> bool:
        """Whether there is an input of this name that is not taken yet."""
        return name in self.left

    def number(self, name: str) -> int:
        """A number."""
        return int(self.text(name))

    def list(self, name: str) -> Numbers:
        """A list of numbers."""
        return numbers_of(self.text(name))

    def rows(self, name: str) -> Rows:
        """Lists of numbers with a slash between them; the empty list alone is no list."""
        text = self.text(name)
        return [] if text == "-" else [numbers_of(row) for row in text.split("/")]

    def repeated(self, name: str) -> Rows:
        """Lists of numbers with a slash between them; one may stand so many times, and the empty list alone is none."""
        text, found = self.text(name), []
        for piece in text.split("/") if text != "-" else []:
            words, _, count = piece.partition("*")
            found += [numbers_of(words)] * int(count or 1)
        return found

    def rounds(self, name: str) -> Rounds:
        """The rounds of a watch, t:c:r each, with a slash between them; one may stand so many times."""
        text, found = self.text(name), []
        for piece in text.split("/") if text != "-" else []:
            words, _, count = piece.partition("*")
            t, c, r = words.split(":")
            found += [(numbers_of(t), int(c), numbers_of(r))] * int(count or 1)
        return found

    def bytes(self, name: str) -> bytes:
        """Bytes."""
        return bytes_of(self.text(name))


def lines() -> Iterator[tuple[int, dict[str, bytes], str, list[str], str]]:
    """The calls of the file: the number of the line, what is given there, the call's name, its words and its answer."""
    given = dict.fromkeys(GIVEN, b"")
    for number, line in enumerate(VECTORS.read_text().splitlines(), 1):
        words, arrow, answer = line.partition(" -> ")
        name, *rest = words.split() or ["#"]
        if name in GIVEN:
            given = {**given, name: bytes_of(rest[0])}
        elif arrow and not name.startswith("#"):
            yield number, given, name, rest, answer
