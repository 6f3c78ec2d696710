"""Structs, sizes, sentences, names of calls and version are those of include/dimkhoros.h."""

from __future__ import annotations

import ctypes
import re
import unittest
from collections.abc import Iterator

import dimkhoros
from dimkhoros import _sizes, _structs, refusals
from dimkhoros._exports import EXPORTS
from dimkhoros._library import version_number

from .repository import ROOT, run_c

HEADER = (ROOT / "include" / "dimkhoros.h").read_text()


def structs() -> list[type[ctypes.Structure]]:
    """Every struct of the module."""
    found = vars(_structs).values()
    return [kind for kind in found if isinstance(kind, type) and issubclass(kind, ctypes.Structure)]


def layout(struct: type[ctypes.Structure]) -> Iterator[str]:
    """The size of a struct, and the place and size of each of its fields, in the words of the program in C."""
    name = "Dimkhoros" + struct.__name__
    yield f"{name} {ctypes.sizeof(struct)}"
    for field, *_ in struct._fields_:
        place = getattr(struct, field)
        yield f"{name}.{field} {place.offset} {place.size}"


class Header(unittest.TestCase):
    """The module against the header."""

    def test_every_struct_is_laid_out_as_in_c(self) -> None:
        """Also that no struct of the header is missing."""
        lines = [line for struct in structs() for line in layout(struct)]
        printed = run_c("rust/sys/tests/c/layout.c").splitlines()
        self.assertEqual(sorted(lines), sorted(printed))

    def test_another_layout_is_seen(self) -> None:
        """A field that stands in another place gives other lines."""
        fields = list(reversed(_structs.Written._fields_))
        other = type("Written", (ctypes.Structure,), {"_fields_": fields})
        self.assertNotEqual(list(layout(other)), list(layout(_structs.Written)))

    def test_sizes_kinds_and_phases_are_the_same(self) -> None:
        """Every constant of the module is one that the program in C prints."""
        in_c = dict(line.split() for line in run_c("rust/sys/tests/c/numbers.c").splitlines())
        for name, value in vars(_sizes).items():
            if name.isupper():
                self.assertEqual(in_c[name], str(value), name)

    def test_version_sentences_and_patterns_are_the_same(self) -> None:
        """The program in C prints the version, a line for each refusal, and a line for each pattern."""
        version, *lines = run_c("rust/dimkhoros/tests/c/words.c").splitlines()
        self.assertEqual(dimkhoros.__version__, version)
        refused = [line.split(" ", 2) for line in lines if line[0].isdigit()]
        self.assertEqual({int(number): sentence for number, _, sentence in refused}, refusals.SENTENCES)
        patterns = [f"PATTERN_{pattern.name} {pattern.value}" for pattern in dimkhoros.Pattern]
        self.assertEqual([line for line in lines if line.startswith("PATTERN_")], patterns)
        self.assertIn(dimkhoros.Refusal(2**32 - 1).sentence, lines)

    def test_what_can_be_found_is_the_same(self) -> None:
        """The names and numbers of what a stored session is found to be."""
        found = re.findall(r"^#define DIMKHOROS_FOUND_(\w+) (\d+)", HEADER, re.MULTILINE)
        self.assertEqual(found, [(what.name, str(what.value)) for what in dimkhoros.Found])

    def test_the_library_has_the_version_of_the_module(self) -> None:
        """And of the header."""
        self.assertEqual(dimkhoros.version(), version_number(dimkhoros.__version__))
        self.assertIn(f"#define DIMKHOROS_VERSION {dimkhoros.version()}\n", HEADER)

    def test_the_calls_are_those_that_the_header_declares(self) -> None:
        """What the header defines itself begins with `static inline`, and is no call of the library."""
        declared = re.findall(r"^(?!static)\w+ (dimkhoros_\w+)\(", HEADER, re.MULTILINE)
        self.assertEqual(sorted(declared), sorted("dimkhoros_" + name for name in EXPORTS))


if __name__ == "__main__":
    unittest.main()
