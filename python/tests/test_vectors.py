"""Every line of docs/vectors.txt that a call of the module can ask has its answer, and each call is asked by a line."""

from __future__ import annotations

import ctypes
import re
import unittest
from collections import Counter
from collections.abc import Callable
from typing import Any

from dimkhoros import Refusal
from dimkhoros._exports import EXPORTS
from dimkhoros._library import calls

from .answers import Answers
from .vectors import Inputs, NoCall, bytes_of, lines


def answer(given: dict[str, bytes], name: str, words: list[str], expected: str) -> str:
    """What the module answers to the call of a line."""
    try:
        return str(getattr(Answers(given, expected), name)(Inputs(words)))
    except Refusal as refusal:
        return f"refused {refusal.number}"
    except ValueError as error:
        if "on this sheet, and has" not in str(error):
            raise
        raise NoCall("a list has another count of values than the sheet asks for") from error


def spread(expected: str) -> str:
    """An answer with the bytes of its buffer, or of a watch's sheet, written out."""
    return re.sub(r"(buffer|held)=([^\s-]+)", lambda found: f"{found[1]}={bytes_of(found[2]).hex()}", expected)


def compared(wanted: str | None = None) -> tuple[Counter[str], Counter[str], list[str]]:
    """How many lines of each call were asked, why others were not, and each line whose answer is another; of the
    calls of this name, if one is named."""
    asked: Counter[str] = Counter()
    left: Counter[str] = Counter()
    wrong: list[str] = []
    for number, given, name, words, expected in lines():
        if wanted not in (None, name):
            continue
        try:
            found = answer(given, name, words, expected)
        except NoCall as why:
            left[str(why)] += 1
            continue
        asked[name] += 1
        if found != spread(expected):
            wrong.append(f"line {number}: {name} {' '.join(words)} -> {found}")
    return asked, left, wrong


def faulty(call: Callable[..., Any]) -> Callable[..., Any]:
    """The call with a bit of its answer changed."""

    def wrapped(*arguments: object) -> Any:
        """What the call answers, but for that bit."""
        answered = call(*arguments)
        if isinstance(answered, ctypes.Structure):
            first = ctypes.c_ubyte.from_buffer(answered)
            first.value ^= 2
            return answered
        return answered ^ 2

    return wrapped


class Vectors(unittest.TestCase):
    """The module against the stored answers."""

    def test_every_line_has_its_answer(self) -> None:
        """The lines that are not asked are few, and each call is asked."""
        asked, left, wrong = compared()
        self.assertEqual(wrong, [])
        self.assertEqual(set(asked), set(EXPORTS) - {"version"})
        self.assertLess(10 * sum(left.values()), sum(asked.values()), left)

    def test_a_fault_in_any_call_is_found(self) -> None:
        """Some line of the call has another answer where a bit of the library's is changed."""
        for name in set(EXPORTS) - {"version"}:
            right = getattr(calls, name)
            setattr(calls, name, faulty(right))
            try:
                found = compared(name)[2]
            except (ValueError, AssertionError) as error:
                found = [str(error)]
            finally:
                setattr(calls, name, right)
            self.assertNotEqual(found, [], name)


if __name__ == "__main__":
    unittest.main()
