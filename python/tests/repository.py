"""The repository that the tests stand in, its programs in C, and refusals by number."""

from __future__ import annotations

import contextlib
import subprocess
import tempfile
import unittest
from collections.abc import Iterator
from pathlib import Path

from dimkhoros import Refusal

ROOT = Path(__file__).resolve().parents[2]
PACKAGE = ROOT / "python" / "dimkhoros"


def run_c(path: str, given: str = "") -> str:
    """What a program in C of the repository, which needs the header alone, prints on this input."""
    with tempfile.TemporaryDirectory() as folder:
        program = Path(folder) / "program"
        command = ["cc", "-std=c99", "-I", str(ROOT / "include"), str(ROOT / path), "-o", str(program)]
        subprocess.run(command, check=True)
        return subprocess.run([program], input=given, check=True, capture_output=True, text=True).stdout


@contextlib.contextmanager
def refused(test: unittest.TestCase, number: int) -> Iterator[None]:
    """What is done in here must be refused with this number."""
    with test.assertRaises(Refusal) as caught:
        yield
    test.assertEqual(caught.exception.number, number)
