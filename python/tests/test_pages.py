"""01's calculator pages A to J, and the lecture of the README."""

from __future__ import annotations

import doctest
import re
import subprocess
import sys
import unittest
from collections.abc import Iterable

import dimkhoros
from dimkhoros import Instance, Prover, Round, Verdict, Verifier

from .pages import made, page_a, page_d, page_e, page_f, page_g, round_of
from .repository import ROOT, refused


def honest(instance: Instance, nonce: Iterable[int], challenge: int, witness: Iterable[int]) -> Round:
    """The round of an honest Peggy."""
    peggy, commitment = Prover().commit(instance, nonce)
    _, response = peggy.respond(instance, challenge, witness)
    return Round(commitment, challenge, response)


class Pages(unittest.TestCase):
    """A test for each page."""

    def test_a(self) -> None:
        """Schnorr, with both sessions."""
        a = page_a()
        peggy, t = Prover().commit(a, [5])
        vic = Verifier().take_commitment(a, t).take_challenge(a, 3)
        _, r = peggy.respond(a, vic.challenge, [7])
        _, verdict = vic.take_response(a, r)
        self.assertEqual((t, r, verdict), ((9,), (4,), Verdict(True)))

    def test_b(self) -> None:
        """The extractor, either way round."""
        rounds = [round_of(9, 3, 4), round_of(9, 1, 1)]
        self.assertEqual(page_a().extract(*rounds), (7,))
        self.assertEqual(page_a().extract(*reversed(rounds)), (7,))

    def test_c(self) -> None:
        """The simulator."""
        self.assertEqual(page_a().simulate(3, [0]), (2,))
        self.assertTrue(page_a().judge(round_of(2, 3, 0)))

    def test_d(self) -> None:
        """Two witnesses make one round."""
        expected = Round([1], 1, [1, 2])
        self.assertEqual(honest(page_d(), [0, 0], 1, [1, 2]), expected)
        self.assertEqual(honest(page_d(), [6, 2], 1, [6, 0]), expected)
        self.assertTrue(page_d().judge(expected))

    def test_e(self) -> None:
        """Diffie-Hellman, of two rows."""
        made_round = honest(page_e(), [5], 3, [7])
        self.assertEqual(made_round, Round([9, 6], 3, [4]))
        self.assertTrue(page_e().judge(made_round))

    def test_f(self) -> None:
        """The image of (2, 1, 0) is (12, 9)."""
        self.assertEqual(Prover().commit(page_f(), [2, 1, 0])[1], (12, 9))

    def test_g_and_h(self) -> None:
        """A root, and the extractor on its two rounds."""
        rounds = [honest(page_g(), [3], 1, [2]), honest(page_g(), [3], 3, [2])]
        self.assertEqual(rounds, [round_of(33, 1, 6), round_of(33, 3, 24)])
        self.assertEqual(page_g().extract(*rounds), (2,))

    def test_i(self) -> None:
        """The challenge count."""
        self.assertEqual(page_a(11).header.challenges, 11)
        with refused(self, 8):
            page_a(12)

    def test_j(self) -> None:
        """Values of a round."""
        with refused(self, 14):
            page_a().judge(round_of(5, 0, 0))
        self.assertEqual(page_a().judge(round_of(9, 0, 10)), Verdict(False, (0,)))
        with refused(self, 16):
            page_a().judge(round_of(9, 0, 11))

    def test_a_wrong_row_is_named(self) -> None:
        """Of two rows the second differs."""
        sheet = made(3, [2, 3], [13, 2])
        verdict = sheet.judge(Round([9, 1], 3, [4]))
        self.assertEqual((bool(verdict), verdict.rows, str(verdict)), (False, (1,), "rejected in row 1"))


class Readme(unittest.TestCase):
    """The README's lecture and ledger."""

    def test_both_print_what_stands_after_them(self) -> None:
        """They run as they are printed, and the lecture has ten lines."""
        readme = (ROOT / "python" / "README.md").read_text()
        pieces = re.findall(r"```python\n(.*?)```\n.*?```text\n(.*?)```", readme, re.DOTALL)
        self.assertEqual(len(pieces), 2)
        self.assertEqual(len(pieces[0][0].splitlines()), 10)
        for piece, printed in pieces:
            command = [sys.executable, "-c", piece]
            ended = subprocess.run(command, cwd=ROOT / "python", capture_output=True, text=True, check=True)
            self.assertEqual(ended.stdout, printed)

    def test_its_table_has_every_public_name(self) -> None:
        """Each is written as code."""
        readme = re.sub(r"```.*?```", "", (ROOT / "python" / "README.md").read_text(), flags=re.DOTALL)
        words = set(re.findall(r"\w+", " ".join(re.findall(r"`([^`]+)`", readme))))
        self.assertEqual(set(dimkhoros.__all__) - words, set())

    def test_the_help_of_the_package_is_right(self) -> None:
        """Its round runs as it is printed, and every public name is in it."""
        self.assertEqual(doctest.testmod(dimkhoros), (0, 9))
        words = set(re.findall(r"\w+", dimkhoros.__doc__))
        self.assertEqual(set(dimkhoros.__all__) - words, set())


if __name__ == "__main__":
    unittest.main()
