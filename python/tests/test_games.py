"""The game: which challenges a commitment can answer."""

from __future__ import annotations

import unittest

from dimkhoros import ROOT, Header, Instance, Pattern, Patterns, Round, RoundWriter, Values, game

from .pages import page_a, page_d, page_g, round_of


def sheet_of(
    pattern: int, modulus: int, order: int, challenges: int, values: list[int], statement: list[int]
) -> Instance:
    """A sheet by a pattern of the shipped file."""
    fields = {"modulus": modulus, "order": order, "challenges": challenges}
    return Instance.from_pattern(Patterns.shipped(), pattern, **fields, values=values, statement=statement)


def file_of(sheet: Instance, *rounds: Round, version: int = 1) -> bytes:
    """The bytes of a file of these rounds."""
    writer = RoundWriter.start(sheet, version)
    for made in rounds:
        writer.append(made)
    return writer.file.bytes


def smallest(sheet: Instance, t: int, c: int) -> tuple[int, int]:
    """The smallest response that Vic accepts on a sheet of two columns over numbers below 11."""
    for first in range(11):
        for second in range(11):
            if sheet.judge(Round([t], c, [first, second])):
                return first, second
    raise AssertionError(f"no response answers the challenge {c}")


class Games(unittest.TestCase):
    """Texts on small sheets, and what is refused."""

    def on(self, sheet: Instance, *t: int) -> str:
        """The text on a commitment: the same in both versions, whatever the round's challenge and response are."""
        n = sheet.header.columns
        files = [
            file_of(sheet, Round(t, 0, [0] * n)),
            file_of(sheet, Round(t, 2**32 - 1, [2**32 - 1] * n)),
            file_of(sheet, Round(t, 65535, [7] * n), version=2),
        ]
        texts = [game(sheet.bytes, file) for file in files]
        self.assertEqual(texts, texts[:1] * 3)
        return texts[0]

    def test_the_pages(self) -> None:
        """Pages A, D and G."""
        a = "0 5\n1 1\n2 8\n3 4\n4 0\n5 7\n6 3\n7 10\n8 6\n9 2\n10 9\n"
        self.assertEqual(self.on(page_a(), 9), a)
        self.assertEqual(game(page_a().bytes, file_of(page_a(), round_of(9, 3, 4), round_of(5, 0, 0))), a)
        self.assertEqual(self.on(page_g(), 33), "0 3\n1 6\n2 12\n3 24\n4 13\n")
        self.assertIn("\n1 0 9\n", self.on(page_d(), 1))

    def test_a_sheet_without_a_witness(self) -> None:
        """A commitment answers one challenge at most."""
        sheet = sheet_of(Pattern.SCHNORR, 31, 15, 3, [1], [2])
        texts = [self.on(sheet, t) for t in [1, 16, 8, 2]]
        self.assertEqual(texts, ["0 0\n", "1 0\n", "2 0\n", "none\n"])

    def test_the_lines_are_those_that_vic_accepts(self) -> None:
        """For every challenge on page D."""
        lines = [f"{c} {first} {second}\n" for c in range(11) for first, second in [smallest(page_d(), 9, c)]]
        self.assertEqual(self.on(page_d(), 9), "".join(lines))

    def test_what_is_refused(self) -> None:
        """By the number that stands first."""
        a, large = page_a(), sheet_of(Pattern.SCHNORR, 3, 4097, 2, [1], [1])
        two_rows = Instance.encode(Values(Header(ROOT, 35, 5, 5, 2, 2), [], [32, 32]))
        self.assertEqual(game(b"", b""), "refused 2\n")
        self.assertEqual(game(a.bytes + b"\0", b""), "refused 9\n")
        self.assertEqual(game(a.bytes, b""), "refused 12\n")
        self.assertEqual(game(a.bytes, file_of(a)), "refused 13\n")
        self.assertEqual(self.on(a, 5), "refused 14\n")
        self.assertEqual([self.on(large, 2), self.on(large, 1)], ["refused 14\n", "refused 31\n"])
        self.assertEqual(self.on(two_rows, 1, 1), "refused 31\n")

    def test_the_most_lines(self) -> None:
        """65,536 challenges on the largest prime below 4,096."""
        sheet = sheet_of(Pattern.ROOT, 4093, 65537, 65536, [], [2])
        lines = self.on(sheet, 1).splitlines()
        self.assertEqual([int(line.split()[0]) for line in lines], list(range(65536)))


if __name__ == "__main__":
    unittest.main()
