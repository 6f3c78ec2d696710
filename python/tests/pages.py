"""The sheets of 01's calculator pages."""

from __future__ import annotations

from collections.abc import Iterable
from typing import Any

from dimkhoros import Instance, Pattern, Patterns, Round


def made(pattern: int, values: Iterable[int], statement: Iterable[int], challenges: int = 11) -> Instance:
    """A sheet with m 23 and q 11, by a pattern of the shipped file."""
    fields = {"modulus": 23, "order": 11, "challenges": challenges}
    return Instance.from_pattern(Patterns.shipped(), pattern, **fields, values=values, statement=statement)


def page_a(challenges: int = 11) -> Instance:
    """Schnorr: 2^7 is 13 modulo 23."""
    return made(Pattern.SCHNORR, [2], [13], challenges)


def page_d() -> Instance:
    """Okamoto: 2^1 * 3^2 is 18."""
    return made(Pattern.OKAMOTO, [2, 3], [18])


def page_e() -> Instance:
    """Diffie-Hellman: 2^7 is 13 and 16^7 is 18."""
    return made(Pattern.DIFFIE_HELLMAN, [2, 16], [13, 18])


def page_f() -> Instance:
    """The product: the image of (2, 1, 0) is (12, 9)."""
    return made(Pattern.PRODUCT, [2, 3, 3], [12, 9])


def page_g() -> Instance:
    """A root: 2^5 is 32 modulo 35."""
    shipped = Patterns.shipped()
    return Instance.from_pattern(shipped, Pattern.ROOT, modulus=35, order=5, challenges=5, statement=[32])


# Maurer's example of linear forms, over h1 = 2, h2 = 3 and h3 = 4: z1 = h1^x3 * h2^x1 and z2 = h1^x2 * h2^x4 * h3^x1.
MAURER = [
    [[0, 0, 1, 0], [1, 0, 0, 0], [0, 0, 0, 0]],
    [[0, 1, 0, 0], [0, 0, 0, 1], [1, 0, 0, 0]],
]


def linear(
    forms: Any = MAURER,
    modulus: int = 23,
    order: int = 11,
    challenges: int = 11,
    generators: Any = (2, 3, 4),
    statement: Iterable[int] = (1, 8),
) -> Instance:
    """A sheet of linear forms. The witness of Maurer's example is (1, 2, 3, 4)."""
    fields = {"modulus": modulus, "order": order, "challenges": challenges}
    return Instance.from_forms(forms, **fields, generators=generators, statement=statement)


def round_of(t: int, c: int, r: int) -> Round:
    """A round of a sheet of one row and one column."""
    return Round([t], c, [r])
