"""Linear forms over generators, of which sheets are made."""

from __future__ import annotations

from collections.abc import Iterable
from dataclasses import dataclass

from ._numbers import counted, hold, listed, number, numbers


@dataclass(frozen=True, init=False)
class Forms:
    """The coefficients of linear forms: how many rows and columns they are for, and the coefficients one after the
    other, by row, then generator, then column. `Forms.of` makes them of nested lists; `Instance.from_forms` tests
    them."""

    rows: int
    columns: int
    coefficients: tuple[int, ...]

    def __init__(self, rows: int, columns: int, coefficients: Iterable[int]) -> None:
        """A list of coefficients becomes a tuple."""
        hold(self, "rows", number(rows, "the count of rows"))
        hold(self, "columns", number(columns, "the count of columns"))
        hold(self, "coefficients", numbers(coefficients, "the coefficients"))

    @classmethod
    def of(cls, rows: Iterable[Iterable[Iterable[int]]]) -> Forms:
        """The forms of these rows, each a list with a form for each generator, each a list with a coefficient for each
        column. All rows have as many forms as the first, and all forms as many coefficients as the first."""
        table = [_row(row, place) for place, row in enumerate(listed(rows, "the forms"))]
        forms = [form for row in table for form in row]
        for place, row in enumerate(table):
            _same(len(table[0]), len(row), "form", f"row {place} of the forms")
            for form in row:
                _same(len(forms[0]), len(form), "coefficient", f"a form of row {place}")
        columns = len(forms[0]) if forms else 0
        return cls(len(table), columns, tuple(value for form in forms for value in form))


def forms_of(forms: Forms | Iterable[Iterable[Iterable[int]]]) -> Forms:
    """The forms themselves, or those of nested lists."""
    return forms if isinstance(forms, Forms) else Forms.of(forms)


def _row(row: Iterable[Iterable[int]], place: int) -> tuple[tuple[int, ...], ...]:
    """The forms of a row."""
    name = f"row {place} of the forms"
    return tuple(numbers(form, f"a form of row {place}") for form in listed(row, name))


def _same(first: int, found: int, what: str, name: str) -> None:
    """Raises an error if the count of something differs from that of the first one."""
    if found != first:
        raise ValueError(f"{name} must have {counted(first, what)}, as the first has, and has {found}")
