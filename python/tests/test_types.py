"""The package's types: all of them are written down, can be read, and say something.

This is what can be tested without a type checker. rust/dimkhoros/tests/suite/python.rs runs one, if it is installed."""

from __future__ import annotations

import ast
import collections.abc
import ctypes
import importlib
import inspect
import sys
import typing
import unittest
from collections.abc import Iterator
from typing import Any

import dimkhoros

from .repository import PACKAGE

# Types that say too little without those of their parts.
BARE = {dict, list, set, tuple, ctypes.Array, *map(vars(collections.abc).get, ["Callable", "Iterable", "Iterator"])}


def sources() -> list[tuple[str, ast.Module]]:
    """The modules of the package with their text, parsed, and the build backend."""
    files = [*sorted(PACKAGE.glob("*.py")), PACKAGE.parent / "wheel_backend.py"]
    return [(file.name, ast.parse(file.read_text())) for file in files]


def functions(tree: ast.AST) -> Iterator[tuple[ast.FunctionDef, ast.ClassDef | None]]:
    """The functions of a module, each with the class that it stands in, if any."""
    for node in ast.walk(tree):
        for child in ast.iter_child_nodes(node):
            if isinstance(child, ast.FunctionDef):
                yield child, node if isinstance(node, ast.ClassDef) else None


def written_types(function: ast.FunctionDef, own: ast.ClassDef | None) -> list[ast.expr | None]:
    """The annotations of a function of a class or of none: of its parameters but for the object or class that it is
    called on, and of its answer. One that is missing is `None`."""
    given = function.args
    after_own = [*given.posonlyargs, *given.args][1 if own else 0 :]
    parameters = [*after_own, *given.kwonlyargs, *filter(None, [given.vararg, given.kwarg])]
    return [*(parameter.annotation for parameter in parameters), function.returns]


def incomplete(tree: ast.AST) -> list[str]:
    """The names of the functions of a module that lack an annotation."""
    return [function.name for function, own in functions(tree) if None in written_types(function, own)]


def hidden(own: ast.ClassDef) -> list[str]:
    """The names that an annotation in a class uses after a member of the class has taken them. A type checker reads
    them as the member."""
    taken: set[str] = set()
    found: list[str] = []
    for function in (node for node in own.body if isinstance(node, ast.FunctionDef)):
        written = [node for node in written_types(function, own) if node]
        used = {part.id for node in written for part in ast.walk(node) if isinstance(part, ast.Name)}
        found += sorted(used & taken)
        taken.add(function.name)
    return found


def parts(hint: Any) -> Iterator[Any]:
    """A type and all that stand in its brackets."""
    yield hint
    for part in typing.get_args(hint):
        # The parameters of a function that is given stand in a list.
        for inner in part if isinstance(part, list) else [part]:
            yield from parts(inner)


def says_too_little(hint: Any) -> bool:
    """Whether a type, or one in its brackets, is bare, or an array type that is made while the program runs."""
    made = [part for part in parts(hint) if isinstance(part, type) and not typing.get_args(part)]
    return any(part in BARE or issubclass(part, ctypes.Array) for part in made)


def written(holder: Any) -> Iterator[tuple[str, Any]]:
    """The functions, methods, properties and classes that a module or class defines itself, by name."""
    module = getattr(holder, "__module__", getattr(holder, "__name__", None))
    for name, found in vars(holder).items():
        plain = found.fget if isinstance(found, property) else inspect.unwrap(getattr(found, "__func__", found))
        if (inspect.isfunction(plain) or inspect.isclass(plain)) and plain.__module__ == module:
            yield name, plain


def hints(holder: Any) -> Iterator[tuple[str, Any]]:
    """The types of all that a module or class defines itself, with names."""
    for name, found in written(holder):
        for of, hint in typing.get_type_hints(found).items():
            yield f"{holder.__name__}.{name}: {of}", hint
        if inspect.isclass(found):
            yield from hints(found)


class Written(unittest.TestCase):
    """The annotations as they are written."""

    def test_every_parameter_and_answer_has_one(self) -> None:
        """In all modules."""
        self.assertEqual({name: incomplete(tree) for name, tree in sources() if incomplete(tree)}, {})

    def test_a_missing_one_is_seen(self) -> None:
        """Of a parameter of each kind and of an answer."""
        for given in ["x", "*x", "**x", "*, x", "x: int, y"]:
            self.assertEqual(incomplete(ast.parse(f"def f({given}) -> int: ...")), ["f"])
        self.assertEqual(incomplete(ast.parse("class A:\n    def f(self, x: int): ...")), ["f"])
        self.assertEqual(incomplete(ast.parse("class A:\n    def f(self, x: int) -> int: ...")), [])

    def test_none_names_a_member_of_its_class(self) -> None:
        """`Instance.bytes` is a member, so `bytes` is no type after it."""
        classes = [node for _, tree in sources() for node in ast.walk(tree) if isinstance(node, ast.ClassDef)]
        self.assertEqual({own.name: hidden(own) for own in classes if hidden(own)}, {})
        late = "class A:\n    def bytes(self) -> bytes: ...\n    def g(self, x: list[bytes]) -> int: ..."
        found = ast.parse(late).body[0]
        assert isinstance(found, ast.ClassDef)
        self.assertEqual(hidden(found), ["bytes"])

    def test_the_package_says_that_it_has_them(self) -> None:
        """By the file that type checkers look for."""
        self.assertTrue((PACKAGE / "py.typed").is_file())


@unittest.skipIf(sys.version_info < (3, 10), "this Python does not read `int | None` while it runs")
class Read(unittest.TestCase):
    """The types that the annotations name."""

    def test_each_names_types_in_full(self) -> None:
        """In all modules, private ones too."""
        names = [file.stem for file in PACKAGE.glob("*.py") if file.stem != "__init__"]
        modules = [importlib.import_module(f"dimkhoros.{name}") for name in names]
        found = [pair for module in modules for pair in hints(module)]
        self.assertGreater(len(found), 300)
        self.assertEqual([name for name, hint in found if says_too_little(hint)], [])

    def test_one_that_says_too_little_is_seen(self) -> None:
        """On its own or in brackets."""
        nested = tuple[list, int]  # type: ignore[type-arg]
        for hint in [list, ctypes.Array, ctypes.c_uint32 * 8, nested, typing.Optional[dict]]:
            self.assertTrue(says_too_little(hint), hint)
        for hint in [int, list[int], ctypes.Array[ctypes.c_uint32], collections.abc.Callable[[bytes], object]]:
            self.assertFalse(says_too_little(hint), hint)

    def test_no_public_name_leaves_a_type_open(self) -> None:
        """`Any` stands in no function, method, property or field that a caller uses."""
        for name in dimkhoros.__all__:
            public = getattr(dimkhoros, name)
            of_class = written(public) if inspect.isclass(public) else []
            for member, found in [(name, public), *of_class]:
                if callable(found) and (member == "__init__" or not member.startswith("_")):
                    named = [part for hint in typing.get_type_hints(found).values() for part in parts(hint)]
                    self.assertNotIn(typing.Any, named, f"{name}.{member}")


if __name__ == "__main__":
    unittest.main()
