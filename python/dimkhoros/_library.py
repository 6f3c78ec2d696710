"""The shared library: where it is found, and its calls."""

from __future__ import annotations

import ctypes
import os
from pathlib import Path
from types import SimpleNamespace

from ._exports import EXPORTS

VERSION = "0.2.0"
NAME = "libdimkhoros.so"

# What to do if the library is missing or the wrong one.
ADVICE = (
    "Run `./install PREFIX` or `scripts/shared_library` at the root of the repository, or set DIMKHOROS_LIB to the whole "
    f"path of the folder that has {NAME}."
)


def folders(module: Path, named: str | None) -> list[Path]:
    """The folders in which the library of a module is looked for. If DIMKHOROS_LIB is set, it is the only one.
    Otherwise they are the module's own folder, as in a wheel, the nearest folder `lib` above it, as in a folder that
    `./install` made, and crates/dimkhoros/out of the repository."""
    if named:
        if not os.path.isabs(named):
            raise ImportError(f"DIMKHOROS_LIB must be the whole path of a folder, and is {named}.")
        return [Path(named)]
    installed = [folder for folder in module.parents if folder.name == "lib"][:1]
    return [module.parent, *installed, module.parents[2] / "crates" / "dimkhoros" / "out"]


def find(module: Path, named: str | None) -> Path:
    """The file of the library of a module."""
    places = folders(module, named)
    for folder in places:
        if (folder / NAME).is_file():
            return folder / NAME
    raise ImportError(f"There is no {NAME} in {' or '.join(map(str, places))}. {ADVICE}")


def version_number(text: str) -> int:
    """A version as the header writes it in one number: 10000 * major + 100 * minor + patch."""
    major, minor, patch = map(int, text.split("."))
    return 10000 * major + 100 * minor + patch


def opened(path: Path) -> SimpleNamespace:
    """The calls of the library in a file, under their names without the library's."""
    try:
        library = ctypes.CDLL(str(path))
        found = {name: library["dimkhoros_" + name] for name in EXPORTS}
    except (OSError, AttributeError) as error:
        raise ImportError(f"{path} is not a library of this module: {error}. {ADVICE}") from error
    for name, function in found.items():
        function.restype, function.argtypes = EXPORTS[name]
    return SimpleNamespace(**found)


def checked(library: SimpleNamespace, path: Path, version: str) -> SimpleNamespace:
    """The library, if it has this version."""
    number = library.version()
    if number != version_number(version):
        text = f"{number // 10000}.{number // 100 % 100}.{number % 100}"
        raise ImportError(f"{path} has the version {text}, and this module has {version}. {ADVICE}")
    return library


_PATH = find(Path(__file__).resolve(), os.environ.get("DIMKHOROS_LIB"))
calls = checked(opened(_PATH), _PATH, VERSION)


def version() -> int:
    """The version of the library, 10000 * major + 100 * minor + patch."""
    return int(calls.version())


def buffer(length: int) -> ctypes.Array[ctypes.c_char]:
    """A buffer of so many zero bytes, to be written to."""
    return ctypes.create_string_buffer(length)
