"""The shared library: what it exports, and where it is found."""

from __future__ import annotations

import os
import shutil
import subprocess
import sys
import tempfile
import unittest
from pathlib import Path
from types import SimpleNamespace

from dimkhoros import _library
from dimkhoros._exports import EXPORTS

from .elf import Elf
from .repository import PACKAGE, ROOT

LIBRARY = _library._PATH


def imported(folder: Path, **variables: str) -> subprocess.CompletedProcess[str]:
    """How a fresh Python ends that imports the module in a folder, with these variables and no DIMKHOROS_LIB else."""
    environment = {name: value for name, value in os.environ.items() if name != "DIMKHOROS_LIB"}
    environment.update(variables, PYTHONDONTWRITEBYTECODE="1")
    program = "import dimkhoros\nprint(dimkhoros._library._PATH)"
    command = [sys.executable, "-c", program]
    return subprocess.run(command, cwd=folder, env=environment, capture_output=True, text=True)


def script(**variables: str) -> subprocess.CompletedProcess[str]:
    """How scripts/shared_library ends with these variables."""
    environment = {**os.environ, **variables}
    command = ["/bin/sh", str(ROOT / "scripts" / "shared_library")]
    return subprocess.run(command, env=environment, capture_output=True, text=True)


class Exports(unittest.TestCase):
    """What the shared library exports and needs."""

    def test_it_exports_the_calls_and_nothing_else(self) -> None:
        """It needs two functions of the system."""
        exported, needed = Elf(LIBRARY.read_bytes()).symbols()
        self.assertEqual(exported, {"dimkhoros_" + name for name in EXPORTS})
        self.assertEqual(needed, {"memcpy", "memset"})

    def test_its_name_has_a_number_and_its_stack_is_not_executable(self) -> None:
        """The name is the one that programs are linked to."""
        elf = Elf(LIBRARY.read_bytes())
        self.assertEqual(elf.soname(), "libdimkhoros.so.1")
        self.assertFalse(elf.has_executable_stack())


class Making(unittest.TestCase):
    """The script that makes the library out of the archive, in a folder of its own."""

    def setUp(self) -> None:
        """The folder has the archive alone."""
        holder = tempfile.TemporaryDirectory()
        self.addCleanup(holder.cleanup)
        self.folder = Path(holder.name)
        self.archive, self.library = self.folder / "libdimkhoros.a", self.folder / "libdimkhoros.so"
        shutil.copy(LIBRARY.with_suffix(".a"), self.archive)

    def make(self) -> str:
        """Runs the script in the folder, and answers what it printed."""
        ended = script(DIMKHOROS_LIB=str(self.folder))
        self.assertEqual((ended.returncode, ended.stderr), (0, ""))
        return ended.stdout

    def test_it_is_made_once(self) -> None:
        """Until the archive is newer. Nothing else is left in the folder."""
        self.assertEqual(self.make(), f"The shared library is {self.library}.\n")
        made = self.library.stat()
        self.assertEqual(self.make(), "")
        self.assertEqual(self.library.stat(), made)
        os.utime(self.archive, (made.st_mtime + 9, made.st_mtime + 9))
        self.assertNotEqual(self.make(), "")
        self.assertNotEqual(self.library.stat().st_ino, made.st_ino)
        self.assertEqual(sorted(os.listdir(self.folder)), ["libdimkhoros.a", "libdimkhoros.so"])

    def test_a_missing_compiler_is_named(self) -> None:
        """The folder of the commands that are found has all that the script uses but cc."""
        commands = self.folder / "commands"
        commands.mkdir()
        for command in ["dirname", "find", "rm"]:
            (commands / command).symlink_to(shutil.which(command) or "")
        ended = script(DIMKHOROS_LIB=str(self.folder), PATH=str(commands))
        self.assertEqual(ended.stderr, "The shared library is made by the command cc, which is not on PATH.\n")
        self.assertEqual(ended.returncode, 1)

    def test_an_archive_that_is_none_makes_nothing(self) -> None:
        """The compiler says why."""
        self.archive.write_bytes(b"no archive")
        self.assertNotEqual(script(DIMKHOROS_LIB=str(self.folder)).returncode, 0)
        self.assertEqual(os.listdir(self.folder), ["libdimkhoros.a"])


class Finding(unittest.TestCase):
    """Where the module finds the library."""

    def setUp(self) -> None:
        """A folder for copies of the module."""
        holder = tempfile.TemporaryDirectory()
        self.addCleanup(holder.cleanup)
        self.folder = Path(holder.name).resolve()

    def copied(self, place: str) -> Path:
        """The folder that has a copy of the module, at this place of the test's folder."""
        shutil.copytree(PACKAGE, self.folder / place / "dimkhoros")
        return self.folder / place

    def failed(self, ended: subprocess.CompletedProcess[str]) -> str:
        """The last line that a Python that failed said."""
        self.assertNotEqual(ended.returncode, 0)
        return ended.stderr.splitlines()[-1]

    def test_by_the_variable(self) -> None:
        """The folder that it names is the one that is looked at."""
        ended = imported(self.copied("anywhere"), DIMKHOROS_LIB=str(LIBRARY.parent))
        self.assertEqual(ended.stdout, f"{LIBRARY}\n")

    def test_in_an_installed_prefix(self) -> None:
        """The module stands below the folder `lib`, which has the library."""
        for place in ["lib/python", "lib/python3.9/site-packages"]:
            module = self.copied(place)
            shutil.copy(LIBRARY, self.folder / "lib")
            self.assertEqual(imported(module).stdout, f"{self.folder}/lib/libdimkhoros.so\n")

    def test_in_the_module_itself(self) -> None:
        """As in a wheel. A library in a folder `lib` above is not looked at."""
        module = self.copied("lib/python3.9/site-packages")
        (self.folder / "lib" / LIBRARY.name).write_bytes(b"no library")
        shutil.copy(LIBRARY, module / "dimkhoros")
        self.assertEqual(imported(module).stdout, f"{module}/dimkhoros/libdimkhoros.so\n")

    def test_in_the_repository(self) -> None:
        """The module stands in its folder python."""
        module, built = self.copied("python"), self.folder / "crates" / "dimkhoros" / "out"
        built.mkdir(parents=True)
        shutil.copy(LIBRARY, built)
        self.assertEqual(imported(module).stdout, f"{built}/libdimkhoros.so\n")

    def test_a_missing_library_is_named_with_the_places(self) -> None:
        """And with what builds it."""
        module = self.copied("lib/python")
        said = self.failed(imported(module))
        places = f"{module}/dimkhoros or {self.folder}/lib or {self.folder}/lib/crates/dimkhoros/out"
        self.assertEqual(said, f"ImportError: There is no libdimkhoros.so in {places}. {_library.ADVICE}")
        self.assertIn("scripts/shared_library", said)
        said = self.failed(imported(self.copied("python"), DIMKHOROS_LIB="/no/such/folder"))
        self.assertEqual(said, f"ImportError: There is no libdimkhoros.so in /no/such/folder. {_library.ADVICE}")

    def test_a_relative_folder_is_refused(self) -> None:
        """As it is in C and in Rust."""
        said = self.failed(imported(self.copied("python"), DIMKHOROS_LIB="crates/dimkhoros/out"))
        expected = "DIMKHOROS_LIB must be the whole path of a folder, and is crates/dimkhoros/out."
        self.assertEqual(said, f"ImportError: {expected}")

    def test_a_file_that_is_no_library_is_refused(self) -> None:
        """Bytes that cannot be loaded, and a library of other calls."""
        (self.folder / "libdimkhoros.so").write_bytes(b"no library")
        said = self.failed(imported(self.copied("python"), DIMKHOROS_LIB=str(self.folder)))
        self.assertIn(f"ImportError: {self.folder}/libdimkhoros.so is not a library of this module", said)
        with self.assertRaisesRegex(ImportError, "is not a library of this module"):
            _library.opened(Path("libc.so.6"))

    def test_another_version_is_refused(self) -> None:
        """Both versions are named."""
        other = SimpleNamespace(version=lambda: 10203)
        with self.assertRaisesRegex(ImportError, "^X has the version 1.2.3, and this module has 0.2.0. Run"):
            _library.checked(other, Path("X"), "0.2.0")


if __name__ == "__main__":
    unittest.main()
