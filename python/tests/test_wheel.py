"""The wheel that pip installs: its files, what it says of itself, and that the package in it has its library."""

from __future__ import annotations

import base64
import csv
import hashlib
import os
import tempfile
import unittest
import zipfile
from email.parser import Parser
from pathlib import Path
from unittest import mock

import dimkhoros
import wheel_backend

from .repository import PACKAGE, ROOT
from .test_library import LIBRARY, imported

ABOUT = f"dimkhoros-{dimkhoros.__version__}.dist-info"


class Wheel(unittest.TestCase):
    """A wheel, in a folder of its own."""

    def setUp(self) -> None:
        """The wheel is made as pip makes it."""
        holder = tempfile.TemporaryDirectory()
        self.addCleanup(holder.cleanup)
        self.folder = Path(holder.name).resolve()
        self.name = wheel_backend.build_wheel(str(self.folder))
        self.wheel = zipfile.ZipFile(self.folder / self.name)
        self.addCleanup(self.wheel.close)

    def text(self, name: str) -> str:
        """The text of a file that says something of the wheel."""
        return self.wheel.read(f"{ABOUT}/{name}").decode()

    def test_it_has_the_package_the_library_and_the_license(self) -> None:
        """All modules, and no test."""
        package = {f"dimkhoros/{file.name}": file for file in PACKAGE.iterdir() if file.is_file()}
        files = {**package, "dimkhoros/libdimkhoros.so": LIBRARY, f"{ABOUT}/LICENSE": ROOT / "LICENSE"}
        for name, file in files.items():
            self.assertEqual(self.wheel.read(name), file.read_bytes(), name)
        about = [f"{ABOUT}/{name}" for name in ["METADATA", "WHEEL", "RECORD"]]
        self.assertEqual(sorted(self.wheel.namelist()), sorted([*files, *about]))

    def test_its_list_has_every_file(self) -> None:
        """With the hash and the length, but for the list itself."""
        for name, digest, length in csv.reader(self.text("RECORD").splitlines()):
            content = self.wheel.read(name)
            hashed = base64.urlsafe_b64encode(hashlib.sha256(content).digest()).decode().rstrip("=")
            itself = name == f"{ABOUT}/RECORD"
            self.assertEqual((digest, length), ("", "") if itself else (f"sha256={hashed}", str(len(content))))
        self.assertEqual(len(self.text("RECORD").splitlines()), len(self.wheel.namelist()))

    def test_it_says_what_it_is(self) -> None:
        """Name, version and system are in the wheel's name too."""
        said = Parser().parsestr(self.text("METADATA"))
        self.assertEqual((said["Name"], said["Version"]), ("dimkhoros", dimkhoros.__version__))
        self.assertEqual((said["Requires-Python"], said["License"]), (">=3.9", "MIT"))
        self.assertEqual(said.get_payload(), (ROOT / "python" / "README.md").read_text())
        tag = Parser().parsestr(self.text("WHEEL"))["Tag"]
        self.assertRegex(tag, r"^py3-none-\w+$")
        self.assertEqual(self.name, f"dimkhoros-{dimkhoros.__version__}-{tag}.whl")

    def test_the_package_in_it_finds_its_own_library(self) -> None:
        """Without DIMKHOROS_LIB, and away from the repository."""
        self.wheel.extractall(self.folder)
        ended = imported(self.folder)
        self.assertEqual((ended.stdout, ended.stderr), (f"{self.folder}/dimkhoros/libdimkhoros.so\n", ""))

    def test_it_is_the_same_each_time(self) -> None:
        """Byte for byte."""
        first = (self.folder / self.name).read_bytes()
        wheel_backend.build_wheel(str(self.folder))
        self.assertEqual((self.folder / self.name).read_bytes(), first)


class Backend(unittest.TestCase):
    """What the backend reads and refuses."""

    def test_it_reads_pyproject_as_toml(self) -> None:
        """Every text of the table `project`. Python has a reader of TOML from 3.11 on."""
        try:
            import tomllib
        except ImportError:
            self.skipTest("this Python has no tomllib")
        read = tomllib.loads((ROOT / "python" / "pyproject.toml").read_text())
        self.assertEqual(read["build-system"]["requires"], [])
        texts = {name: value for name, value in read["project"].items() if isinstance(value, str)}
        self.assertEqual({"build-backend": "wheel_backend", **texts}, wheel_backend.texts(wheel_backend.HERE / "pyproject.toml"))

    def test_a_missing_library_is_named(self) -> None:
        """With what builds it, in a few lines and without a trace of calls."""
        with tempfile.TemporaryDirectory() as folder, mock.patch.dict(os.environ, DIMKHOROS_LIB=folder):
            with self.assertRaisesRegex(SystemExit, f"^There is no archive {folder}/libdimkhoros.a. Run"):
                wheel_backend.build_wheel(folder)
            self.assertEqual(os.listdir(folder), [])

    def test_sources_are_not_packed(self) -> None:
        """The hook that pip asks for them says so."""
        with self.assertRaises(wheel_backend.UnsupportedOperation):
            wheel_backend.build_sdist(".")


if __name__ == "__main__":
    unittest.main()
