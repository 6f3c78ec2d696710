"""Makes a wheel of the package, with the shared library in it. This is the build backend that pyproject.toml names.

It needs Python's standard library alone, so pip downloads nothing."""

from __future__ import annotations

import base64
import hashlib
import os
import re
import subprocess
import sys
import sysconfig
import zipfile
from pathlib import Path

HERE = Path(__file__).resolve().parent
ROOT = HERE.parent
PACKAGE = HERE / "dimkhoros"
LIBRARY = "libdimkhoros.so"


class UnsupportedOperation(Exception):
    """pip asks for something that this backend does not make."""


def texts(file: Path) -> dict[str, str]:
    """The names of a file that are set to one text on one line, in TOML or in Python."""
    return dict(re.findall(r'^([\w-]+) = "(.*)"$', file.read_text(encoding="utf-8"), re.MULTILINE))


def version() -> str:
    """The package's version."""
    return texts(PACKAGE / "_library.py")["VERSION"]


def tag() -> str:
    """Which systems the wheel is for: any Python 3, on a system as this one."""
    return "py3-none-" + re.sub(r"\W", "_", sysconfig.get_platform())


def metadata() -> str:
    """The file METADATA, of what pyproject.toml says. Its text is the README."""
    project = texts(HERE / "pyproject.toml")
    lines = [
        "Metadata-Version: 2.1",
        f"Name: {project['name']}",
        f"Version: {version()}",
        f"Summary: {project['description']}",
        f"License: {project['license']}",
        f"Requires-Python: {project['requires-python']}",
        "Description-Content-Type: text/markdown",
    ]
    return "\n".join(lines) + "\n\n" + (HERE / project["readme"]).read_text(encoding="utf-8")


def library() -> bytes:
    """The shared library. scripts/shared_library makes it first if it is missing or older than the archive."""
    command = ["/bin/sh", str(ROOT / "scripts" / "shared_library")]
    ended = subprocess.run(command, capture_output=True, text=True)
    if ended.returncode != 0:
        sys.exit(ended.stderr.strip())
    folder = os.environ.get("DIMKHOROS_LIB") or ROOT / "crates" / "dimkhoros" / "out"
    return (Path(folder) / LIBRARY).read_bytes()


def contents() -> dict[str, bytes]:
    """The files of the wheel in order, but for the list of them."""
    modules = sorted([*PACKAGE.glob("*.py"), PACKAGE / "py.typed"])
    about = f"dimkhoros-{version()}.dist-info"
    wheel = f"Wheel-Version: 1.0\nGenerator: {Path(__file__).name}\nRoot-Is-Purelib: false\nTag: {tag()}\n"
    return {
        **{f"dimkhoros/{module.name}": module.read_bytes() for module in modules},
        f"dimkhoros/{LIBRARY}": library(),
        f"{about}/LICENSE": (ROOT / "LICENSE").read_bytes(),
        f"{about}/METADATA": metadata().encode(),
        f"{about}/WHEEL": wheel.encode(),
    }


def listed(name: str, content: bytes) -> str:
    """A file's line in the list of a wheel: its name, its hash and its length."""
    digest = base64.urlsafe_b64encode(hashlib.sha256(content).digest()).decode().rstrip("=")
    return f"{name},sha256={digest},{len(content)}\n"


def build_wheel(
    wheel_directory: str, config_settings: object = None, metadata_directory: str | None = None
) -> str:
    """Writes the wheel to a folder, and answers its name. Wheels of the same files have the same bytes."""
    files = contents()
    record = f"dimkhoros-{version()}.dist-info/RECORD"
    lines = [listed(name, content) for name, content in files.items()]
    files[record] = "".join([*lines, f"{record},,\n"]).encode()
    wheel = f"dimkhoros-{version()}-{tag()}.whl"
    with zipfile.ZipFile(Path(wheel_directory) / wheel, "w") as archive:
        for name, content in files.items():
            entry = zipfile.ZipInfo(name)
            entry.external_attr = 0o100644 << 16
            archive.writestr(entry, content, zipfile.ZIP_DEFLATED)
    return wheel


def build_sdist(sdist_directory: str, config_settings: object = None) -> str:
    """There is no archive of the sources: the library is not built from this folder alone."""
    raise UnsupportedOperation("only wheels are made, in the repository")
