#!/usr/bin/env python3
# SPDX-License-Identifier: Apache-2.0 OR MIT
"""Writes the wheel of the package, with the shared library that `make lib` left in lib/:

    python3 python/backend.py FOLDER

It is what pip calls too, as pyproject.toml says. It wants no other package and no network. The same files give the same
octets: a wheel is a zip file, here with its files in the order of their names, all of one time, which is that of
SOURCE_DATE_EPOCH if it is set. It needs Python 3.11 or later; the package does not.

The library contains code of the kit with which it was built. If the kit is here, the wheel has the notices for it."""

from __future__ import annotations

import base64
import hashlib
import os
import re
import shutil
import subprocess
import sys
import time
import zipfile
from pathlib import Path
from typing import Any, Iterator, Mapping, Optional

HERE = Path(__file__).resolve().parent
PACKAGE = HERE / "bactool"
LIBRARY = HERE.parent / "lib" / "libbactool.so.1"
# What the package has of the helper with-names.
HELPER = {
    "with_names.py": HERE.parent / "scripts" / "with-names",
    "bacnet-names.txt": HERE.parent / "scripts" / "bacnet-names.txt",
}
LICENSE = HERE.parent / "LICENSE"
# Writes the notices of the kit in a folder.
NOTICES = HERE.parent / "scripts" / "notices"

TAG = "py3-none-linux_x86_64"
WHEEL = f"Wheel-Version: 1.0\nGenerator: bactool\nRoot-Is-Purelib: false\nTag: {TAG}\n"

# The first time that a zip file can have.
EARLIEST = 315_532_800


class UnsupportedOperation(Exception):
    """What pip is told where it asks for what is not made."""


def build_wheel(
    wheel_directory: str,
    config_settings: Optional[Mapping[str, Any]] = None,
    metadata_directory: Optional[str] = None,
) -> str:
    """Writes the wheel into a folder. Returns its name."""
    version = version_of_package()
    files = {f"bactool/{path.name}": path.read_bytes() for path in PACKAGE.iterdir() if path.suffix in (".py", ".typed")}
    files.update({f"bactool/{name}": path.read_bytes() for name, path in HELPER.items()})
    files[f"bactool/{LIBRARY.name}"] = library()
    kept = f"bactool-{version}.dist-info"
    files[f"{kept}/licenses/{LICENSE.name}"] = LICENSE.read_bytes()
    files.update({f"{kept}/licenses/copyright": notices for notices in notices_of_kit()})
    files[f"{kept}/METADATA"] = metadata(version).encode()
    files[f"{kept}/WHEEL"] = WHEEL.encode()
    listed = [f"{name},{digest(octets)},{len(octets)}\n" for name, octets in sorted(files.items())]
    files[f"{kept}/RECORD"] = "".join([*listed, f"{kept}/RECORD,,\n"]).encode()
    name = f"bactool-{version}-{TAG}.whl"
    write_zip(Path(wheel_directory) / name, files)
    return name


def build_sdist(sdist_directory: str, config_settings: Optional[Mapping[str, Any]] = None) -> str:
    """There is no package of sources: the library is built from the repository."""
    raise UnsupportedOperation("the package is built from the repository")


def library() -> bytes:
    """Returns the octets of the shared library."""
    try:
        return LIBRARY.read_bytes()
    except FileNotFoundError:
        raise SystemExit(f"bactool: make lib comes before the wheel: there is no {LIBRARY}") from None


def notices_of_kit() -> Iterator[bytes]:
    """Yields the notices of the kit's crates of which the library has code, if the kit is here."""
    tool = shutil.which("rt")
    if tool is None:
        print("bactool: the notices of the kit are left out of the wheel, since there is no rt", file=sys.stderr)
        return
    kit = Path(subprocess.run([tool, "doc"], capture_output=True, check=True, text=True).stdout.strip()).parent
    yield subprocess.run([sys.executable, "-B", NOTICES, kit], capture_output=True, check=True).stdout


def version_of_package() -> str:
    """Returns the version that the package says."""
    found = re.search(r'^__version__ = "([0-9.]+)"$', (PACKAGE / "__init__.py").read_text(), re.MULTILINE)
    assert found is not None
    return found[1]


def metadata(version: str) -> str:
    """Returns what the wheel says of the package, as pyproject.toml has it."""
    import tomllib

    project = tomllib.loads((HERE / "pyproject.toml").read_text())["project"]
    lines = [
        "Metadata-Version: 2.1",
        f"Name: {project['name']}",
        f"Version: {version}",
        f"Summary: {project['description']}",
        f"License: {project['license']['text']}",
        f"Keywords: {','.join(project['keywords'])}",
        *(f"Classifier: {classifier}" for classifier in project["classifiers"]),
        f"Requires-Python: {project['requires-python']}",
    ]
    return "\n".join(lines) + "\n"


def digest(octets: bytes) -> str:
    """Returns what RECORD has of a file."""
    return "sha256=" + base64.urlsafe_b64encode(hashlib.sha256(octets).digest()).rstrip(b"=").decode()


def write_zip(path: Path, files: Mapping[str, bytes]) -> None:
    """Writes a zip file, with what says of the others what they are at its end."""
    moment = time.gmtime(max(EARLIEST, int(os.environ.get("SOURCE_DATE_EPOCH", EARLIEST))))[:6]
    with zipfile.ZipFile(path, "w") as archive:
        for name in sorted(files, key=lambda name: (".dist-info/" in name, name)):
            entry = zipfile.ZipInfo(name, moment)
            entry.compress_type = zipfile.ZIP_DEFLATED
            entry.external_attr = (0o100755 if ".so" in name else 0o100644) << 16
            archive.writestr(entry, files[name])


if __name__ == "__main__":
    if len(sys.argv) != 2:
        sys.exit(f"usage: {sys.argv[0]} FOLDER")
    os.makedirs(sys.argv[1], exist_ok=True)
    print(os.path.join(sys.argv[1], build_wheel(sys.argv[1])))
