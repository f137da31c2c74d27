# SPDX-License-Identifier: Apache-2.0 OR MIT
"""Where the library is found."""

import os
import shutil
import subprocess
import sys
import tempfile
import unittest
from pathlib import Path
from typing import Dict

import bactool
from bactool import _fields
from bactool._library import FILE, VARIABLE, Library, found_path

PACKAGE = Path(bactool.__file__).parent

# Says which library is found, and what it says of a frame.
PROGRAM = """
import bactool
from bactool._library import found_path
print(found_path(), bactool.check(bytes.fromhex("018012")))
"""


class Names(unittest.TestCase):
    def test_each_name_of_the_library_has_a_place_in_a_dict(self) -> None:
        structure = {_fields.VALUE, _fields.ITEM, _fields.PROPERTY_ERROR, _fields.LISTED_NETWORK, *_fields.ENDS}
        known = {*_fields.OF_FRAMES, *_fields.OF_ITEMS, *_fields.ELEMENTS, *structure}
        self.assertEqual(set(Library().words), known)


class Found(unittest.TestCase):
    def setUp(self) -> None:
        folder = tempfile.TemporaryDirectory()
        self.addCleanup(folder.cleanup)
        self.room = Path(folder.name).resolve()

    def library(self, *parts: str) -> Path:
        """Copies the library to a place."""
        if not os.path.exists(found_path()):
            self.skipTest("the library is the system's")
        place = self.room.joinpath(*parts)
        place.parent.mkdir(parents=True, exist_ok=True)
        return Path(shutil.copy(found_path(), place))

    def package(self, *parts: str) -> Path:
        """Copies the package, without a library, into a folder."""
        place = self.room.joinpath(*parts, "bactool")
        place.mkdir(parents=True, exist_ok=True)
        for module in PACKAGE.glob("*.py"):
            shutil.copy(module, place)
        return place

    def run_with(self, package: Path, **variables: str) -> "subprocess.CompletedProcess[str]":
        environment: Dict[str, str] = {**os.environ, "PYTHONPATH": str(package.parent), **variables}
        if VARIABLE not in variables:
            environment.pop(VARIABLE, None)
        words = [sys.executable, "-B", "-c", PROGRAM]
        return subprocess.run(words, env=environment, capture_output=True, text=True, cwd=self.room, check=False)

    def assert_found(self, library: Path, package: Path, **variables: str) -> None:
        ran = self.run_with(package, **variables)
        self.assertEqual((ran.stdout, ran.stderr, ran.returncode), (f"{library} None\n", "", 0))

    def test_inside_the_package(self) -> None:
        package = self.package("site")
        self.assert_found(self.library("site", "bactool", FILE), package, **{VARIABLE: "/dev/null"})

    def test_where_the_variable_says(self) -> None:
        package, library = self.package("there", "python"), self.library("elsewhere", FILE)
        self.library("there", "lib", FILE)
        self.assert_found(library, package, **{VARIABLE: str(library)})
        self.assert_found(library, package, **{VARIABLE: str(library.parent)})

    def test_in_the_repository(self) -> None:
        self.assert_found(self.library("lib", FILE), self.package("python"))

    def test_in_a_release(self) -> None:
        library = self.library("lib", FILE)
        self.assert_found(library, self.package("share", "bactool", "python"))
        self.assert_found(library, self.package("lib", "python3", "dist-packages"))

    def test_no_library(self) -> None:
        ran = self.run_with(self.package("site"), **{VARIABLE: "/nowhere/libbactool.so.1"})
        self.assertEqual(ran.returncode, 1)
        self.assertIn("OSError: /nowhere/libbactool.so.1: cannot open", ran.stderr)
        with self.assertRaises(OSError):
            bactool.Bactool("/nowhere/libbactool.so.1")

    def test_another_library(self) -> None:
        with self.assertRaisesRegex(OSError, "has no call bactool_check: it is older than this package"):
            bactool.Bactool("libc.so.6")

    def test_a_library_of_ones_own_choice(self) -> None:
        tool = bactool.Bactool(self.library("own.so"))
        self.assertEqual(tool.show(bytes.fromhex("018012")), "prio=0 reply=0 net type=12")


if __name__ == "__main__":
    unittest.main()
