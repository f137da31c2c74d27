# SPDX-License-Identifier: Apache-2.0 OR MIT
"""The package as a program."""

import json
import os
import pty
import subprocess
import sys
import tempfile
import threading
import unittest
from typing import Any, Tuple

from .frames import DICT_OF_F1, F1, F2, LINE_OF_F1, PRIORITY_17, WRITE

NAME = "python3 -m bactool"
WORDS = [sys.executable, "-B", "-m", "bactool"]


def record(octets: bytes) -> bytes:
    """Returns a record of a frame file."""
    return len(octets).to_bytes(2, "big") + octets


def run(job: str, given: bytes) -> Tuple[int, bytes, str]:
    """Returns the status of a run, its output and what it says on standard error."""
    ran = subprocess.run([*WORDS, *job.split()], input=given, capture_output=True, check=False)
    return ran.returncode, ran.stdout, ran.stderr.decode()


THREE = record(F1) + record(F2) + record(b"")


class Command(unittest.TestCase):
    def assert_runs(self, job: str, given: bytes, status: int, written: Any, complaint: str = "") -> None:
        text = written if isinstance(written, bytes) else written.encode()
        self.assertEqual(run(job, given), (status, text, f"{NAME}: {complaint}\n" if complaint else ""))

    def test_check_and_show(self) -> None:
        self.assert_runs("check", THREE, 1, "1 ok\n2 tolerated at 1\n3 refused Short at 0\n")
        self.assert_runs("show", THREE, 1, f"1 {LINE_OF_F1}\n2 {LINE_OF_F1}\n3 refused Short at 0\n")
        self.assert_runs("check", record(F1) + b"\0", 2, "1 ok\n", "the file ends within record 2")
        self.assert_runs("check", b"", 0, "")

    def test_explain(self) -> None:
        status, written, complaint = run("explain", record(WRITE) + record(PRIORITY_17) + record(b""))
        lines = written.decode().splitlines()
        self.assertEqual((status, complaint, len(lines)), (1, "", 29))
        self.assertEqual((lines[0], lines[13], lines[27]), ("1 ok", "2 refused Content at 21", "3 refused Short at 0"))
        self.assertEqual(lines[6:9], [
            "   5  0F           service choice 15 WriteProperty", "   6  0C 00400001  [0] object 1:1", "  11  19 55        [1] property 85"
        ])
        self.assertTrue(lines[26].startswith("  21  11           <- Content"))
        self.assertTrue(lines[28].startswith("   0               <- Short"))
        # More octets than a line has.
        data = record(bytes.fromhex("0100 1009") + bytes.fromhex("6509") + bytes(range(9)))
        lines = run("explain", data)[1].decode().splitlines()[5:]
        self.assertEqual([line[:24] for line in lines], ["   4  6509 000102030405 ", "  12  060708"])

    def test_explain_has_the_canonical_octets(self) -> None:
        lines = run("explain", record(F2))[1].decode().splitlines()
        self.assertEqual((lines[2], lines[-1]), (
            "   1  54           control: reply expected, priority 0  ~ 04", "  11  1A 0055      [1] property 85  ~ 19 55"
        ))

    def test_show_writes_utf_8(self) -> None:
        octets = bytes.fromhex("010030010C0C0000000519553E 7300C3A9 3F")
        ran = subprocess.run([*WORDS, "show"], input=record(octets), capture_output=True, env={**os.environ, "LC_ALL": "C"})
        self.assertTrue(ran.stdout.endswith('value={s:"é"}\n'.encode()))

    def test_normalise(self) -> None:
        self.assert_runs("normalise", THREE, 1, record(F1) * 2, "record 3: refused Short at 0")

    def test_json(self) -> None:
        status, written, complaint = run("json", THREE)
        self.assertEqual((status, complaint), (1, ""))
        self.assertEqual([json.loads(line) for line in written.splitlines()], [
            DICT_OF_F1, DICT_OF_F1, {"refused": "Short", "at": 0},
        ])
        status, written, complaint = run("json --names", record(F1))
        names = {"segs": "unspecified", "resp": "1476", "object": "analog-input", "property": "present-value"}
        self.assertEqual((status, json.loads(written), complaint), (0, {**DICT_OF_F1, "names": names}, ""))

    def test_encode(self) -> None:
        line = b'{"conf": true, "id": 1, "ReadProperty": true, "object": "0:5", "property": 85}'
        self.assert_runs("encode", line, 0, record(F1))
        self.assert_runs("encode", line + b"\r\n" + line + b"\n", 0, record(F1) * 2)
        self.assert_runs("encode", line + b"\n{}\n" + line, 1, record(F1), "line 2: refused Short at the end")
        self.assert_runs("encode", line + b'\n{"prio": 4}\n', 1, record(F1), "line 2: refused Number at prio")
        for wrong in (b"", b"{", b"nothing", b"\xff", line[:-1] + b', "value": NaN}', line[:-1] + b', "id": 2}'):
            status, written, complaint = run("encode", line + b"\n" + wrong + b"\n")
            self.assertEqual((status, written), (2, record(F1)))
            self.assertRegex(complaint, f"^{NAME}: line 2: [^\n]+\n$")

    def test_what_a_line_has_in_it_is_safe_on_a_terminal(self) -> None:
        line = json.dumps({"\x1b[31m\n\ud800é": 1}).encode()
        self.assert_runs("encode", line, 1, b"", "line 1: refused Name at \\x1b[31m\\n\\ud800é")

    def test_encode_of_what_is_longer_than_a_record(self) -> None:
        frame = {"unconf": True, "opaque": True, "choice": 9, "octets": "00" * 65_531}
        self.assertEqual(run("encode", json.dumps(frame).encode())[:2], (0, record(bytes.fromhex("01001009") + bytes(65_531))))
        frame["octets"] = "00" * 65_532
        self.assert_runs("encode", json.dumps(frame).encode(), 2, "", "line 1: too long")

    def test_encode_of_what_nests_deep(self) -> None:
        number = 5000
        for brackets in ("[" * number, "[" * 20 * number, "]" * number, "[" * number + "}" * number, '{"a":' * number):
            status, written, complaint = run("encode", brackets.encode())
            self.assertEqual((status, written), (2, b""))
            self.assertRegex(complaint, f"^{NAME}: line 1: [^\n]+\n$")
        for brackets in ("[" * number + "]" * number, '{"a":' * number + '"]\\"["' + "}" * number):
            status, written, complaint = run("encode", brackets.encode())
            self.assertEqual((status, written), (1, b""))
            self.assertRegex(complaint, f"^{NAME}: line 1: refused [^\n]+\n$")
        groups = '["group", {"tag": 0, "value": [' * 2000 + "]}]" * 2000
        line = '{"ack": true, "id": 1, "ReadProperty": true, "object": "0:5", "property": 85, "value": [%s]}' % groups
        status, written, complaint = run("encode", line.encode())
        self.assertEqual((status, written), (1, b""))
        self.assertRegex(complaint, f"^{NAME}: line 1: refused [^\n]+\n$")

    def test_read(self) -> None:
        lines = f"7 {LINE_OF_F1}\n{LINE_OF_F1}".encode()
        self.assert_runs("read", lines, 0, record(F1) * 2)
        self.assert_runs("read", b"prio=4 reply=0 unconf Who-Is\n", 1, "", "line 1: refused Text at 5")
        self.assert_runs("read", b"\n", 1, "", "line 1: refused Short at 0")

    def test_the_words(self) -> None:
        for words in ("", "pack", "check file", "check --names", "join --where"):
            status, written, complaint = run(words, b"")
            self.assertEqual((status, written), (2, b""))
            self.assertTrue(complaint.startswith("usage: "))
        for words in ("--help", "json --help", "join --help"):
            status, written, complaint = run(words, b"")
            self.assertEqual((status, complaint), (0, ""))
            self.assertIn(b"usage: python3 -m bactool", written)

    def test_a_closed_input_or_output(self) -> None:
        for closed in ("<&-", ">&-"):
            words = ["sh", "-c", f'exec "$@" {closed}', "sh", *WORDS, "check"]
            ran = subprocess.run(words, stdin=subprocess.DEVNULL, capture_output=True, check=False)
            self.assertEqual((ran.returncode, ran.stdout), (2, b""))
            self.assertEqual(ran.stderr.decode(), f"{NAME}: standard input or output is closed\n")

    def test_an_output_that_takes_nothing(self) -> None:
        for job in ("check", "json", "normalise", "join"):
            with open("/dev/full", "wb") as full:
                ran = subprocess.run([*WORDS, job], input=record(F1), stdout=full, stderr=subprocess.PIPE, check=False)
            self.assertEqual(ran.returncode, 2)
            self.assertRegex(ran.stderr.decode(), f"^{NAME}: .*No space left on device\n$")

    def test_lines_come_before_more_is_waited_for(self) -> None:
        with subprocess.Popen([*WORDS, "check"], stdin=subprocess.PIPE, stdout=subprocess.PIPE) as ran:
            assert ran.stdin is not None and ran.stdout is not None
            ran.stdin.write(record(F1))
            ran.stdin.flush()
            late = threading.Timer(20, ran.kill)
            late.start()
            self.assertEqual(ran.stdout.readline(), b"1 ok\n")
            late.cancel()

    def test_progress(self) -> None:
        with tempfile.TemporaryFile() as file, tempfile.TemporaryFile() as written:
            file.write(record(F1) * 300_000)
            file.seek(0)
            shown = self.on_terminal([*WORDS, "show"], file, written)
        self.assertRegex(shown, r"\r[0-9,]+ done, [0-9]+ %")
        self.assertTrue(shown.endswith("\r\x1b[K"))
        with tempfile.TemporaryFile() as written:
            reading, writing = os.pipe()
            os.write(writing, record(F1) * 1000)
            os.close(writing)
            with open(reading, "rb") as pipe:
                self.assertEqual(self.on_terminal([*WORDS, "check"], pipe, written), "")

    def on_terminal(self, words: Any, source: Any, target: Any) -> str:
        """Returns what a run writes to a terminal as its standard error."""
        ours, theirs = pty.openpty()
        with subprocess.Popen(words, stdin=source, stdout=target, stderr=theirs) as ran:
            os.close(theirs)
            shown = b""
            while True:
                try:
                    piece = os.read(ours, 4096)
                except OSError:
                    break
                if not piece:
                    break
                shown += piece
        os.close(ours)
        self.assertEqual(ran.returncode, 0)
        return shown.decode()


if __name__ == "__main__":
    unittest.main()
