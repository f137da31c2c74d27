# SPDX-License-Identifier: Apache-2.0 OR MIT
"""The job join: segments among the records of a capture."""

import itertools
import random
import tempfile
import unittest
from functools import lru_cache
from pathlib import Path
from typing import Dict, List, Tuple
from unittest import mock

from bactool import Bactool, _joining
from bactool._joining import NOWHERE, Ends, Joining

from .frames import F1, F4, WHO_IS_ANYWHERE, segment, segments
from .test_command import NAME, record, run

SERVICE = F4[5:]
A0, A1, A2, A3 = ALL = segments(SERVICE, 4)

# The same answer with other invoke ids, from a device on another network, and to one there.
B0, B1 = segments(SERVICE, 7, invoke=2)
B = bytes.fromhex("0100 30020C") + SERVICE
FROM, TO = "0108 0005010A", "0120 0005010AFF"
C0, C1 = segments(SERVICE, 7, npdu=FROM)
C = bytes.fromhex(FROM + "30010C") + SERVICE
D0, D1 = segments(SERVICE, 7, npdu=TO)
D = bytes.fromhex(TO + "30010C") + SERVICE

# An opaque answer with the invoke id of A, and a request in segments with it.
E0, E1 = segments(b"abcd", 2, choice=26)
E = bytes.fromhex("0100 30011A") + b"abcd"
R0, R1 = bytes.fromhex("0104 0C05010004 1A AA"), bytes.fromhex("0104 0805010104 1A BB")
R = bytes.fromhex("0104 0005011A AABB")

# What closes messages with invoke id 1: from the server, and from the client.
SIMPLE, ERROR, REJECT, ABORT, ABORT_OF_CLIENT = map(
    bytes.fromhex, ("0100 20010F", "0100 50010C 9102 9120", "0100 600109", "0100 710100", "0100 700100")
)
SEGMENT_ACK = bytes.fromhex("0100 40010004")

# No service of choice 12, and an answer too long for a record.
X0, X1 = segments(b"\x19" + SERVICE, 8)
LONG0, LONG1 = segments(bytes(65_535), 40_000, choice=26)

Row = Tuple[str, List[bytes], List[bytes], str]


def lost(count: int, of: int, why: str = "incomplete") -> str:
    """Returns what is said of messages that are not joined."""
    return f"{count} of {of} messages in segments not joined: {count} {why}"


ROWS: List[Row] = [
    ("nothing", [], [], ""),
    ("no segments", [F1, F4, WHO_IS_ANYWHERE, SIMPLE, SEGMENT_ACK], [F1, F4, WHO_IS_ANYWHERE, SIMPLE, SEGMENT_ACK], ""),
    ("a message", [*ALL], [F4], ""),
    ("backwards", [*ALL[::-1]], [F4], ""),
    ("others between", [F1, A0, SEGMENT_ACK, A1, A2, F1, A3, B], [F1, SEGMENT_ACK, F1, F4, B], ""),
    ("one that is lost comes last", [A0, A1, A3, F1, A2], [F1, F4], ""),
    ("one again", [A0, A1, A1, A2, A0, A3], [F4], ""),
    ("one again after the last", [*ALL, A3, F1, A1], [F4, F1], ""),
    ("one is lost", [A0, A1, F1, A3], [F1, A0, A1, A3], lost(1, 1)),
    ("one is lost, others come again", [A3, A0, A3, A1], [A3, A0, A3, A1], lost(1, 1)),
    ("two invoke ids", [A0, B0, A1, A2, B1, A3], [B, F4], ""),
    ("two sources", [A0, C0, A1, C1, A2, A3], [C, F4], ""),
    ("two destinations", [D0, A0, A1, A2, D1, A3], [D, F4], ""),
    ("two choices", [A0, E0, A1, E1, A2, A3], [E, F4], ""),
    ("two kinds", [A0, R0, A1, R1, A2, A3], [R, F4], ""),
    ("two are lost", [A0, B1, A2, C0, A1, C1], [C, A0, B1, A2, A1], lost(2, 3)),
    ("the whole message again", [*ALL, *ALL], [F4, F4], ""),
    ("another one with the same invoke id", [*ALL, X0, X1], [F4, X0, X1], lost(1, 2, "refused")),
    ("another segment 0", [A0, A1, C0, X0, X1], [X0, X1, A0, A1, C0],
     "3 of 3 messages in segments not joined: 2 incomplete, 1 refused"),
    ("another segment 2 after the last", [*ALL, segment(2, b"", True), A0], [F4, segment(2, b"", True), A0],
     lost(1, 2)),
    ("no service", [X0, F1, X1, X0[:-1]], [F1, X0, X1, X0[:-1]],
     "2 of 2 messages in segments not joined: 1 incomplete, 1 refused"),
    ("no service, one again", [X0, F1, X1, X1, F4], [F1, X0, X1, X1, F4], lost(1, 1, "refused")),
    ("too long for a record", [LONG0, F1, LONG1], [F1, LONG0, LONG1], lost(1, 1, "too long")),
    ("of no message", [A0, A1, segment(255, b"", True), A2, A3], [A0, A1, segment(255, b"", True), A2, A3],
     lost(3, 3)),
    ("refused ones", [b"", A0, A1, F1[:5], A2, A3, b"\x02"], [b"", F1[:5], F4, b"\x02"], ""),
    ("other encodings", [bytes.fromhex("0140 3C01017F0C") + A1[7:], A3, A2, A0], [F4], ""),
]

# What closes an answer with invoke id 1, what closes a request, and what closes neither: also if from elsewhere.
CLOSES_BOTH = [SIMPLE, ERROR, REJECT, ABORT]
CLOSES_NEITHER = [
    F4, F1, SEGMENT_ACK, WHO_IS_ANYWHERE, bytes.fromhex("0100 200D0F"), bytes.fromhex("0100 710200"),
    bytes.fromhex(FROM + "710100"), bytes.fromhex(TO + "710100"), bytes.fromhex(FROM + "600109"),
]


@lru_cache(maxsize=None)
def tool() -> Bactool:
    """Returns the calls of the library."""
    return Bactool()


def all_of(joining: Joining, records: List[bytes], ends: Ends = NOWHERE) -> List[bytes]:
    """Returns what is passed on of records, and at their end."""
    passed_on = [octets for given in records for octets in joining.take(given, ends)]
    return passed_on + joining.rest()


def taken(records: List[bytes]) -> List[bytes]:
    """Returns the same of a new file."""
    return all_of(Joining(tool()), records)


class Job(unittest.TestCase):
    def setUp(self) -> None:
        folder = tempfile.TemporaryDirectory()
        self.addCleanup(folder.cleanup)
        self.where = Path(folder.name) / "where"

    def assert_joins(self, given: bytes, status: int, wanted: List[bytes], *complaints: str, words: str = "") -> None:
        said = "".join(f"{NAME}: {complaint}\n" for complaint in complaints if complaint)
        self.assertEqual(run(f"join {words}", given), (status, b"".join(map(record, wanted)), said))

    def test_rows(self) -> None:
        for name, given, wanted, report in ROWS:
            with self.subTest(name):
                joining = Joining(tool())
                self.assertEqual(all_of(joining, given), wanted)
                self.assertEqual(joining.report() if joining.unjoined else "", report)
                self.assertEqual(joining.is_refused, "refused" in report + name)

    def test_some_rows_as_a_program(self) -> None:
        for name, given, wanted, report in ROWS:
            if name in ("nothing", "others between", "two are lost", "no service", "refused ones"):
                with self.subTest(name):
                    status = int("refused" in report + name)
                    self.assert_joins(b"".join(map(record, given)), status, wanted, report)

    def test_a_file_that_ends_within_a_record(self) -> None:
        given = b"".join(map(record, [A0, F1, A2])) + b"\0"
        self.assert_joins(given, 2, [F1, A0, A2], lost(1, 1), "the file ends within record 4")

    def test_packets(self) -> None:
        # Two devices that have no address in the NPDU answer a third one, at the same time.
        one, two = "192.0.2.21:47808 192.0.2.10:47808", "192.0.2.22:47808 192.0.2.10:47808"
        given = b"".join(map(record, [A0, A0, A1, A2, A1, A3, A2, ABORT, A3]))
        whence = [one, two, one, one, two, one, two, one, two]
        self.where.write_text("".join(f"{at} 2026-11-23T09:00:00.9Z {ends}\n" for at, ends in enumerate(whence)))
        self.assert_joins(given, 0, [F4, ABORT, F4], words=f"--where {self.where}")

    def test_packets_of_a_file_that_does_not_fit(self) -> None:
        given, words = b"".join(map(record, [A0, F1, F4])), f"--where {self.where}"
        line = "1 - 4 5\n"
        self.where.write_text(2 * line)
        told = f"{self.where}: line 3 does not say where record 3 is from"
        self.assert_joins(given, 2, [F1, A0], lost(1, 1), told, words=words)
        self.where.write_text(line + "2 - 5\n" + line)
        told = f"{self.where}: line 2 does not say where record 2 is from"
        self.assert_joins(given, 2, [A0], lost(1, 1), told, words=words)
        self.where.write_text(4 * line)
        told = f"{self.where}: more lines than there are records"
        self.assert_joins(given, 2, [F1, F4, A0], lost(1, 1), told, words=words)
        self.where.unlink()
        status, written, complaint = run(f"join {words}", given)
        self.assertEqual((status, written), (2, b""))
        self.assertIn("No such file", complaint)


class Closing(unittest.TestCase):
    def test_what_closes(self) -> None:
        # What comes later is of another message. At the end all segments are passed on.
        for closing in (*CLOSES_BOTH, ABORT_OF_CLIENT):
            is_of_client = closing == ABORT_OF_CLIENT
            client, server = (b"C", b"S"), (b"S", b"C")
            whence = {A0: server, A1: server, R0: client, closing: client if is_of_client else server}
            joining = Joining(tool())
            passed_on = [joining.take(octets, whence[octets]) for octets in (A0, R0, A1, closing, A1, R0)]
            self.assertEqual(passed_on, [[], [], [], [closing], [], []])
            self.assertEqual(joining.rest(), [A0, R0, A1, A1, R0])
            self.assertEqual(joining.unjoined, {"incomplete": 4})

    def test_what_closes_a_whole_message(self) -> None:
        for closing in CLOSES_BOTH:
            self.assertEqual(taken([*ALL, A1, closing, A1]), [F4, closing, A1])

    def test_what_does_not_close(self) -> None:
        for other in CLOSES_NEITHER:
            self.assertEqual(taken([A0, A1, other, A2, A3]), [other, F4])
            self.assertEqual(taken([*ALL, other, A1]), [F4, other])
        for other in (ABORT, ABORT_OF_CLIENT):
            for ends in ((b"S", b"D"), (b"D", b"S"), (b"C", b"D"), (b"D", b"C")):
                joining = Joining(tool())
                for octets in ALL[:3]:
                    self.assertEqual(joining.take(octets, (b"S", b"C")), [])
                self.assertEqual(joining.take(other, ends), [other])
                self.assertEqual(joining.take(A3, (b"S", b"C")), [F4])

    def test_old_messages_are_forgotten(self) -> None:
        with mock.patch.object(_joining, "REMEMBERED", 1):
            self.assertEqual(taken([*ALL, A1, B0, B1, A2, B1]), [F4, B, A2])


class Order(unittest.TestCase):
    def test_each_order_of_four_with_each_lost_or_doubled(self) -> None:
        for order in itertools.permutations(ALL):
            self.assertEqual(taken([*order]), [F4])
            for one in ALL:
                left = [octets for octets in order if octets != one]
                self.assertEqual(taken(left), left)
                # Segment 0 after the last one begins another message.
                for place in range(5):
                    doubled = [*order[:place], one, *order[place:]]
                    self.assertEqual(taken(doubled), [F4, A0] if one == doubled[-1] == A0 else [F4])

    def test_each_record_is_passed_on_by_itself_or_within_another(self) -> None:
        chance = random.Random(11)
        pool: Dict[bytes, bytes] = {}
        for invoke in range(5):
            for npdu in ("0100", FROM, TO):
                service = bytes(chance.randrange(256) for _ in range(12))
                whole = bytes.fromhex(npdu) + bytes([0x30, invoke, 26]) + service
                pool.update((octets, whole) for octets in segments(service, 3, 26, invoke, npdu))
        others = [F1, SIMPLE, ABORT, ABORT_OF_CLIENT, SEGMENT_ACK, b"\x02"]
        for _ in range(200):
            given = chance.choices([*pool, *others], [6] * len(pool) + [1] * len(others), k=chance.randrange(400))
            passed_on = taken(given)
            for octets in {*given, *passed_on}:
                if octets in pool:
                    # Fewer of a segment are passed on only if its message is, and each is once at most for one of it.
                    self.assertTrue(passed_on.count(octets) == given.count(octets) or pool[octets] in passed_on)
                    self.assertLessEqual(passed_on.count(octets) + passed_on.count(pool[octets]), given.count(octets))
                elif octets not in pool.values():
                    self.assertEqual(passed_on.count(octets), given.count(octets))


if __name__ == "__main__":
    unittest.main()
