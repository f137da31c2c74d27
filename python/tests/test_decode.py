# SPDX-License-Identifier: Apache-2.0 OR MIT
"""Frames as dicts, and the same frames of these dicts."""

import json
import unittest
from typing import Any

from bactool import decode, encode, show

from .frames import DICT_OF_F1, F1, F2, F4, WHO_IS_ANYWHERE, answer, answered

# Octets of elements, and their pairs, by sections 2 and 8.3 of docs/FORMATS.md.
ELEMENTS = (
    ("00", ["null", None]),
    ("10", ["boolean", False]),
    ("11", ["boolean", True]),
    ("2105", ["u", 5]),
    ("2508FFFFFFFFFFFFFFFF", ["u", 18_446_744_073_709_551_615]),
    ("31FB", ["i", -5]),
    ("35088000000000000000", ["i", -9_223_372_036_854_775_808]),
    ("444290999A", ["r", {"float": 72.30000305175781, "bits": "4290999A"}]),
    ("447F7FFFFF", ["r", {"float": 3.4028234663852886e38, "bits": "7F7FFFFF"}]),
    ("447F800000", ["r", {"float": None, "bits": "7F800000"}]),
    ("447F800001", ["r", {"float": None, "bits": "7F800001"}]),
    ("447FC00000", ["r", {"float": None, "bits": "7FC00000"}]),
    ("55083FF0000000000000", ["d", {"float": 1.0, "bits": "3FF0000000000000"}]),
    ("55080000000000000001", ["d", {"float": 5e-324, "bits": "0000000000000001"}]),
    ("5508FFF0000000000000", ["d", {"float": None, "bits": "FFF0000000000000"}]),
    ("62CAFE", ["o", "CAFE"]),
    ("60", ["o", ""]),
    ("75060048656C6C6F", ["s", "Hello"]),
    ("7300C3A9", ["s", "é"]),
    ("7205E9", ["s", {"set": 5, "octets": "E9"}]),
    ("7200E9", ["s", {"set": 0, "octets": "E9"}]),
    ("720022", ["s", {"set": 0, "octets": "22"}]),
    ("72000A", ["s", {"set": 0, "octets": "0A"}]),
    ("7100", ["s", ""]),
    ("8306A540", ["b", "1010010101"]),
    ("8100", ["b", ""]),
    ("9103", ["e", 3]),
    ("A47E0B1701", ["D", "7E0B1701"]),
    ("B40F0C1E00", ["T", "0F0C1E00"]),
    ("C402000004", ["id", "8:4"]),
    ("C4FFFFFFFF", ["id", "1023:4194303"]),
    ("1955", ["context", {"tag": 1, "octets": "55"}]),
    ("E955", ["context", {"tag": 14, "octets": "55"}]),
    ("2E21012F", ["group", {"tag": 2, "value": [["u", 1]]}]),
    ("4E4F", ["group", {"tag": 4, "value": []}]),
)

# Frames and their dicts, by the tables of section 8 of docs/FORMATS.md and examples 5, 6, 18, 20, 21 and 22.
FRAMES = (
    (F1, DICT_OF_F1),
    (F4, answered(["r", {"float": 72.30000305175781, "bits": "4290999A"}])),
    (WHO_IS_ANYWHERE, {"prio": 0, "reply": 0, "dest": "65535/*", "hops": 255, "unconf": True, "Who-Is": True}),
    (
        bytes.fromhex("0128 0005 01 0A 0007 02 0102 FF 1008"),
        {"prio": 0, "reply": 0, "dest": "5/0A", "hops": 255, "src": "7/0102", "unconf": True, "Who-Is": True},
    ),
    (
        bytes.fromhex("0100 1000 C402000001 2201E0 9103 2163"),
        {
            "prio": 0, "reply": 0, "unconf": True, "I-Am": True,
            "object": "8:1", "apdu": 480, "segmentation": 3, "vendor": 99,
        },
    ),
    (
        bytes.fromhex("0100 30F10E 0C00000021 1E 2955 4E 444290999A 4F 2967 5E 9102 9120 5F 1F"),
        {
            "prio": 0, "reply": 0, "ack": True, "id": 241, "ReadPropertyMultiple": True,
            "results": [
                {
                    "object": "0:33",
                    "results": [
                        {"property": 85, "value": [["r", {"float": 72.30000305175781, "bits": "4290999A"}]]},
                        {"property": 103, "error": {"class": 2, "code": 32}},
                    ],
                }
            ],
        },
    ),
    (
        bytes.fromhex("0100 1002 0912 1C02000004 2C0000000A 3900 4E 0955 2E 4442820000 2F 096F 2E 820400 2F 4F"),
        {
            "prio": 0, "reply": 0, "unconf": True, "UnconfirmedCOVNotification": True,
            "process": 18, "device": "8:4", "object": "0:10", "remaining": 0,
            "values": [
                {"property": 85, "value": [["r", {"float": 65.0, "bits": "42820000"}]]},
                {"property": 111, "value": [["b", "0000"]]},
            ],
        },
    ),
    (
        bytes.fromhex("0100 50010C 9102 9120"),
        {"prio": 0, "reply": 0, "error": True, "id": 1, "choice": 12, "class": 2, "code": 32},
    ),
    (bytes.fromhex("0180 01 0002 0003"), {"prio": 0, "reply": 0, "net": 1, "networks": [2, 3]}),
    (bytes.fromhex("0180 80 0104 AABB"), {"prio": 0, "reply": 0, "net": 128, "vendor": 260, "data": "AABB"}),
    (
        bytes.fromhex("0180 06 01 0002 01 02 AABB"),
        {"prio": 0, "reply": 0, "net": 6, "ports": [{"network": 2, "id": 1, "info": "AABB"}]},
    ),
)


class Decode(unittest.TestCase):
    maxDiff = None

    def assert_is(self, octets: bytes, wanted: Any) -> None:
        """The octets are decoded as that dict, in the order of the text, and it is encoded as the octets."""
        found = decode(octets)
        self.assertEqual(json.dumps(found), json.dumps(wanted))
        self.assertEqual(encode(found), octets)
        self.assertEqual(encode(json.loads(json.dumps(found))), octets)

    def test_frames(self) -> None:
        for octets, wanted in FRAMES:
            with self.subTest(octets.hex()):
                self.assert_is(octets, wanted)

    def test_elements(self) -> None:
        for octets, pair in ELEMENTS:
            with self.subTest(octets):
                self.assert_is(answer(octets), answered(pair))

    def test_elements_in_one_value(self) -> None:
        self.assert_is(answer("".join(octets for octets, _ in ELEMENTS)), answered(*(pair for _, pair in ELEMENTS)))

    def test_32_groups(self) -> None:
        pairs: Any = []
        for _ in range(32):
            pairs = [["group", {"tag": 0, "value": pairs}]]
        self.assert_is(answer("0E" * 32 + "0F" * 32), answered(*pairs))

    def test_a_tolerated_spelling(self) -> None:
        self.assertEqual(decode(F2), DICT_OF_F1)

    def test_what_is_returned_is_kept(self) -> None:
        first = decode(F4)
        decode(WHO_IS_ANYWHERE)
        self.assertEqual(show(encode(first)), show(F4))


if __name__ == "__main__":
    unittest.main()
