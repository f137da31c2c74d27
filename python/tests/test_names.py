# SPDX-License-Identifier: Apache-2.0 OR MIT
"""Names beside numbers: those of the tables of clause 21 of the standard."""

import unittest
from typing import Any, Dict

from bactool import RefusedField, decode, encode, named

from .frames import F1, F4, answer


class Names(unittest.TestCase):
    def assert_names(self, octets: bytes, names: Dict[str, str]) -> Any:
        """The frame has these names, and else is as it was."""
        frame = decode(octets)
        found = named(frame)
        self.assertEqual(found.pop("names", {}), names)
        self.assertEqual(frame, decode(octets))
        return found

    def test_numbers(self) -> None:
        self.assert_names(F1, {"segs": "unspecified", "resp": "1476", "object": "analog-input", "property": "present-value"})
        self.assert_names(bytes.fromhex("0100 50010C 9102 9120"), {
            "choice": "ReadProperty", "class": "property", "code": "unknown-property",
        })
        self.assert_names(bytes.fromhex("0100 600806"), {"reason": "parameter-out-of-range"})
        self.assert_names(bytes.fromhex("0100 710304"), {"reason": "segmentation-not-supported"})
        self.assert_names(bytes.fromhex("0100 1009 AABB"), {"choice": "UTCTimeSynchronization"})
        self.assert_names(bytes.fromhex("0180 12"), {"net": "What-Is-Network-Number"})
        self.assert_names(bytes.fromhex("0120 FFFF00 FF 1008"), {})

    def test_lists(self) -> None:
        octets = bytes.fromhex("0100 30F10E 0C00000021 1E 2955 4E 444290999A 4F 2967 5E 9102 9120 5F 1F")
        self.assertEqual(self.assert_names(octets, {})["results"], [
            {
                "object": "0:33",
                "results": [
                    {
                        "property": 85,
                        "value": [["r", {"float": 72.30000305175781, "bits": "4290999A"}, 72.3]],
                        "names": {"property": "present-value"},
                    },
                    {
                        "property": 103,
                        "error": {"class": 2, "code": 32, "names": {"class": "property", "code": "unknown-property"}},
                        "names": {"property": "reliability"},
                    },
                ],
                "names": {"object": "analog-input"},
            }
        ])

    def test_elements(self) -> None:
        for octets, added in (
            ("444290999A", 72.3), ("55083FB999999999999A", 0.1), ("447F7FFFFF", 3.4028235e38), ("C402000004", "device"),
            ("A47E0B1701", "2026-11-23,Mon"), ("B40F0C1E00", "15:12:30.00"),
        ):
            self.assertEqual(named(decode(answer(octets)))["value"][0][2:], [added])
        for octets in ("2105", "447F800000", "447FC00000", "75060048656C6C6F", "C4C8000001", "1955"):
            self.assertEqual(len(named(decode(answer(octets)))["value"][0]), 2)
        self.assertEqual(named(decode(answer("2E C402000004 2F")))["value"], [
            ["group", {"tag": 2, "value": [["id", "8:4", "device"]]}],
        ])

    def test_names_are_not_encoded(self) -> None:
        for octets in (F1, F4):
            with self.assertRaises(RefusedField) as caught:
                encode(named(decode(octets)))
            self.assertEqual((caught.exception.why, caught.exception.path), ("Name", "names"))


if __name__ == "__main__":
    unittest.main()
