# SPDX-License-Identifier: Apache-2.0 OR MIT
"""Dicts as frames, and what of a dict is refused."""

import unittest
from typing import Any, Dict

from bactool import RefusedField, decode, encode, read

from .frames import DICT_OF_F1, F1, F4, WRITE, answer, answered

REQUEST = {"conf": True, "id": 1, "ReadProperty": True, "object": "0:5", "property": 85}
WHO_IS = {"unconf": True, "Who-Is": True}


def groups(number: int) -> Any:
    """Returns the value of an answer that has so many groups inside each other."""
    pairs: Any = []
    for _ in range(number):
        pairs = [["group", {"tag": 0, "value": pairs}]]
    return pairs


class Encode(unittest.TestCase):
    def assert_refused(self, why: str, path: str, frame: Any) -> None:
        with self.assertRaises(RefusedField) as caught:
            encode(frame)
        self.assertEqual((caught.exception.why, caught.exception.path), (why, path))

    def assert_value_refused(self, why: str, path: str, *elements: Any) -> None:
        self.assert_refused(why, path, answered(*elements))

    def test_defaults(self) -> None:
        self.assertEqual(encode(REQUEST), F1)
        self.assertEqual(encode(WHO_IS), read("prio=0 reply=0 unconf Who-Is"))
        self.assertEqual(encode({**WHO_IS, "dest": "65535/*"}), bytes.fromhex("0120FFFF00FF1008"))
        self.assertEqual(encode({**WHO_IS, "dest": "5/0A", "hops": 3}), bytes.fromhex("01200005010A031008"))

    def test_keys_in_any_order(self) -> None:
        self.assertEqual(encode(dict(reversed(list(DICT_OF_F1.items())))), F1)
        frame = decode(WRITE)
        self.assertEqual(encode({key: frame[key] for key in sorted(frame)}), WRITE)

    def test_the_dict_stays(self) -> None:
        frame: Dict[str, Any] = dict(REQUEST)
        encode(frame)
        self.assertEqual(frame, REQUEST)

    def test_a_changed_frame(self) -> None:
        frame = decode(WRITE)
        frame["value"], frame["priority"] = [["r", 50.0]], 16
        self.assertEqual(encode(frame), read(
            "prio=0 reply=1 conf id=3 sa=0 segs=0 resp=5 WriteProperty object=1:1 property=85 value={r:42480000}"
            " priority=16"
        ))

    def test_names(self) -> None:
        self.assert_refused("Name", "prop", {**REQUEST, "prop": 1})
        self.assert_refused("Trailing", "value", {**REQUEST, "priority": 8, "value": [["zz", 1]]})
        self.assert_refused("Name", "5", {**WHO_IS, 5: 1})
        self.assert_refused("Name", "results[0].foo", {
            "ack": True, "id": 1, "ReadPropertyMultiple": True, "results": [{"object": "0:1", "foo": 1}],
        })
        self.assert_value_refused("Name", "value[1]", ["u", 1], ["zz", 1])
        self.assert_value_refused("Name", "value[0]", [5, 1])

    def test_numbers(self) -> None:
        for wrong in (4, -1, 1 << 64, 10**5000, "1", 1.0, None, [], {}):
            self.assert_refused("Number", "prio", {**WHO_IS, "prio": wrong})
        for wrong in ("0:4194304", "1024:0", "5", 5, "0:", ":5", "+0:5", "0: 5", "0:5:6", "９:1", "9" * 5000 + ":1", None):
            self.assert_refused("Number", "object", {**REQUEST, "object": wrong})
        for wrong in (False, None, 1, "yes"):
            self.assert_refused("Number", "conf", {**REQUEST, "conf": wrong})
        for wrong in ("65536/0A", "x/0A", "5", 5, "9" * 5000 + "/0A"):
            self.assert_refused("Number", "dest", {**WHO_IS, "dest": wrong})
        for kind, wrong in (("u", -1), ("u", 1 << 64), ("i", 1 << 63), ("i", "1"), ("e", 1 << 32), ("null", 0), ("u", 0.5)):
            self.assert_value_refused("Number", "value[0]", [kind, wrong])

    def test_contents(self) -> None:
        for wrong in ("0", "0 A", "GG", "é", 5, None):
            self.assert_refused("Contents", "octets", {"unconf": True, "opaque": True, "choice": 9, "octets": wrong})
        self.assert_refused("Contents", "src", {**WHO_IS, "src": "7/*"})
        for kind, wrong in (
            ("o", "0"), ("o", 5), ("b", "012"), ("b", "1 1"), ("b", 1), ("s", {"set": 0}), ("s", 5), ("D", "7E0B17"),
            ("context", {"tag": 1}), ("context", "55"), ("group", {"tag": 1}), ("group", []), ("s", {"set": 0, "octets": 1}),
        ):
            self.assert_value_refused("Contents", "value[0]", [kind, wrong])
        for wrong in (["u"], ["u", 1, 2], "u1", {"u": 1}, 5, None):
            self.assert_value_refused("Contents", "value[1]", ["u", 1], wrong)
        for wrong in ({}, "u", None, 5):
            self.assert_refused("Contents", "value", {**answered(), "value": wrong})
        self.assert_refused("Contents", "results", {"ack": True, "id": 1, "ReadPropertyMultiple": True, "results": {}})
        self.assert_refused("Contents", "results[0]", {"ack": True, "id": 1, "ReadPropertyMultiple": True, "results": [5]})
        for wrong in (5, None, [], "x"):
            self.assert_refused("Contents", "", wrong)

    def test_text_that_is_no_utf_8(self) -> None:
        self.assert_value_refused("Contents", "value[0]", ["s", "\ud800"])
        self.assert_value_refused("Contents", "value[1]", ["s", "é"], ["s", "a\udce9"])

    def test_floats(self) -> None:
        for float_or_bits in (72.3, {"float": 72.3}, {"bits": "4290999A"}, {"bits": "4290999a"}, {"float": 72.3, "bits": "4290999A"}):
            self.assertEqual(encode(answered(["r", float_or_bits])), F4)
        self.assertEqual(encode(answered(["r", {"float": 72.30000305175781, "bits": "4290999A"}])), F4)
        self.assertEqual(encode(answered(["r", 50])), answer("4442480000"))
        self.assertEqual(encode(answered(["d", 0.1])), answer("55083FB999999999999A"))
        self.assertEqual(encode(answered(["r", {"float": None, "bits": "7FC00001"}])), answer("447FC00001"))
        # jq writes -0 of -0.0, which is read as the number 0
        self.assertEqual(encode(answered(["r", {"float": 0, "bits": "80000000"}])), answer("4480000000"))
        for wrong in (1e39, "72.3", None, [], {"float": None}, {"bits": "4290"}, {"float": 1e39, "bits": "7F7FFFFF"}, 10**400):
            self.assert_value_refused("Number", "value[0]", ["r", wrong])
        for wrong in ({}, {"decimal": 72.3}, {"bits": "zz"}, {"bits": 5}, {"float": 72.3, "bits": "4290999A", "decimal": 72.3}):
            self.assert_value_refused("Contents", "value[0]", ["r", wrong])

    def test_floats_that_disagree_with_their_bits(self) -> None:
        both = "value[0].float and bits"
        self.assert_value_refused("Number", both, ["r", {"float": 50, "bits": "42C80000"}])
        self.assert_value_refused("Number", both, ["r", {"float": None, "bits": "42C80000"}])
        self.assert_value_refused("Number", both, ["r", {"float": 50.0, "bits": "7FC00000"}])
        self.assert_value_refused("Number", both, ["d", {"float": 50.0, "bits": "42C8000000000000"}])
        frame = decode(WRITE)
        frame["value"][0][1]["float"] = 50
        self.assert_refused("Number", both, frame)

    def test_what_ends_too_early(self) -> None:
        self.assert_refused("Short", "", {})
        self.assert_refused("Short", "", {"conf": True, "id": 1, "ReadProperty": True, "object": "0:5"})

    def test_the_first_part_at_fault(self) -> None:
        self.assert_refused("Number", "prio", {**WHO_IS, "prio": 4, "low": "x"})
        self.assert_refused("Number", "id", {**answered(["r", None]), "id": 256})
        self.assert_refused("Number", "results[1].results[0].property", {
            "ack": True, "id": 1, "ReadPropertyMultiple": True,
            "results": [{"object": "0:1"}, {"object": "0:2", "results": [{"property": 1 << 32, "value": []}]}],
        })
        self.assert_refused("Number", "networks[1]", {"net": 1, "networks": [1, 65_536]})

    def test_deep_nesting(self) -> None:
        self.assertEqual(encode(answered(*groups(32))), answer("0E" * 32 + "0F" * 32))
        deepest = "value" + 33 * "[0]"
        for number in (33, 40, 41, 2000):
            self.assert_refused("Name", deepest, answered(*groups(number)))
        brackets: Any = []
        for _ in range(5000):
            brackets = [brackets]
        self.assert_refused("Contents", "value[0]", answered(*brackets))
        self.assert_refused("Contents", "", brackets)
        results: Any = []
        for _ in range(2000):
            results = [{"object": "0:1", "results": results}]
        frame = {"ack": True, "id": 1, "ReadPropertyMultiple": True, "results": results}
        self.assert_refused("Name", "results[0].results[0].object", frame)
        errors: Any = {}
        for _ in range(2000):
            errors = {"error": errors}
        self.assert_refused("Name", "results[0].error", {
            "ack": True, "id": 1, "ReadPropertyMultiple": True, "results": [errors],
        })


if __name__ == "__main__":
    unittest.main()
