# SPDX-License-Identifier: Apache-2.0 OR MIT
"""Messages in segments: cut, and joined."""

import itertools
import pickle
import random
import unittest
from typing import Any, List, Tuple, Type

import bactool
from bactool import MissingSegment, NotCut, NotJoined, Refused, RefusedFrame, RefusedService, WrongFrame, cut, join

from .frames import F1, F4, WHO_IS_ANYWHERE, WRITE, segment, segments

# The service of example 4, and the frames of example 24.
SERVICE = F4[5:]
THREE = [bytes.fromhex(digits) for digits in (
    "0100 3C0100040C 0C0000000519", "0100 3C0101040C 553E44429099", "0100 380102040C 9A3F",
)]

# An opaque answer: of a service that is not decoded, with any octets.
OPAQUE = bytes.fromhex("0100 301A 1A")


def opaque(length: int) -> bytes:
    """Returns an opaque answer with so many octets of service, of which no two neighbours are the same."""
    return OPAQUE + bytes(at % 251 for at in range(length))


class Cut(unittest.TestCase):
    def test_an_answer(self) -> None:
        self.assertEqual(cut(F4, 6, 4), THREE)
        self.assertEqual(cut(bytearray(F4), size=14, window=127), [bytes.fromhex("0100 3801007F0C") + SERVICE])
        self.assertEqual(cut(F4, 2**70, 4), [bytes.fromhex("0100 380100040C") + SERVICE])

    def test_a_request(self) -> None:
        # From one network to another; two octets say how long and in how many segments an answer may be.
        request = bytes.fromhex("012C 0005010A 0007020102 FF 0205030F") + WRITE[6:]
        first, last = cut(request, 10, 1)
        self.assertEqual(first.hex(), "012c0005010a0007020102ff" "0e050300010f" + WRITE[6:16].hex())
        self.assertEqual(last.hex(), "012c0005010a0007020102ff" "0a050301010f" + WRITE[16:].hex())
        self.assertEqual(join([last, first]), request)

    def test_what_is_tolerated_is_cut_as_its_canonical_octets(self) -> None:
        self.assertEqual(cut(bytes.fromhex("0140 30010C 0C00000005 1A0055 3E 444290999A 3F"), 6, 4), THREE)

    def test_a_service_without_octets(self) -> None:
        self.assertEqual(cut(OPAQUE, 6, 4), [bytes.fromhex("0100 381A00041A")])
        self.assertEqual(join([bytes.fromhex("0100 381A00041A")]), OPAQUE)

    def test_limits(self) -> None:
        self.assertEqual(len(cut(opaque(256), 1, 4)), 256)
        self.assertEqual(len(cut(opaque(65_535), 65_528, 4)), 2)
        longest = cut(opaque(65_535), 256, 4)
        self.assertEqual((len(longest), len(longest[-1])), (256, 7 + 255))
        self.assertEqual(join(longest), opaque(65_535))

    def test_what_is_not_cut(self) -> None:
        rows: List[Tuple[bytes, int, int, str]] = [
            (WHO_IS_ANYWHERE, 6, 4, "NoService"),
            (bytes.fromhex("018012"), 6, 4, "NoService"),
            (bytes.fromhex("0100 20030F"), 6, 4, "NoService"),
            (THREE[0], 6, 4, "NoService"),
            (F4, 0, 4, "Size"), (F4, -1, 4, "Size"), (F4, 0, 0, "Size"),
            (F4, 6, 0, "Window"), (F4, 6, 128, "Window"), (F4, 6, -4, "Window"), (F4, 6, 260, "Window"),
            (opaque(65_536), 480, 4, "TooLong"),
            (opaque(65_536), 1, 4, "TooLong"),
            (opaque(65_535), 65_529, 4, "TooLong"),
            (opaque(65_535), 255, 4, "TooMany"),
            (opaque(257), 1, 4, "TooMany"),
        ]
        for octets, size, window, why in rows:
            with self.subTest(why=why, size=size, window=window, length=len(octets)), self.assertRaises(NotCut) as caught:
                cut(octets, size, window)
            self.assertEqual((caught.exception.why, str(caught.exception)), (why, f"not cut: {why}"))
        with self.assertRaises(Refused) as refused:
            cut(F1[:10], 0, 0)
        self.assertEqual((refused.exception.why, refused.exception.place), ("Short", 10))

    def test_what_is_no_octets_or_no_number(self) -> None:
        for octets, size, window in ((5, 6, 4), (F4, "6", 4), (F4, 6.0, 4), (F4, 6, None)):
            with self.assertRaises(TypeError):
                cut(octets, size, window)  # type: ignore[arg-type]


class Join(unittest.TestCase):
    def assert_not_joined(self, frames: List[Any], kind: Type[NotJoined], *says: Any) -> None:
        with self.assertRaises(kind) as caught:
            join(frames)
        self.assertEqual(caught.exception.args, says)

    def test_each_order_of_four_with_each_lost_or_doubled(self) -> None:
        four = segments(SERVICE, 4)
        self.assertEqual(len(four), 4)
        for order in itertools.permutations(range(4)):
            frames = [four[number] for number in order]
            self.assertEqual(join(frames), F4)
            for number in range(4):
                lost = [frame for frame in frames if frame != four[number]]
                self.assert_not_joined(lost, MissingSegment, number)
                for place in range(5):
                    self.assertEqual(join([*frames[:place], four[number], *frames[place:]]), F4)

    def test_each_subset_of_four(self) -> None:
        four = segments(SERVICE, 4)
        for count in range(4):
            for numbers in itertools.combinations(range(4), count):
                missing = min(set(range(4)) - set(numbers))
                self.assert_not_joined([four[number] for number in numbers], MissingSegment, missing)

    def test_256_segments_backwards(self) -> None:
        for size in (1, 255):
            whole = opaque(256 * size)
            frames = segments(whole[5:], size, 0x1A, 0x1A)
            self.assertEqual(join(reversed(frames)), whole)
            self.assert_not_joined(frames[1:], MissingSegment, 0)
            self.assert_not_joined(frames[:255], MissingSegment, 255)

    def test_sizes_by_chance(self) -> None:
        chance = random.Random(7)
        for _ in range(200):
            whole = opaque(int(2 ** chance.uniform(0, 15.9)))
            size = max(1, (len(whole) - 5 + 255) // 256, int(2 ** chance.uniform(0, 15.9)))
            frames = cut(whole, size, chance.randint(1, 127))
            chance.shuffle(frames)
            self.assertEqual(join(frames), whole)
            left = chance.sample(frames, chance.randrange(len(frames)))
            held = {bactool.head(frame).sequence for frame in left}
            self.assert_not_joined(left, MissingSegment, min(set(range(len(frames))) - held))

    def test_whatever_yields_whatever_has_octets(self) -> None:
        self.assertEqual(join(memoryview(bytearray(frame)) for frame in THREE), F4)
        self.assertEqual(join(tuple(THREE)), F4)
        for wrong in (5, F4, "0100", [5], ["0100"], [None]):
            with self.assertRaises(TypeError):
                join(wrong)  # type: ignore[arg-type]

    def test_other_encodings_and_windows(self) -> None:
        other = bytes.fromhex("0140 3C01017F0C 553E44429099")
        self.assertEqual(join([THREE[0], other, THREE[2]]), F4)
        self.assertEqual(join([*THREE, other]), F4)

    def test_heads_that_differ(self) -> None:
        request = "012C 0005010A 0007020102 FF 0E 05 03 00 04 0F 0C"
        others = {
            "reply": "0128 0005010A 0007020102 FF 0A 05 03 01 04 0F 0C",
            "priority": "012D 0005010A 0007020102 FF 0A 05 03 01 04 0F 0C",
            "network of the destination": "012C 0006010A 0007020102 FF 0A 05 03 01 04 0F 0C",
            "address of the destination": "012C 0005010B 0007020102 FF 0A 05 03 01 04 0F 0C",
            "no destination": "010C 0007020102 0A 05 03 01 04 0F 0C",
            "network of the source": "012C 0005010A 0008020102 FF 0A 05 03 01 04 0F 0C",
            "address of the source": "012C 0005010A 0007020103 FF 0A 05 03 01 04 0F 0C",
            "no source": "0124 0005010A FF 0A 05 03 01 04 0F 0C",
            "hop count": "012C 0005010A 0007020102 FE 0A 05 03 01 04 0F 0C",
            "segments accepted": "012C 0005010A 0007020102 FF 08 05 03 01 04 0F 0C",
            "how many": "012C 0005010A 0007020102 FF 0A 15 03 01 04 0F 0C",
            "how long": "012C 0005010A 0007020102 FF 0A 04 03 01 04 0F 0C",
            "invoke id": "012C 0005010A 0007020102 FF 0A 05 04 01 04 0F 0C",
            "choice": "012C 0005010A 0007020102 FF 0A 05 03 01 04 10 0C",
            "kind": "012C 0005010A 0007020102 FF 38 03 01 04 0F 0C",
        }
        for field, digits in others.items():
            with self.subTest(field):
                self.assert_not_joined([bytes.fromhex(request), bytes.fromhex(digits)], WrongFrame, 1, "Conflict")

    def test_segments_that_contradict(self) -> None:
        first, middle, last = THREE
        rows: List[Tuple[List[bytes], int]] = [
            # another piece, the same piece as the last one, and a number after the last one
            ([first, segment(0, b"\x0c", True)], 1),
            ([middle, segment(1, bytes.fromhex("553E44429099"), False)], 1),
            ([last, middle, segment(3, b"", False)], 2),
            # the last one is before another one; there is none after 255
            ([middle, last, segment(0, b"", False)], 2),
            ([first, segment(255, b"", True)], 1),
            ([segment(255, b"", True)], 0),
        ]
        for frames, index in rows:
            with self.subTest(frames=frames):
                self.assert_not_joined(frames, WrongFrame, index, "Conflict")

    def test_segments_of_two_messages(self) -> None:
        two = segments(SERVICE, 6, invoke=2)
        self.assertEqual(join(two)[3], 2)
        for index in range(1, 3):
            self.assert_not_joined([*THREE[:index], *two], WrongFrame, index, "Conflict")

    def test_what_is_no_segment(self) -> None:
        for frame in (F1, F4, WHO_IS_ANYWHERE, bytes.fromhex("018012"), bytes.fromhex("0100 40010004")):
            self.assert_not_joined([frame], WrongFrame, 0, "NoSegment")
            self.assert_not_joined([*THREE, frame], WrongFrame, 3, "NoSegment")

    def test_what_is_too_long(self) -> None:
        piece = bytes(40_000)
        self.assert_not_joined([segment(0, piece, True), segment(1, piece, False)], WrongFrame, 1, "TooLong")
        # A frame of 65,535 octets, and one of more.
        self.assert_not_joined([*THREE[:2], segment(2, bytes(65_528), False)], WrongFrame, 2, "TooLong")
        self.assert_not_joined([*THREE[:2], segment(2, bytes(65_529), False)], WrongFrame, 2, "TooLong")

    def test_what_is_refused(self) -> None:
        self.assert_not_joined([b""], RefusedFrame, 0, "Short", 0)
        self.assert_not_joined([*THREE, b"\x02"], RefusedFrame, 3, "Version", 0)
        # before what does not belong, wherever that is
        self.assert_not_joined([F4, bytes.fromhex("0100 3801000000")], RefusedFrame, 1, "Window", 5)

    def test_joined_octets_that_are_no_service(self) -> None:
        self.assert_not_joined(segments(bytes.fromhex("0C0000"), 2), RefusedService, "Short", 3)
        self.assert_not_joined(segments(b"\x19" + SERVICE, 4), RefusedService, "Tag", 0)
        self.assert_not_joined(segments(SERVICE + b"\x00", 4), RefusedService, "Trailing", 14)

    def test_exceptions_say_why_and_are_pickled(self) -> None:
        rows: List[Tuple[Exception, str]] = [
            (NotCut("Size"), "not cut: Size"),
            (MissingSegment(3), "segment 3 is missing"),
            (WrongFrame(2, "Conflict"), "frame 2: Conflict"),
            (RefusedFrame(2, "Short", 5), "frame 2: Short at 5"),
            (RefusedService("Tag", 0), "the joined octets: Tag at 0"),
        ]
        for fault, text in rows:
            again = pickle.loads(pickle.dumps(fault))
            self.assertEqual((type(again), again.args, str(again)), (type(fault), fault.args, text))
            self.assertEqual(vars(again), vars(fault))


if __name__ == "__main__":
    unittest.main()
