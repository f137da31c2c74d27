# SPDX-License-Identifier: Apache-2.0 OR MIT
"""The calls on whole frames."""

import doctest
import pickle
import threading
import unittest
from typing import Any, Callable, List

import bactool
from bactool import PieceKind, Refused

from .frames import DICT_OF_F1, F1, F2, F4, LINE_OF_F1, PRIORITY_17, WHO_IS_ANYWHERE, WRITE


def refused_at(octets: bytes) -> List[int]:
    """Returns the place at which octets are refused, if they are."""
    try:
        bactool.check(octets)
    except Refused as refusal:
        return [refusal.place]
    return []


class Calls(unittest.TestCase):
    def assert_refused(self, why: str, place: int, call: Callable[..., Any], *arguments: Any) -> Refused:
        with self.assertRaises(Refused) as caught:
            call(*arguments)
        self.assertEqual((caught.exception.why, caught.exception.place), (why, place))
        return caught.exception

    def test_check(self) -> None:
        self.assertIsNone(bactool.check(F1))
        self.assertEqual(bactool.check(F2), 1)
        self.assertIsNone(bactool.check(F1, strict=True))
        self.assert_refused("NotCanonical", 1, bactool.check, F2, True)
        self.assert_refused("Short", 0, bactool.check, b"")
        self.assert_refused("Short", 10, bactool.check, F1[:10])
        self.assert_refused("Trailing", 13, bactool.check, F1 + b"\x3e")
        self.assert_refused("Version", 0, bactool.check, b"\x02")

    def test_head(self) -> None:
        octets = bytes.fromhex("010C 0007010A 0005030F 0C00400001 1955 3E 4442C80000 3F 4911")
        head = bactool.head(octets)
        self.assertEqual(str(head.refused), "Content at 25")
        self.assertEqual((head.known, head.reply, head.priority), ("all", True, 0))
        self.assertEqual((head.destination, head.hops), (None, 0))
        self.assertEqual(head.source, bactool.Address(7, b"\x0a"))
        self.assertEqual((head.pdu, head.invoke, head.choice, head.contents), ("confirmed", 3, 15, 10))
        self.assertEqual((head.segmented, head.more, head.negative, head.server), (False, False, False, False))
        for length, known in ((9, "addresses"), (5, "control"), (1, "nothing"), (0, "nothing")):
            cut = bactool.head(bytearray(octets[:length]))
            self.assertEqual((cut.known, str(cut.refused), cut.pdu), (known, f"Short at {length}", None))
        whole = bactool.head(WHO_IS_ANYWHERE)
        self.assertEqual((whole.refused, whole.known, whole.pdu, whole.choice), (None, "all", "unconfirmed", 8))
        self.assertEqual((whole.destination, whole.hops), (bactool.Address(65535, b""), 255))
        message = bactool.head(bytes.fromhex("0180 80 0104 FF"))
        self.assertEqual((message.pdu, message.message, message.vendor, message.contents), ("message", 128, 260, 5))
        self.assertRaises(TypeError, bactool.head, 5)

    def test_explain(self) -> None:
        pieces = bactool.explain(PRIORITY_17)
        self.assertEqual([piece.place for piece in pieces], [0, 1, 2, 3, 4, 5, 6, 11, 13, 14, 19, 20, 21])
        self.assertEqual(
            [tuple(piece[1:7]) for piece in pieces[7:]],
            [
                (2, 1, 0, PieceKind.ELEMENT, "context", 1),
                (1, 1, 0, PieceKind.ELEMENT, "opening", 3),
                (5, 1, 1, PieceKind.ELEMENT, "application", 4),
                (1, 1, 0, PieceKind.ELEMENT, "closing", 3),
                (1, 1, 0, PieceKind.ELEMENT, "context", 4),
                (1, 0, 0, PieceKind.REFUSED, None, 9),
            ],
        )
        self.assertTrue(pieces[-1].text.startswith("<- Content"))
        self.assertTrue(all(piece.text and piece.field is None for piece in pieces))
        self.assertEqual(bactool.explain(bytearray(PRIORITY_17)), pieces)
        self.assertRaises(TypeError, bactool.explain, 5)

    def test_explain_has_the_words_of_fields(self) -> None:
        wanted = [None, "prio", "conf", "segs", "id", "ReadProperty", "object", "property"]
        for octets in (F1, F2):
            self.assertEqual([piece.field for piece in bactool.explain(octets)], wanted)
        places = [piece.place for piece in bactool.explain(F2)]
        self.assertEqual(places, [0, 1, 2, 3, 4, 5, 6, 11])
        wanted = [None, "prio", "dest", None, "hops", "unconf", "Who-Is"]
        self.assertEqual([piece.field for piece in bactool.explain(WHO_IS_ANYWHERE)], wanted)

    def test_pieces_cover_the_octets(self) -> None:
        whole = WRITE + b"\xff\xff"
        for length in range(len(whole) + 1):
            octets, end = whole[:length], 0
            for piece in bactool.explain(octets):
                self.assertEqual(piece.place, end)
                end += piece.length
            self.assertEqual(end, length)
            refused = [piece.place for piece in bactool.explain(octets) if piece.kind == PieceKind.REFUSED]
            self.assertEqual(refused, refused_at(octets))

    def test_explain_of_a_service_without_layout(self) -> None:
        head = bytes.fromhex("0100 1009")
        self.assertEqual([piece.kind for piece in bactool.explain(head + b"\x1e\x21\x05\x1f")[4:]], [PieceKind.UNJUDGED] * 3)
        self.assertEqual([piece.kind for piece in bactool.explain(head + b"\x1e\x21\x05")[4:]], [PieceKind.OCTETS])

    def test_explain_text(self) -> None:
        lines = bactool.explain_text(F2).splitlines()
        self.assertEqual([int(line[:4]) for line in lines], [piece.place for piece in bactool.explain(F2)])
        self.assertEqual(lines[1], "   1  54           control: reply expected, priority 0  ~ 04")
        self.assertEqual(lines[-1], "  11  1A 0055      [1] property 85  ~ 19 55")
        # What is refused has the names of a frame that begins so, and of what is possible at the place.
        lines = bactool.explain_text(bytearray(PRIORITY_17)).splitlines()
        self.assertEqual(lines[6], "   6  0C 00400001  [0] object 1:1")
        self.assertTrue(lines[-1].startswith("  21  11           <- Content: "))
        self.assertTrue(bactool.explain_text(F1[:11]).endswith("; possible here: [1] property\n"))
        self.assertTrue(bactool.explain_text(b"").startswith("   0               <- Short: "))
        self.assertRaises(TypeError, bactool.explain_text, 5)

    def test_explain_text_of_many_pieces(self) -> None:
        octets = bytes.fromhex("0100 1009") + bytes(20_000)
        self.assertEqual(bactool.explain_text(octets).count("\n"), len(octets))

    def test_normalise(self) -> None:
        self.assertEqual(bactool.normalise(F2), F1)
        self.assert_refused("PduType", 2, bactool.normalise, bytes.fromhex("010080"))

    def test_show_and_read(self) -> None:
        self.assertEqual(bactool.show(F2), LINE_OF_F1)
        self.assertEqual(bactool.read(LINE_OF_F1), F1)
        self.assertEqual(bactool.read(LINE_OF_F1.encode()), F1)
        self.assertEqual(bactool.show(WHO_IS_ANYWHERE), "prio=0 reply=0 dest=65535/* hops=255 unconf Who-Is")
        self.assert_refused("Text", 5, bactool.read, "prio=4")
        self.assert_refused("Short", 7, bactool.read, "prio=0 ")
        for surrogate in ("\udce9", "\ud800"):
            self.assert_refused("Text", 7, bactool.read, "prio=0 " + surrogate)

    def test_same_meaning(self) -> None:
        self.assertIs(bactool.same_meaning(F1, F2), True)
        self.assertIs(bactool.same_meaning(F1, F4), False)
        right = self.assert_refused("Version", 0, bactool.same_meaning, F1, b"\x02")
        left = self.assert_refused("Short", 0, bactool.same_meaning, b"", F1)
        self.assertEqual((left.side, right.side), ("left", "right"))
        self.assertEqual((str(left), str(right)), ("left: Short at 0", "right: Version at 0"))

    def test_reasons(self) -> None:
        names = (
            "Short Trailing Version Address PduType Window Tag Length Content Depth NotCanonical OutOfMemory Name Number"
            " Contents Text"
        )
        self.assertEqual(bactool.reasons(), dict(enumerate(names.split(), 1)))

    def test_whatever_has_octets(self) -> None:
        for octets in (bytearray(F1), memoryview(F1), memoryview(b"\0" + F1)[1:], memoryview(bytes(26))[::2]):
            wanted = bytes(octets)
            if wanted == F1:
                self.assertIsNone(bactool.check(octets))
                self.assertEqual(bactool.decode(octets), DICT_OF_F1)
                self.assertEqual(bactool.normalise(octets), F1)
            else:
                self.assert_refused("Version", 0, bactool.check, octets)

    def test_what_has_no_octets(self) -> None:
        calls: List[Callable[..., Any]] = [bactool.check, bactool.normalise, bactool.show, bactool.decode]
        for wrong in (5, "0104", None, [1, 4], 1.0):
            for call in calls:
                with self.assertRaises(TypeError):
                    call(wrong)
            with self.assertRaises(TypeError):
                bactool.same_meaning(F1, wrong)  # type: ignore[arg-type]
        with self.assertRaises(TypeError):
            bactool.read(5)  # type: ignore[arg-type]

    def test_more_room_than_is_kept(self) -> None:
        # An OctetString of 60,000 octets: a tag, 254, and two octets of length.
        longest = bytes.fromhex("0100 30010C 0C00000005 1955 3E 65FE EA60") + bytes(60_000) + b"\x3f"
        self.assertEqual(bactool.normalise(longest), longest)
        self.assertTrue(bactool.show(longest).endswith("value={o:" + "00" * 60_000 + "}"))
        self.assertEqual(bactool.read(bactool.show(longest)), longest)
        decoded = bactool.decode(longest)
        self.assertEqual(decoded["value"], [["o", "00" * 60_000]])
        self.assertEqual(bactool.encode(decoded), longest)
        # 30,000 Nulls: a field for each octet.
        nulls = bytes.fromhex("0100 30010C 0C00000005 1955 3E") + bytes(30_000) + b"\x3f"
        decoded = bactool.decode(nulls)
        self.assertEqual(decoded["value"], [["null", None]] * 30_000)
        self.assertEqual(bactool.encode(decoded), nulls)

    def test_threads(self) -> None:
        faults: List[str] = []

        def work(octets: bytes, wanted: Any) -> None:
            for _ in range(2000):
                if bactool.decode(octets) != wanted or bactool.encode(wanted) != octets or bactool.check(octets):
                    faults.append(octets.hex())

        who_is = {"prio": 0, "reply": 0, "dest": "65535/*", "hops": 255, "unconf": True, "Who-Is": True}
        threads = [threading.Thread(target=work, args=pair) for pair in [(F1, DICT_OF_F1), (WHO_IS_ANYWHERE, who_is)] * 4]
        for thread in threads:
            thread.start()
        for thread in threads:
            thread.join()
        self.assertEqual(faults, [])

    def test_exceptions_are_pickled(self) -> None:
        refusal = pickle.loads(pickle.dumps(Refused("Short", 3, "left")))
        self.assertEqual((refusal.why, refusal.place, refusal.side, str(refusal)), ("Short", 3, "left", "left: Short at 3"))
        field = pickle.loads(pickle.dumps(bactool.RefusedField("Number", "prio")))
        self.assertEqual((field.why, field.path, str(field)), ("Number", "prio", "Number at prio"))
        cut = pickle.loads(pickle.dumps(bactool.CutRecord(7)))
        self.assertEqual((cut.number, str(cut)), (7, "the file ends within record 7"))

    def test_what_the_docstrings_show(self) -> None:
        found = doctest.testmod(bactool)
        self.assertEqual(found.failed, 0)
        self.assertGreater(found.attempted, 0)


if __name__ == "__main__":
    unittest.main()
