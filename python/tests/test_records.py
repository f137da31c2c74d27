# SPDX-License-Identifier: Apache-2.0 OR MIT
"""Frame files."""

import io
import os
import threading
import unittest
from typing import List

from bactool import CutRecord, records

LONG = bytes(range(256)) * 255


class Records(unittest.TestCase):
    def test_records(self) -> None:
        file = io.BytesIO(b"\0\x03\x01\x80\x12" + b"\0\0" + len(LONG).to_bytes(2, "big") + LONG + b"\0\x01\x07")
        self.assertEqual(list(records(file)), [b"\x01\x80\x12", b"", LONG, b"\x07"])
        self.assertEqual(list(records(io.BytesIO())), [])

    def test_many_records(self) -> None:
        frames = [bytes([number % 251]) * (number % 300) for number in range(2000)]
        file = io.BytesIO(b"".join(len(frame).to_bytes(2, "big") + frame for frame in frames))
        self.assertEqual(list(records(file)), frames)

    def test_a_file_that_ends_within_a_record(self) -> None:
        for rest in (b"\0", b"\0\x02", b"\0\x02\x01", b"\xff"):
            found: List[bytes] = []
            with self.assertRaises(CutRecord) as caught:
                for octets in records(io.BytesIO(b"\0\x01\x07" + rest)):
                    found.append(octets)
            self.assertEqual((found, caught.exception.number), ([b"\x07"], 2))

    def test_what_is_there_is_yielded_before_more_is_waited_for(self) -> None:
        reading, writing = os.pipe()
        with open(reading, "rb") as source, open(writing, "wb", buffering=0) as target:
            file = records(source)
            pieces = ((b"\0\x01\x07", b"\x07"), (b"\0\x02\x08\x09\0", b"\x08\x09"), (b"\x01\x0a", b"\x0a"))
            for piece, wanted in pieces:
                target.write(piece)
                found: List[bytes] = []
                reader = threading.Thread(target=lambda: found.append(next(file)), daemon=True)
                reader.start()
                reader.join(10)
                self.assertEqual(found, [wanted])


if __name__ == "__main__":
    unittest.main()
