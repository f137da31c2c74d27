# SPDX-License-Identifier: Apache-2.0 OR MIT
"""Frame files: each record is two octets of length, the high one first, and so many octets."""

from __future__ import annotations

from typing import BinaryIO, Callable, Iterable, Iterator

from ._refusals import CutRecord

# How many octets are read at once, at most.
PIECE = 1 << 16

# How many octets a record has, at most.
LONGEST = 65_535


def records(file: BinaryIO) -> Iterator[bytes]:
    """Yields the octets of each record of a frame file that is open for reading in binary.

    It reads ahead, but yields what it has before it waits for more. Raises CutRecord where the file ends within a
    record, and whatever a read raises."""
    return apart(pieces(file))


def apart(pieces_of_file: Iterable[bytes]) -> Iterator[bytes]:
    """Yields the octets of each record of a frame file that comes in pieces."""
    number, rest = 1, b""
    for piece in pieces_of_file:
        rest += piece
        at, size = 0, len(rest)
        while size - at >= 2:
            end = at + 2 + (rest[at] << 8 | rest[at + 1])
            if end > size:
                break
            yield rest[at + 2 : end]
            at = end
            number += 1
        rest = rest[at:]
    if rest:
        raise CutRecord(number)


def pieces(file: BinaryIO) -> Iterator[bytes]:
    """Yields what a file has, as it comes."""
    read: Callable[[int], bytes] = getattr(file, "read1", file.read)
    while True:
        piece = read(PIECE)
        if not piece:
            return
        yield piece


def record(octets: bytes) -> bytes:
    """Returns a record. Raises ValueError if the octets are more than a record may have."""
    if len(octets) > LONGEST:
        raise ValueError("too long")
    return len(octets).to_bytes(2, "big") + octets
