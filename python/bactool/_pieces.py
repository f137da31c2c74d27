# SPDX-License-Identifier: Apache-2.0 OR MIT
"""What each octet of a frame is, also if it is refused. include/bactool.h says what each kind is."""

from __future__ import annotations

import ctypes
import enum
from bisect import bisect_right
from typing import Dict, Iterable, Iterator, List, NamedTuple, Optional, Sequence, Tuple


class PieceOfC(ctypes.Structure):
    """struct bactool_piece"""

    place: int
    length: int
    head: int
    depth: int
    kind: int
    tag: int
    number: int
    _fields_ = [
        *((name, ctypes.c_size_t) for name in ("place", "length", "head", "depth")),
        *((name, ctypes.c_uint32) for name in ("kind", "tag", "number")),
    ]


class PieceKind(enum.IntEnum):
    """What a piece is."""

    VERSION = 1
    CONTROL = 2
    DESTINATION_NETWORK = 3
    DESTINATION_LENGTH = 4
    DESTINATION_ADDRESS = 5
    SOURCE_NETWORK = 6
    SOURCE_LENGTH = 7
    SOURCE_ADDRESS = 8
    HOP_COUNT = 9
    ADDRESSES = 10
    MESSAGE_TYPE = 11
    VENDOR = 12
    DATA = 13
    CONFIRMED_REQUEST = 14
    REQUEST_SEGMENT = 15
    UNCONFIRMED_REQUEST = 16
    SIMPLE_ACK = 17
    COMPLEX_ACK = 18
    ACK_SEGMENT = 19
    SEGMENT_ACK = 20
    ERROR = 21
    REJECT = 22
    ABORT = 23
    ACCEPTED = 24
    INVOKE_ID = 25
    SEQUENCE = 26
    WINDOW = 27
    CHOICE = 28
    REASON = 29
    PDU_HEAD = 30
    ELEMENT = 31
    UNJUDGED = 32
    SEGMENT = 33
    OCTETS = 34
    REFUSED = 35
    REST = 36


# What a tag is, by its number in C.
TAGS = (None, "application", "context", "opening", "closing")


class Piece(NamedTuple):
    """Some octets of a frame, and what they are."""

    # The offset of the first octet, how many there are, and how many of them are a tag head.
    place: int
    length: int
    head: int
    # How many groups are open around it.
    depth: int
    kind: PieceKind
    # Of a tag: application, context, opening or closing, and its number. Of a refusal, `number` is that of the reason.
    tag: Optional[str]
    number: int
    # The words of `bactool explain`, without the name of a field.
    text: str
    # The word of the first field that begins in it, as `show` has it, or None.
    field: Optional[str]


# The name of a field and where its octets begin.
Begin = Tuple[int, int]


def begins_of(fields: Iterable[Sequence[int]]) -> Iterator[Begin]:
    """Yields the names and the places of those fields that have octets. A field is its name, its number, its place, and how
    many octets its head and its contents have."""
    for name, _, place, head, length in fields:
        if head + length > 0:
            yield name, place


def words_of(begins: Iterable[Begin], pieces: Sequence[PieceOfC], words: Dict[int, str]) -> List[Optional[str]]:
    """Returns for each piece the word of the first field that begins in it. The pieces are those of canonical octets, in
    which the fields have their places."""
    places = [piece.place for piece in pieces]
    found: List[Optional[str]] = [None] * len(pieces)
    for name, place in begins:
        index = bisect_right(places, place) - 1
        if found[index] is None:
            found[index] = words[name]
    return found


def piece_of(piece: PieceOfC, text: str, field: Optional[str]) -> Piece:
    """Returns a piece of C, with its words and the word of its field."""
    return Piece(
        piece.place, piece.length, piece.head, piece.depth, PieceKind(piece.kind), TAGS[piece.tag], piece.number, text, field
    )
