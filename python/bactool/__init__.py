# SPDX-License-Identifier: Apache-2.0 OR MIT
"""The messages of BACnet (ANSI/ASHRAE 135), by the library libbactool.

A frame is one NPDU, with an APDU or a network message in it. Octets are `bytes`, a `bytearray`, or anything else that
has them in memory; a UDP payload has 4 or 10 octets of BVLL before the frame. Some frames can be encoded in several ways.
One encoding is canonical: no other is shorter, and only that one is written. Octets in another encoding are tolerated.
Octets that encode no frame are refused: `Refused` says why and at which octet.

>>> from bactool import decode, encode, read, show
>>> show(bytes.fromhex("0120FFFF00FF1008"))
'prio=0 reply=0 dest=65535/* hops=255 unconf Who-Is'
>>> read("prio=0 reply=0 dest=65535/* hops=255 unconf Who-Is").hex()
'0120ffff00ff1008'
>>> decode(bytes.fromhex("0120FFFF00FF1008"))
{'prio': 0, 'reply': 0, 'dest': '65535/*', 'hops': 255, 'unconf': True, 'Who-Is': True}
>>> encode({"conf": True, "id": 1, "ReadProperty": True, "object": "0:5", "property": 85}).hex()
'01040005010c0c000000051955'

The library is found at the first call: inside this package; where the environment says in `BACTOOL_LIB`, the file or its
folder; in `lib/` of the repository or of the release that has this package; and else where the system has it. A `Bactool`
has the same calls of a library of one's own choice. Every call may run in any threads at the same time. Every call raises
OSError if there is no library, MemoryError if memory is refused, and TypeError for what has no octets, such as a number.

`python3 -m bactool --help` says what the package does as a program."""

from __future__ import annotations

from functools import lru_cache
from typing import Any, Dict, Iterable, List, Optional, Union

from ._api import Bactool, Octets
from ._heads import Address, Head
from ._pieces import Piece, PieceKind
from ._records import records
from ._refusals import (
    CutRecord,
    MissingSegment,
    NotCut,
    NotJoined,
    Refused,
    RefusedField,
    RefusedFrame,
    RefusedService,
    WrongFrame,
)
from .names import named

__all__ = [
    "Address",
    "Bactool",
    "CutRecord",
    "Head",
    "MissingSegment",
    "NotCut",
    "NotJoined",
    "Octets",
    "Piece",
    "PieceKind",
    "Refused",
    "RefusedField",
    "RefusedFrame",
    "RefusedService",
    "WrongFrame",
    "check",
    "cut",
    "decode",
    "encode",
    "explain",
    "explain_text",
    "head",
    "join",
    "named",
    "normalise",
    "read",
    "reasons",
    "records",
    "same_meaning",
    "show",
]

__version__ = "0.3.0"

# Users meet these as parts of the package, in tracebacks too.
for _part in (Address, Bactool, CutRecord, Head, Piece, PieceKind, Refused, RefusedField):
    _part.__module__ = __name__
for _part in (MissingSegment, NotCut, NotJoined, RefusedFrame, RefusedService, WrongFrame):
    _part.__module__ = __name__

_found = lru_cache(maxsize=None)(Bactool)


def check(octets: Octets, strict: bool = False) -> Optional[int]:
    """Returns None if the octets are the canonical ones of a frame, and else the first place where they differ from them:
    an offset in octets, counted from 0.

    Raises Refused if they encode no frame. If `strict` is true, it raises Refused for tolerated octets too: the reason is
    NotCanonical, and the place is that first one.

    >>> check(bytes.fromhex("0104 0005010C 0C00000005 1955")) is None
    True
    >>> check(bytes.fromhex("0154 0185010C 0C00000005 1A0055"))
    1
    """
    return _found().check(octets, strict)


def head(octets: Octets) -> Head:
    """Returns what is known of the frame that the octets begin, also if they are refused: then `refused` has the reason
    and the place, and the rest is what the octets before the place tell. It is so of every frame that they begin. A server
    needs it to reject a request that it does not understand.

    >>> request = head(bytes.fromhex("0104 0005030F 0C00400001 1955 3E 4442C80000 3F 4911"))
    >>> str(request.refused), request.known, request.pdu, request.invoke, request.choice
    ('Content at 21', 'all', 'confirmed', 3, 15)
    """
    return _found().head(octets)


def explain(octets: Octets) -> List[Piece]:
    """Returns what each octet is, in pieces, also of octets that are refused. Each piece begins where the one before it ends.
    Where octets are refused, the piece at the place has kind REFUSED, and what is after it is one piece. Those of a frame
    that is accepted have the words of its fields.

    >>> priority_17 = bytes.fromhex("0104 0005030F 0C00400001 1955 3E 4442C80000 3F 4911")
    >>> for piece in explain(priority_17)[-3:]:
    ...     print(piece.place, piece.length, piece.kind.name, piece.tag, piece.number)
    19 1 ELEMENT closing 3
    20 1 ELEMENT context 4
    21 1 REFUSED None 9
    """
    return _found().explain(octets)


def explain_text(octets: Octets) -> str:
    """Returns the lines of `bactool explain` on the octets after its first one, also of octets that are refused: what each
    octet is, with the names of fields. Each line ends in a line feed.

    >>> print(explain_text(bytes.fromhex("0100 1008 0905")), end="")
       0  01           version 1
       1  00           control: no reply expected, priority 0
       2  10           Unconfirmed-Request
       3  08           service choice 8 Who-Is
       4  09 05        [0] low 5
       6               <- Short: the octets end, and more must come; possible here: [1] high
    """
    return _found().explain_text(octets)


def normalise(octets: Octets) -> bytes:
    """Returns the canonical octets of the frame that the octets encode. They are at most as many.

    Raises Refused if the octets encode no frame."""
    return _found().normalise(octets)


def show(octets: Octets) -> str:
    """Returns the text of the frame that the octets encode: the line of `bactool show`, without a number.

    Raises Refused if the octets encode no frame."""
    return _found().show(octets)


def read(text: Union[str, Octets]) -> bytes:
    """Returns the canonical octets of the frame with this text: the way back from `show`. The text has no number and no
    line feed. As octets, it is UTF-8.

    Raises Refused if no frame has this text. The place is an offset in the octets of the text."""
    return _found().read(text)


def same_meaning(left: Octets, right: Octets) -> bool:
    """Returns whether both inputs encode the same frame, canonical or not.

    Raises Refused if one of them encodes none; its `side` says which."""
    return _found().same_meaning(left, right)


def decode(octets: Octets) -> Dict[str, Any]:
    """Returns the frame that the octets encode as a dict, which says all that its text says, and of which JSON can be made.

    The keys are the words of the text, in its order; docs/FORMATS.md, section 8, has them. A word without a value, such
    as `conf` or `ReadProperty`, is True. What follows another one is

        an int          a number; the type of a network message too (`net`)
        "0:5"           an object (`object`, `device`): its type and its instance
        "5/0A"          an address (`dest`, `src`): its network and its octets, or `*` if it has none
        "0A0B"          octets (`octets`, `info`, `data`) in upper-case hexadecimal digits
        a list          of dicts, or of ints (`networks`)
        a dict          why a property has no value (`error`): `class` and `code`
        a list          an open value (`value`), of pairs

    A pair is the type of an element, and what it is:

        ["null", None]
        ["boolean", True]
        ["u", 5], ["i", -5], ["e", 3]
        ["r", {"float": 72.30000305175781, "bits": "4290999A"}], and so with "d". A float that is not finite is None
        ["o", "CAFE"]
        ["s", "Hello"], or, where the text of the frame has digits, ["s", {"set": 5, "octets": "E9"}]
        ["b", "1010010101"]
        ["D", "7E0B1701"], ["T", "0F0C1E00"]
        ["id", "8:4"]
        ["context", {"tag": 1, "octets": "55"}]
        ["group", {"tag": 2, "value": [["u", 1]]}]

    Raises Refused if the octets encode no frame."""
    return _found().decode(octets)


def encode(frame: Dict[str, Any]) -> bytes:
    """Returns the canonical octets of a frame: a dict as `decode` returns it, in which the keys may have any order.

    What is left out is 0 for `prio`, `sa` and `segs`, 5 (1,476 octets) for `resp`, 255 for `hops`, and for `reply` 1 in
    requests that are confirmed and else 0. Nothing else has a default. A Real or a Double may be a float, or have only
    one of `float` and `bits`. If it has both, they must agree.

    Raises RefusedField if the dict is that of no frame: why, and the path of the first part that is at fault."""
    return _found().encode(frame)


def cut(octets: Octets, size: int, window: int) -> List[bytes]:
    """Returns the frames of the segments of a frame, in their order (clause 5.2). The frame has a Confirmed-Request or a
    ComplexACK in one piece. Each segment has the heads of the frame, and `size` octets of its service; the last one has 1
    to `size`. Each says that `window` segments are sent before a SegmentACK is awaited.

    Raises Refused if the octets encode no frame, and NotCut if the frame is not cut so.

    >>> answer = bytes.fromhex("0100 30010C 0C00000005 1955 3E 444290999A 3F")
    >>> for frame in cut(answer, size=10, window=4):
    ...     print(frame.hex())
    01003c0100040c0c0000000519553e4442
    0100380101040c90999a3f
    """
    return _found().cut(octets, size, window)


def join(frames: Iterable[Octets]) -> bytes:
    """Returns the canonical octets of the frame in one piece that the frames of its segments give: the way back from `cut`.
    They may come in any order, and any of them several times.

    Raises NotJoined if they give none: MissingSegment if they belong together and segments are missing, WrongFrame or
    RefusedFrame for a frame that does not belong, and RefusedService if the joined octets are no service.

    >>> last, first = bytes.fromhex("0100 380101040C 90999A3F"), bytes.fromhex("0100 3C0100040C 0C0000000519553E4442")
    >>> join([last, first]).hex()
    '010030010c0c0000000519553e444290999a3f'
    >>> join([last])
    Traceback (most recent call last):
    bactool.MissingSegment: segment 0 is missing
    """
    return _found().join(frames)


def reasons() -> Dict[int, str]:
    """Returns the names of the reasons, which a refusal has in `why`, by their numbers in C.

    >>> reasons()[1]
    'Short'
    """
    return _found().reasons()
