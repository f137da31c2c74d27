# SPDX-License-Identifier: Apache-2.0 OR MIT
"""The shared library: where it is, its calls, and the memory that they write into. include/bactool.h says what each
call does."""

from __future__ import annotations

import ctypes
import os
from typing import Any, Callable, Dict, Iterator, List, Optional, Tuple, Union, cast

from . import _fields, _heads, _pieces

OK, TOLERATED, DIFFERENT, REFUSED, LEFT_REFUSED, RIGHT_REFUSED, NO_ROOM, NO_MEMORY = range(8)
NO_SERVICE, BAD_SIZE, BAD_WINDOW, TOO_LONG, TOO_MANY = range(8, 13)
TRUNCATED, NO_SEGMENT, CONFLICT, INCOMPLETE, SERVICE_REFUSED = range(13, 18)

# The name of the shared library, and the variable that says where another one is.
FILE = "libbactool.so.1"
VARIABLE = "BACTOOL_LIB"

# Room for octets that is kept from call to call: an Ethernet frame has at most 1,500. Of a frame that needs more, the
# room is for one call.
KEPT = 2048

# A field is five words of eight octets: the name, which takes the first half of its word, the number, the place, the
# head and the length.
WORDS_OF_FIELD = 5
FIELD_SIZE = 8 * WORDS_OF_FIELD

StrPath = Union[str, "os.PathLike[str]"]
CallOfC = Callable[..., int]


class Outcome(ctypes.Structure):
    """struct bactool_outcome"""

    why: int
    place: int
    count: int
    fields: int
    _fields_ = [
        ("why", ctypes.c_uint32),
        ("place", ctypes.c_size_t),
        ("count", ctypes.c_size_t),
        ("fields", ctypes.c_size_t),
    ]


class Desk:
    """What one call writes into: room for so many octets, and for so many fields."""

    def __init__(self, room: int = KEPT, most: int = 2 * KEPT + 2) -> None:
        self.room, self.most, self.outcome = room, most, Outcome()
        # One more than the room, since no buffer is empty.
        self.out = ctypes.create_string_buffer(room + 1)
        self.fields = ctypes.create_string_buffer(FIELD_SIZE * (most + 1))
        self.octets = memoryview(self.out).cast("B")
        self.field_octets = memoryview(self.fields).cast("B")
        # The same memory as numbers of each size, and as the floats whose bits they are.
        self.halves, self.words = self.field_octets.cast("I"), self.field_octets.cast("Q")
        self.floats, self.doubles = self.field_octets.cast("f"), self.field_octets.cast("d")


class Library:
    """The calls of the library at a path, or of the one that is found."""

    def __init__(self, path: Optional[StrPath] = None) -> None:
        library = opened(path)
        octets = [ctypes.c_char_p, ctypes.c_size_t]
        room = [ctypes.c_void_p, ctypes.c_size_t]
        outcome = [ctypes.POINTER(Outcome)]
        self.check = call_of(library, "check", [*octets, ctypes.c_bool, *outcome])
        self.head = call_of(library, "head", [*octets, ctypes.POINTER(_heads.HeadOfC), *outcome])
        self.explain = call_of(library, "explain", [*octets, *room, *outcome])
        self.piece_text = call_of(
            library, "piece_text", [ctypes.POINTER(_pieces.PieceOfC), *octets, *room, *outcome]
        )
        self.explain_text = call_of(library, "explain_text", [*octets, *room, *outcome])
        self.normalise = call_of(library, "normalise", [*octets, *room, *outcome])
        self.show = call_of(library, "show", [*octets, *room, *outcome])
        self.read = call_of(library, "read", [*octets, *room, *outcome])
        self.same_meaning = call_of(library, "same_meaning", [*octets, *octets, *outcome])
        self.decode = call_of(library, "decode", [*octets, *room, *room, *outcome])
        self.encode = call_of(library, "encode", [*room, *octets, *room, *outcome])
        self.cut = call_of(library, "cut", [*octets, ctypes.c_size_t, ctypes.c_uint8, *room, *outcome])
        self.join = call_of(library, "join", [*octets, *room, *outcome])
        self._reason = call_of(library, "reason", [ctypes.c_uint32, *room], ctypes.c_size_t)
        self._name = call_of(library, "name", [ctypes.c_uint32, *room], ctypes.c_size_t)
        self.reasons: Dict[int, str] = dict(texts_of(self._reason))
        self.words: Dict[int, str] = dict(texts_of(self._name))


def opened(path: Optional[StrPath]) -> ctypes.CDLL:
    """Opens the library at a path, or the one that is found. Raises OSError."""
    if ctypes.sizeof(ctypes.c_size_t) != 8:
        raise OSError("libbactool is for machines with addresses of 64 bits")
    found = os.fspath(path) if path is not None else found_path()
    try:
        return ctypes.CDLL(found)
    except OSError as fault:
        if path is not None or found != FILE:
            raise
        raise OSError(f"{fault}; {VARIABLE} may say where libbactool is") from None


def found_path() -> str:
    """Where the library is: inside the package, as in a wheel; where the variable says, a file or its folder; in the
    folder lib/ of the repository, or of the release that has this package; and else where the system has it."""
    package = os.path.dirname(os.path.realpath(__file__))
    inside = os.path.join(package, FILE)
    if os.path.exists(inside):
        return inside
    said = os.environ.get(VARIABLE)
    if said:
        return os.path.join(said, FILE) if os.path.isdir(said) else said
    # python/bactool in the repository; share/bactool/python/bactool or lib/python3/dist-packages/bactool in a release
    for above in ("../..", "../../../.."):
        beside = os.path.normpath(os.path.join(package, above, "lib", FILE))
        if os.path.exists(beside):
            return beside
    return FILE


def call_of(library: ctypes.CDLL, name: str, arguments: List[Any], result: Any = ctypes.c_uint32) -> CallOfC:
    """Returns a call with its types. Raises OSError if the library has none with this name."""
    try:
        call: Any = getattr(library, f"bactool_{name}")
    except AttributeError:
        raise OSError(f"{library._name} has no call bactool_{name}: it is older than this package") from None
    call.argtypes, call.restype = arguments, result
    return cast(CallOfC, call)


def texts_of(call: CallOfC) -> Iterator[Tuple[int, str]]:
    """Yields what a call names, by number."""
    out = ctypes.create_string_buffer(64)
    for number in range(1, _fields.MOST + 1):
        length = call(number, out, len(out))
        if length:
            yield number, out.raw[:length].decode()
