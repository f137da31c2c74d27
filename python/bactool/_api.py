# SPDX-License-Identifier: Apache-2.0 OR MIT
"""The calls of one library on frames. What each does is said at the functions of the package."""

from __future__ import annotations

import operator
from typing import Any, Callable, Dict, Iterable, List, Optional, Sequence, Tuple, TypeVar, Union

from . import _decode, _encode, _heads, _library, _pieces
from ._library import Desk, Library, Outcome, StrPath
from ._records import LONGEST, apart, record
from ._refusals import (
    Fault,
    MissingSegment,
    NotCut,
    Refused,
    RefusedField,
    RefusedFrame,
    RefusedService,
    WrongFrame,
)

# Whatever has octets in memory.
Octets = Union[bytes, bytearray, memoryview]

Kept = TypeVar("Kept")

# What a code says that is not a success, and the outcome with it.
RefusalOf = Callable[[int, Outcome], Exception]

SIDES = {_library.LEFT_REFUSED: "left", _library.RIGHT_REFUSED: "right"}

UNCUT = {
    _library.NO_SERVICE: "NoService",
    _library.BAD_SIZE: "Size",
    _library.BAD_WINDOW: "Window",
    _library.TOO_LONG: "TooLong",
    _library.TOO_MANY: "TooMany",
}

WRONG = {_library.NO_SEGMENT: "NoSegment", _library.CONFLICT: "Conflict", _library.TOO_LONG: "TooLong"}

# The greatest numbers that C has for a size and for a window.
MOST_SIZE, MOST_WINDOW = 2**64 - 1, 2**8 - 1


class Bactool:
    """The calls of the library at `path`, or of the one that is found; they are those of the package. Any of them may run
    in any threads at the same time. Raises OSError if there is no library."""

    def __init__(self, path: Optional[StrPath] = None) -> None:
        self._library = Library(path)
        self._steps = _decode.steps_of(self._library.words)
        self._grammar = _encode.Grammar(self._library.words)
        # What calls write into, while no call has it: so that no two calls share one, whatever runs them.
        self._desks: List[Desk] = []
        self._outcomes: List[Outcome] = []

    def check(self, octets: Octets, strict: bool = False) -> Optional[int]:
        """Returns None if the octets are canonical, and else the first place where they differ from canonical ones."""
        if type(octets) is not bytes:
            octets = octets_of(octets)
        outcome = taken(self._outcomes, Outcome)
        code = self._library.check(octets, len(octets), strict, outcome)
        if code == _library.OK:
            place = None
        elif code == _library.TOLERATED:
            place = outcome.place
        else:
            raise self._refusal(code, outcome)
        self._outcomes.append(outcome)
        return place

    def head(self, octets: Octets) -> _heads.Head:
        """Returns what is known of the frame, also if it is refused."""
        octets = octets_of(octets)
        head, outcome = _heads.HeadOfC(), Outcome()
        code = self._library.head(octets, len(octets), head, outcome)
        if code == _library.OK:
            return _heads.head_of(octets, head, None)
        if code != _library.REFUSED:
            raise self._refusal(code, outcome)
        return _heads.head_of(octets, head, Refused(self._library.reasons[outcome.why], outcome.place))

    def explain(self, octets: Octets) -> List[_pieces.Piece]:
        """Returns what each octet of the frame is, also if it is refused."""
        octets = octets_of(octets)
        code, pieces = self._pieces_of(octets)
        fields: List[Optional[str]] = [None] * len(pieces)
        if code != _library.REFUSED:
            fields = self._fields_of(octets, pieces)
        texts = [self._text_of(piece, octets) for piece in pieces]
        return [_pieces.piece_of(*row) for row in zip(pieces, texts, fields)]

    def explain_text(self, octets: Octets) -> str:
        """Returns the lines that say what each octet of the frame is, also if it is refused."""
        octets = octets_of(octets)
        desk = kept = taken(self._desks, Desk)
        while True:
            code = self._library.explain_text(octets, len(octets), desk.out, desk.room, desk.outcome)
            if code == _library.NO_MEMORY:
                raise self._refusal(code, desk.outcome)
            if desk.outcome.count <= desk.room:
                break
            desk = Desk(desk.outcome.count, 0)
        lines = bytes(desk.octets[: desk.outcome.count]).decode()
        self._desks.append(kept)
        return lines

    def normalise(self, octets: Octets) -> bytes:
        """Returns the canonical octets of the frame."""
        return self._written(self._library.normalise, octets_of(octets))

    def show(self, octets: Octets) -> str:
        """Returns the text of the frame."""
        return self._written(self._library.show, octets_of(octets)).decode()

    def read(self, text: Union[str, Octets]) -> bytes:
        """Returns the canonical octets of the frame with this text."""
        octets = text.encode(errors="surrogatepass") if isinstance(text, str) else octets_of(text)
        return self._written(self._library.read, octets)

    def same_meaning(self, left: Octets, right: Octets) -> bool:
        """Returns whether both inputs encode the same frame."""
        left, right, outcome = octets_of(left), octets_of(right), Outcome()
        code = self._library.same_meaning(left, len(left), right, len(right), outcome)
        if code not in (_library.OK, _library.DIFFERENT):
            raise self._refusal(code, outcome)
        return bool(code == _library.OK)

    def decode(self, octets: Octets) -> Dict[str, Any]:
        """Returns the frame as a dict."""
        if type(octets) is not bytes:
            octets = octets_of(octets)
        desk = kept = taken(self._desks, Desk)
        while True:
            code = self._library.decode(
                octets, len(octets), desk.out, desk.room, desk.fields, desk.most, desk.outcome
            )
            if code == _library.OK:
                break
            desk = self._larger(code, desk.outcome)
        frame = _decode.frame_of(self._steps, desk, desk.outcome.fields)
        self._desks.append(kept)
        return frame

    def encode(self, frame: Dict[str, Any]) -> bytes:
        """Returns the canonical octets of the frame that a dict says."""
        said, fault = _encode.said_of(self._grammar, frame)
        octets, count = bytes(said.octets), len(said.pieces)
        desk = kept = taken(self._desks, Desk)
        if count > desk.most:
            desk = Desk(desk.room, count)
        fields = b"".join(said.pieces)
        desk.field_octets[: len(fields)] = fields
        out = desk
        while True:
            code = self._library.encode(desk.fields, count, octets, len(octets), out.out, out.room, out.outcome)
            if code != _library.NO_ROOM:
                break
            out = Desk(out.outcome.count, 0)
        if code != _library.OK or fault is not None:
            raise self._refused_field(code, out.outcome, frame, said, fault)
        written = bytes(out.octets[: out.outcome.count])
        self._desks.append(kept)
        return written

    def cut(self, octets: Octets, size: int, window: int) -> List[bytes]:
        """Returns the frames of the segments of a frame."""
        size, window = nearest(size, MOST_SIZE), nearest(window, MOST_WINDOW)

        def call(octets: bytes, length: int, *room: Any) -> int:
            return self._library.cut(octets, length, size, window, *room)

        return list(apart([self._written(call, octets_of(octets), self._not_cut)]))

    def join(self, frames: Iterable[Octets]) -> bytes:
        """Returns the frame in one piece that the frames of segments give."""
        records: List[bytes] = []
        for index, octets in enumerate(map(octets_of, frames)):
            if len(octets) > LONGEST:
                raise WrongFrame(index, WRONG[_library.TOO_LONG])
            records.append(record(octets))
        return self._written(self._library.join, b"".join(records), self._not_joined)

    def reasons(self) -> Dict[int, str]:
        """Returns the names of all reasons by their numbers."""
        return dict(self._library.reasons)

    def _pieces_of(self, octets: bytes) -> Tuple[int, List[_pieces.PieceOfC]]:
        """Returns the code of the octets and their pieces."""
        most, outcome = len(octets) + 1, Outcome()
        pieces = (_pieces.PieceOfC * most)()
        code = self._library.explain(octets, len(octets), pieces, most, outcome)
        if code == _library.NO_MEMORY:
            raise self._refusal(code, outcome)
        return code, list(pieces[: outcome.fields])

    def _fields_of(self, octets: bytes, pieces: List[_pieces.PieceOfC]) -> List[Optional[str]]:
        """Returns for each piece of octets that are accepted the word of the first field that begins in it. Canonical octets
        have as many pieces as others that encode the frame, in the same order."""
        canonical, fields = self._decoded(octets)
        if canonical != octets:
            _, pieces = self._pieces_of(canonical)
        return _pieces.words_of(_pieces.begins_of(fields), pieces, self._library.words)

    def _decoded(self, octets: bytes) -> Tuple[bytes, List[Sequence[int]]]:
        """Returns the canonical octets of the frame and its fields."""
        desk = Desk(len(octets), 2 * len(octets) + 2)
        code = self._library.decode(octets, len(octets), desk.out, desk.room, desk.fields, desk.most, desk.outcome)
        if code != _library.OK:
            raise self._refusal(code, desk.outcome)
        return bytes(desk.octets[: desk.outcome.count]), list(_decode.fields_of(desk, desk.outcome.fields))

    def _text_of(self, piece: _pieces.PieceOfC, octets: bytes) -> str:
        """Returns the words of a piece of octets."""

        def call(octets: bytes, length: int, *room: Any) -> int:
            return self._library.piece_text(piece, octets, length, *room)

        return self._written(call, octets).decode()

    def _written(self, call: Callable[..., int], octets: bytes, refusal: Optional[RefusalOf] = None) -> bytes:
        """Returns what a call writes, or raises what the refusal makes of its code."""
        desk = kept = taken(self._desks, Desk)
        while True:
            code = call(octets, len(octets), desk.out, desk.room, desk.outcome)
            if code == _library.OK:
                break
            desk = self._larger(code, desk.outcome, refusal)
        written = bytes(desk.octets[: desk.outcome.count])
        self._desks.append(kept)
        return written

    def _larger(self, code: int, outcome: Outcome, refusal: Optional[RefusalOf] = None) -> Desk:
        """Returns a desk with the room that was wanted, or raises what the code says."""
        if code != _library.NO_ROOM:
            raise (refusal or self._refusal)(code, outcome)
        return Desk(outcome.count, outcome.fields)

    def _refusal(self, code: int, outcome: Outcome) -> Exception:
        """Returns what a code says that is not a success."""
        if code == _library.NO_MEMORY:
            return MemoryError()
        return Refused(self._library.reasons[outcome.why], outcome.place, SIDES.get(code))

    def _not_cut(self, code: int, outcome: Outcome) -> Exception:
        """Returns why a frame is not cut."""
        return NotCut(UNCUT[code]) if code in UNCUT else self._refusal(code, outcome)

    def _not_joined(self, code: int, outcome: Outcome) -> Exception:
        """Returns why frames are not joined."""
        if code == _library.INCOMPLETE:
            return MissingSegment(outcome.place)
        if code in WRONG:
            return WrongFrame(outcome.place, WRONG[code])
        if code == _library.NO_MEMORY:
            return MemoryError()
        why = self._library.reasons[outcome.why]
        if code == _library.SERVICE_REFUSED:
            return RefusedService(why, outcome.place)
        return RefusedFrame(outcome.count, why, outcome.place)

    def _refused_field(
        self, code: int, outcome: Outcome, frame: Any, said: _encode.Said, fault: Optional[Fault]
    ) -> Exception:
        """Returns the refusal of a dict at its first part that is at fault: the one that no field can say, or one before
        it, at which the library stops."""
        if code == _library.NO_MEMORY:
            return MemoryError()
        if fault is None or code == _library.REFUSED and outcome.place < len(said.pieces):
            fault = _encode.fault_at(self._grammar, frame, outcome.place, self._library.reasons[outcome.why])
        return RefusedField(fault.why, fault.path())


def octets_of(octets: Octets) -> bytes:
    """Returns what has octets in memory as bytes. Raises TypeError if it has none, as a number or a text."""
    return octets if isinstance(octets, bytes) else bytes(memoryview(octets))


def nearest(number: int, most: int) -> int:
    """Returns a whole number, or what is next to it from 0 to `most`. Raises TypeError if it is none."""
    return max(0, min(operator.index(number), most))


def taken(kept: List[Kept], new: Callable[[], Kept]) -> Kept:
    """Takes one of what is kept, or a new one."""
    try:
        return kept.pop()
    except IndexError:
        return new()
