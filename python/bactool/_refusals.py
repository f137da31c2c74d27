# SPDX-License-Identifier: Apache-2.0 OR MIT
"""What is raised where octets, a text, a dict, segments or a file are not accepted. An exception may be pickled, so that
it comes out of another process as it was raised there."""

from __future__ import annotations

from typing import Optional, Union


class Refused(Exception):
    """Octets or a text are not accepted.

    `why` is the name of the reason, such as `Short`; `reasons` has them all. `place` is an offset in octets, counted
    from 0: that of the first octet that no frame can have there, or the length of the input if it only ends too early.
    `side` is `left` or `right` if two inputs were compared, and else None."""

    def __init__(self, why: str, place: int, side: Optional[str] = None) -> None:
        super().__init__(why, place, side)
        self.why, self.place, self.side = why, place, side

    def __str__(self) -> str:
        return f"{self.side + ': ' if self.side else ''}{self.why} at {self.place}"


class RefusedField(Exception):
    """A dict is that of no frame.

    `why` is the name of the reason: Name, Number, Contents, Short or Trailing. `path` is the part that is at fault, such
    as `results[2].value`. It is empty if a part of the frame itself is missing, or if there is no dict."""

    def __init__(self, why: str, path: str) -> None:
        super().__init__(why, path)
        self.why, self.path = why, path

    def __str__(self) -> str:
        return f"{self.why} at {self.path or 'the end'}"


class NotCut(Exception):
    """A frame is not cut into segments.

    `why` is `NoService` if it has no Confirmed-Request or ComplexACK in one piece, `Size` if the size is not 1 or more,
    `Window` if the window is not 1 to 127, `TooLong` if the service, or the frame of a segment, has more than 65,535
    octets, or `TooMany` if there would be more than 256 segments."""

    def __init__(self, why: str) -> None:
        super().__init__(why)
        self.why = why

    def __str__(self) -> str:
        return f"not cut: {self.why}"


class NotJoined(Exception):
    """Frames are not joined to one. It is raised as one of MissingSegment, WrongFrame, RefusedFrame and
    RefusedService."""


class MissingSegment(NotJoined):
    """All frames belong together, and segments are missing. `number` is the first sequence number that none of them
    has."""

    def __init__(self, number: int) -> None:
        super().__init__(number)
        self.number = number

    def __str__(self) -> str:
        return f"segment {self.number} is missing"


class WrongFrame(NotJoined):
    """A frame does not belong to those before it. `index` is its place in the list, counted from 0.

    `why` is `NoSegment` if it holds no segment, `Conflict` if it is not of the message of those before it, or `TooLong`
    if the service has more than 65,535 octets with its piece, or if it has more itself."""

    def __init__(self, index: int, why: str) -> None:
        super().__init__(index, why)
        self.index, self.why = index, why

    def __str__(self) -> str:
        return f"frame {self.index}: {self.why}"


class RefusedFrame(NotJoined):
    """Octets in the list are no frame. `index` is their place in the list, counted from 0; `why` and `place` are those of
    Refused."""

    def __init__(self, index: int, why: str, place: int) -> None:
        super().__init__(index, why, place)
        self.index, self.why, self.place = index, why, place

    def __str__(self) -> str:
        return f"frame {self.index}: {self.why} at {self.place}"


class RefusedService(NotJoined):
    """All segments are there, and their joined octets are no service of their kind and choice. `why` is the name of the
    reason, and `place` an offset in the joined octets."""

    def __init__(self, why: str, place: int) -> None:
        super().__init__(why, place)
        self.why, self.place = why, place

    def __str__(self) -> str:
        return f"the joined octets: {self.why} at {self.place}"


class CutRecord(Exception):
    """A frame file ends within a record. `number` is that of the record, counted from 1."""

    def __init__(self, number: int) -> None:
        super().__init__(number)
        self.number = number

    def __str__(self) -> str:
        return f"the file ends within record {self.number}"


class Fault(Exception):
    """Within this package: a part of a dict that no field can say. `way` leads to it, from the innermost key or index
    outwards."""

    def __init__(self, why: str, *way: Union[str, int]) -> None:
        super().__init__(why)
        self.why, self.way = why, list(way)

    def path(self) -> str:
        """Returns the way as a text."""
        text = ""
        for part in reversed(self.way):
            text += f"[{part}]" if isinstance(part, int) else f".{part}" if text else part
        return text
