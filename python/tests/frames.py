# SPDX-License-Identifier: Apache-2.0 OR MIT
"""Frames of docs/EXAMPLES.md, with what they are as dicts by docs/FORMATS.md."""

from typing import Any, Dict, List

# Examples 1, 2, 4, 5 and 17.
F1 = bytes.fromhex("0104 0005010C 0C00000005 1955")
F2 = bytes.fromhex("0154 0185010C 0C00000005 1A0055")
F4 = bytes.fromhex("0100 30010C 0C00000005 1955 3E 444290999A 3F")
WHO_IS_ANYWHERE = bytes.fromhex("0120 FFFF00 FF 1008")
WRITE = bytes.fromhex("0104 0005030F 0C00400001 1955 3E 4442C80000 3F 4908")

# Example 17 with a priority that no frame has.
PRIORITY_17 = WRITE[:-1] + b"\x11"

LINE_OF_F1 = "prio=0 reply=1 conf id=1 sa=0 segs=0 resp=5 ReadProperty object=0:5 property=85"

DICT_OF_F1: Dict[str, Any] = {
    "prio": 0, "reply": 1, "conf": True, "id": 1, "sa": 0, "segs": 0, "resp": 5,
    "ReadProperty": True, "object": "0:5", "property": 85,
}


def answer(elements: str) -> bytes:
    """Returns the octets of an answer to F1, with these octets of elements as its value."""
    return bytes.fromhex("0100 30010C 0C00000005 1955 3E") + bytes.fromhex(elements) + b"\x3f"


def answered(*elements: Any) -> Dict[str, Any]:
    """Returns the dict of such an answer, of the pairs of its elements."""
    return {
        "prio": 0, "reply": 0, "ack": True, "id": 1,
        "ReadProperty": True, "object": "0:5", "property": 85, "value": list(elements),
    }


def segment(number: int, piece: bytes, more: bool, choice: int = 12, invoke: int = 1, npdu: str = "0100") -> bytes:
    """Returns the frame of a segment of an answer, with window 4."""
    head = [0x3C if more else 0x38, invoke, number, 4, choice]
    return bytes.fromhex(npdu) + bytes(head) + piece


def segments(service: bytes, size: int, choice: int = 12, invoke: int = 1, npdu: str = "0100") -> List[bytes]:
    """Returns the frames of the segments of an answer."""
    pieces = [service[at : at + size] for at in range(0, len(service), size)]
    last = len(pieces) - 1
    return [segment(number, piece, number < last, choice, invoke, npdu) for number, piece in enumerate(pieces)]
