# SPDX-License-Identifier: Apache-2.0 OR MIT
"""What is known of a frame, also if it is refused. include/bactool.h says what each member is."""

from __future__ import annotations

import ctypes
from typing import Any, NamedTuple, Optional

from ._refusals import Refused

KNOWN = ("nothing", "control", "addresses", "all")

PDUS = ("confirmed", "unconfirmed", "simple ack", "complex ack", "segment ack", "error", "reject", "abort", "message")


class AddressOfC(ctypes.Structure):
    """struct bactool_address"""

    _fields_ = [
        ("there", ctypes.c_uint32),
        ("network", ctypes.c_uint32),
        ("place", ctypes.c_size_t),
        ("length", ctypes.c_size_t),
    ]


class HeadOfC(ctypes.Structure):
    """struct bactool_frame_head"""

    _fields_ = [
        *((name, ctypes.c_uint32) for name in ("known", "reply", "priority", "hops")),
        ("destination", AddressOfC),
        ("source", AddressOfC),
        *((name, ctypes.c_uint32) for name in ("pdu", "message", "vendor", "invoke", "segmented", "more", "sequence")),
        *((name, ctypes.c_uint32) for name in ("window", "negative", "server", "choice", "reason")),
        ("contents", ctypes.c_size_t),
    ]


class Address(NamedTuple):
    """A network, and the octets of an address on it."""

    network: int
    octets: bytes


class Head(NamedTuple):
    """What is known of a frame. A number that is not known, or that the PDU does not have, is 0."""

    # How far it is known: nothing, control, addresses or all.
    known: str
    # Why the octets are refused, or None if they spell a frame.
    refused: Optional[Refused]
    # Whether a reply is expected, and the priority.
    reply: bool
    priority: int
    # Where the frame goes, with the hop count, and where it comes from.
    destination: Optional[Address]
    hops: int
    source: Optional[Address]
    # What the frame carries, such as confirmed or reject. It is None if that is not known.
    pdu: Optional[str]
    # The type and the vendor of a network message.
    message: int
    vendor: int
    # Of an APDU.
    invoke: int
    segmented: bool
    more: bool
    sequence: int
    window: int
    negative: bool
    server: bool
    choice: int
    reason: int
    # The offset of what is after the head: the octets of a service begin here.
    contents: int


def address_of(octets: bytes, address: Any) -> Optional[Address]:
    """Returns an address that is told, with its octets."""
    if not address.there:
        return None
    return Address(address.network, octets[address.place : address.place + address.length])


def head_of(octets: bytes, head: Any, refused: Optional[Refused]) -> Head:
    """Returns what is told of the octets."""
    return Head(
        known=KNOWN[head.known],
        refused=refused,
        reply=bool(head.reply),
        priority=head.priority,
        destination=address_of(octets, head.destination),
        hops=head.hops,
        source=address_of(octets, head.source),
        pdu=PDUS[head.pdu] if head.known == len(KNOWN) - 1 else None,
        message=head.message,
        vendor=head.vendor,
        invoke=head.invoke,
        segmented=bool(head.segmented),
        more=bool(head.more),
        sequence=head.sequence,
        window=head.window,
        negative=bool(head.negative),
        server=bool(head.server),
        choice=head.choice,
        reason=head.reason,
        contents=head.contents,
    )
