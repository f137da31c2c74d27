# SPDX-License-Identifier: Apache-2.0 OR MIT
"""What a value is in a dict, and which number and octets it says: each of the two ways beside the other."""

from __future__ import annotations

import math
import struct
from functools import lru_cache
from typing import Any, List, Optional, Tuple

from . import _fields
from ._refusals import Fault

REAL, DOUBLE = struct.Struct(">f"), struct.Struct(">d")

# Whatever has more decimal digits is no number of a field.
MOST_DIGITS = 20


@lru_cache(maxsize=4096)
def identifier(number: int) -> str:
    """Returns an object identifier, by its 32 bits, as type and instance."""
    return f"{number >> 22}:{number & 0x3FFFFF}"


@lru_cache(maxsize=4096)
def bits_of_identifier(text: str) -> Optional[int]:
    """Returns the 32 bits of an object identifier, or None if the text is none."""
    kind, _, instance = text.partition(":")
    if not is_decimal(kind) or not is_decimal(instance) or int(kind) > 1023 or int(instance) > 0x3FFFFF:
        return None
    return int(kind) << 22 | int(instance)


def identified(value: Any) -> int:
    """Returns the 32 bits of an object identifier."""
    bits = bits_of_identifier(value) if isinstance(value, str) else None
    if bits is None:
        raise Fault("Number")
    return bits


def is_decimal(text: str) -> bool:
    """Whether a text is a number of decimal digits."""
    return text.isascii() and text.isdigit() and len(text) <= MOST_DIGITS


def digits(octets: bytes) -> str:
    """Returns octets as hexadecimal digits."""
    return octets.hex().upper()


def octets_of(value: Any) -> bytes:
    """Returns the octets of hexadecimal digits."""
    if not isinstance(value, str) or value and not value.isalnum():
        raise Fault("Contents")
    try:
        return bytes.fromhex(value)
    except ValueError:
        raise Fault("Contents") from None


def address(network: int, octets: bytes) -> str:
    """Returns an address: its network and its octets, or `*` if it has none."""
    return f"{network}/{digits(octets) or '*'}"


def address_of(value: Any) -> Tuple[int, bytes]:
    """Returns the network and the octets of an address."""
    network, slash, text = value.partition("/") if isinstance(value, str) else ("", "", "")
    if not slash or not is_decimal(network):
        raise Fault("Number")
    return int(network), b"" if text == "*" else octets_of(text)


def floating(number: float, bits: str) -> Any:
    """Returns a Real or a Double, by its value and the hexadecimal digits of its bits."""
    return {"float": number if math.isfinite(number) else None, "bits": bits}


def bits_of(layout: struct.Struct, value: Any) -> int:
    """Returns the bits of a Real or a Double: of a float, of its bits, or of a dict that has one of them, or both if
    they agree. Raises struct.error or OverflowError too, where no such number is the value."""
    if not isinstance(value, dict):
        return int.from_bytes(layout.pack(value), "big")
    if len(value) == 2 and "float" in value and "bits" in value:
        return agreed_bits_of(layout, value["float"], value["bits"])
    if len(value) == 1 and "float" in value:
        return int.from_bytes(layout.pack(value["float"]), "big")
    if len(value) == 1 and "bits" in value:
        return int.from_bytes(octets_of_bits(layout, value["bits"]), "big")
    raise Fault("Contents")


def agreed_bits_of(layout: struct.Struct, number: Any, text: Any) -> int:
    """Returns the bits of which both the float and the digits are. A float has those of the nearest number, None those
    of any that is not finite."""
    packed = b"" if number is None else layout.pack(number)
    if packed.hex().upper() != text:
        octets = octets_of_bits(layout, text)
        (exact,) = layout.unpack(octets)
        if math.isfinite(exact) if number is None else octets != packed and exact != number:
            raise Fault("Number", "float and bits")
        packed = octets
    return int.from_bytes(packed, "big")


def octets_of_bits(layout: struct.Struct, text: Any) -> bytes:
    """Returns the octets of the bits of a Real or a Double, of their digits."""
    octets = octets_of(text)
    if len(octets) != layout.size:
        raise Fault("Number")
    return octets


def string(character_set: int, octets: bytes) -> Any:
    """Returns a string as text, or, where the text of a frame has digits, these and the set."""
    text = text_of(octets) if character_set == 0 else None
    return {"set": character_set, "octets": digits(octets)} if text is None else text


def text_of(octets: bytes) -> Optional[str]:
    """Returns octets as text, or None if they are no UTF-8 or have one that the text of a frame shows in digits."""
    if any(octet < 0x20 or octet in b'"\\\x7f' for octet in octets):
        return None
    try:
        return octets.decode()
    except UnicodeDecodeError:
        return None


def string_of(value: Any) -> Tuple[Any, bytes]:
    """Returns the character set and the octets of a string."""
    if not isinstance(value, str):
        character_set, text = parts(value, "set", "octets")
        return character_set, octets_of(text)
    try:
        return 0, value.encode()
    except UnicodeEncodeError:
        raise Fault("Contents") from None


def bit_string_of(value: Any) -> Tuple[int, bytes]:
    """Returns how many bits a text of digits has, and the octets that hold them."""
    if not isinstance(value, str) or value.strip("01"):
        raise Fault("Contents")
    size = (len(value) + 7) // 8
    return len(value), int(value.ljust(8 * size, "0") or "0", 2).to_bytes(size, "big")


def parts(value: Any, *keys: str) -> List[Any]:
    """Returns what a dict has under these keys, which are all of its keys."""
    if not isinstance(value, dict) or value.keys() != set(keys):
        raise Fault("Contents")
    return [value[key] for key in keys]


def element(name: int, number: int, octets: bytes) -> Any:
    """Returns what an element of an open value is, by its name, its number and its contents. It is no group."""
    if name in (_fields.UNSIGNED, _fields.ENUMERATED):
        return number
    if name == _fields.NULL:
        return None
    if name == _fields.BOOLEAN:
        return number == 1
    if name == _fields.SIGNED:
        return number - (number >> 63 << 64)
    if name in (_fields.REAL, _fields.DOUBLE):
        layout = REAL if name == _fields.REAL else DOUBLE
        return floating(layout.unpack(octets)[0], digits(octets))
    if name == _fields.OBJECT_IDENTIFIER:
        return identifier(number)
    if name == _fields.CHARACTER_STRING:
        return string(number, octets)
    if name == _fields.BIT_STRING:
        return "".join(f"{octet:08b}" for octet in octets)[:number]
    if name == _fields.CONTEXT_PRIMITIVE:
        return {"tag": number, "octets": digits(octets)}
    return digits(octets)


def number_and_octets_of(name: int, value: Any) -> Tuple[Any, bytes]:
    """Returns the number and the contents of an element. The number is of any type that the value had."""
    if name == _fields.NULL:
        return (0 if value is None else None), b""
    if name == _fields.SIGNED:
        is_signed = isinstance(value, int) and -(1 << 63) <= value < 1 << 63
        return (value % (1 << 64) if is_signed else None), b""
    if name in (_fields.REAL, _fields.DOUBLE):
        return bits_of(REAL if name == _fields.REAL else DOUBLE, value), b""
    if name == _fields.OBJECT_IDENTIFIER:
        return identified(value), b""
    if name == _fields.CHARACTER_STRING:
        return string_of(value)
    if name == _fields.BIT_STRING:
        return bit_string_of(value)
    if name == _fields.CONTEXT_PRIMITIVE:
        tag, text = parts(value, "tag", "octets")
        return tag, octets_of(text)
    if name in (_fields.OCTET_STRING, _fields.DATE, _fields.TIME_OF_DAY):
        return 0, octets_of(value)
    return value, b""
