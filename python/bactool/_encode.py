# SPDX-License-Identifier: Apache-2.0 OR MIT
"""From a dict to fields. docs/FORMATS.md, section 8.5, says which fields are those of a frame. What is refused here is
what no field can say; of the rest the library judges."""

from __future__ import annotations

import struct
from functools import lru_cache
from typing import Any, Callable, Dict, List, Optional, Sequence, Tuple

from . import _fields
from ._fields import GROUP, GROUP_END, LISTED_NETWORK, NETWORKS, REAL
from ._refusals import Fault
from ._values import REAL as REAL_LAYOUT
from ._values import address_of, bits_of, identified, number_and_octets_of, octets_of, parts

# What becomes of a key. The most frequent ones come first, in the order in which they are looked for.
NUMBER, OBJECT, VALUE, LIST, WORD, ERROR, ADDRESS, CONTENTS = range(8)

STEPS = (
    (_fields.OBJECTS, OBJECT),
    ({_fields.VALUE}, VALUE),
    (_fields.LISTS, LIST),
    (_fields.WORDS, WORD),
    ({_fields.PROPERTY_ERROR}, ERROR),
    (_fields.ADDRESSES, ADDRESS),
    (_fields.CONTENTS, CONTENTS),
)

# No frame nests so deep: an open value in a list in a list, with 32 groups in it.
DEEPEST = 40

# struct bactool_field, of a name and a number, and of one that has contents too.
field = struct.Struct("=I4xQ24x").pack
field_with_contents = struct.Struct("=I4xQQ8xQ").pack

# What they raise where the number is none, or too large.
UNSAYABLE = (struct.error, OverflowError)

LIST_END, ITEM, ITEM_END = field(_fields.LIST_END, 0), field(_fields.ITEM, 0), field(_fields.ITEM_END, 0)
VALUE_BEGIN, VALUE_END = field(_fields.VALUE, 0), field(_fields.VALUE_END, 0)
ERROR_BEGIN, ERROR_END = field(_fields.PROPERTY_ERROR, 0), field(_fields.PROPERTY_ERROR_END, 0)

# A key, what becomes of it, and the name of its field; the keys of a dict, in the order of the text.
Plan = Tuple[Tuple[str, int, int], ...]
PlanOf = Callable[[Tuple[str, ...]], Plan]


class Stops(List[bytes]):
    """Fields up to an index, where a field is refused."""

    def __init__(self, most: int, why: str) -> None:
        super().__init__()
        self.most, self.why = most, why

    def append(self, piece: bytes) -> None:
        if len(self) == self.most:
            raise Fault(self.why)
        super().append(piece)


class Grammar:
    """The keys of dicts and the types of elements, by the words of the library."""

    def __init__(self, words: Dict[int, str]) -> None:
        self.of_frames = plan_of(_fields.OF_FRAMES, words)
        self.of_items = plan_of(_fields.OF_ITEMS, words)
        self.elements = {words[name]: name for name in _fields.ELEMENTS}


def plan_of(names: Sequence[int], words: Dict[int, str]) -> PlanOf:
    """Returns what gives the plan of a dict with some of these names, by its keys in their order. Plans are kept, since
    most dicts have the keys of one before."""
    ranks = {words[name]: rank for rank, name in enumerate(names)}
    steps = [next((step for some, step in STEPS if name in some), NUMBER) for name in names]

    @lru_cache(maxsize=1024)
    def plan(keys: Tuple[str, ...]) -> Plan:
        for key in keys:
            if key not in ranks:
                raise Fault("Name", str(key))
        return tuple((key, steps[ranks[key]], names[ranks[key]]) for key in sorted(keys, key=ranks.__getitem__))

    return plan


def said_of(grammar: Grammar, frame: Any) -> Tuple[Said, Optional[Fault]]:
    """Returns the fields that a dict says, up to the first part that no field can say, and what is wrong with it."""
    said = Said(grammar, [])
    try:
        said.put_frame(frame)
    except Fault as fault:
        return said, fault
    return said, None


def fault_at(grammar: Grammar, frame: Any, index: int, why: str) -> Fault:
    """Returns what is wrong with a dict of which the field at an index is refused."""
    try:
        Said(grammar, Stops(index, why)).put_frame(frame)
    except Fault as fault:
        return fault
    return Fault(why)


class Said:
    """The fields that a dict says, each as the octets of its struct, and their contents."""

    def __init__(self, grammar: Grammar, pieces: List[bytes]) -> None:
        self.grammar, self.pieces, self.octets = grammar, pieces, bytearray()

    def put_frame(self, frame: Any) -> None:
        """Appends the fields of a frame, and what was left out of it."""
        if not isinstance(frame, dict):
            raise Fault("Contents")
        confirmed = "conf" in frame or "conf-seg" in frame
        said: Dict[str, Any] = {"prio": 0, "reply": int(confirmed)}
        if "dest" in frame:
            said["hops"] = 255
        if confirmed:
            said.update(sa=0, segs=0, resp=5)
        said.update(frame)
        self.put_members(said, self.grammar.of_frames, 0)

    def put_members(self, said: Any, plan_of_keys: PlanOf, depth: int) -> None:
        """Appends the fields of a dict, in the order of the text."""
        if not isinstance(said, dict):
            raise Fault("Contents")
        if depth > DEEPEST:
            raise Fault("Name")
        append, key = self.pieces.append, ""
        plan = plan_of_keys(tuple(said))
        try:
            for key, step, name in plan:
                value = said[key]
                if step == NUMBER:
                    append(field(name, value))
                elif step == OBJECT:
                    append(field(name, identified(value)))
                elif step == VALUE:
                    append(VALUE_BEGIN)
                    self.put_elements(value, depth + 1)
                    append(VALUE_END)
                elif step == LIST:
                    append(field(name, 0))
                    self.put_items(name, value, depth + 1)
                    append(LIST_END)
                elif step == WORD:
                    append(field(name, _fields.CHOICES.get(name, 0) if value is True else None))
                elif step == ERROR:
                    append(ERROR_BEGIN)
                    self.put_members(value, self.grammar.of_items, depth + 1)
                    append(ERROR_END)
                elif step == ADDRESS:
                    self.put_with_contents(name, *address_of(value))
                else:
                    self.put_with_contents(name, 0, octets_of(value))
        except UNSAYABLE:
            raise Fault("Number", key) from None
        except Fault as fault:
            fault.way.append(key)
            raise

    def put_items(self, name: int, items: Any, depth: int) -> None:
        """Appends the fields of the items of a list, or of its networks."""
        if not isinstance(items, list):
            raise Fault("Contents")
        append, of_items, index = self.pieces.append, self.grammar.of_items, 0
        try:
            for index, item in enumerate(items):
                if name == NETWORKS:
                    append(field(LISTED_NETWORK, item))
                else:
                    append(ITEM)
                    self.put_members(item, of_items, depth)
                    append(ITEM_END)
        except UNSAYABLE:
            raise Fault("Number", index) from None
        except Fault as fault:
            fault.way.append(index)
            raise

    def put_elements(self, pairs: Any, depth: int) -> None:
        """Appends the fields of the elements of an open value, or of a group."""
        if not isinstance(pairs, list):
            raise Fault("Contents")
        if depth > DEEPEST:
            raise Fault("Name")
        append, names, index = self.pieces.append, self.grammar.elements, 0
        try:
            for index, pair in enumerate(pairs):
                if not isinstance(pair, list) or len(pair) != 2:
                    raise Fault("Contents")
                kind, value = pair
                name = names.get(kind) if isinstance(kind, str) else None
                if name == REAL:
                    append(field(REAL, bits_of(REAL_LAYOUT, value)))
                elif name == GROUP:
                    self.put_group(value, depth)
                elif name is None:
                    raise Fault("Name")
                else:
                    number, octets = number_and_octets_of(name, value)
                    self.put_with_contents(name, number, octets)
        except UNSAYABLE:
            raise Fault("Number", index) from None
        except Fault as fault:
            fault.way.append(index)
            raise

    def put_group(self, group: Any, depth: int) -> None:
        """Appends the fields of a group, where one may be."""
        tag, elements = parts(group, "tag", "value")
        self.pieces.append(field(GROUP, tag))
        self.put_elements(elements, depth + 1)
        self.pieces.append(field(GROUP_END, tag))

    def put_with_contents(self, name: int, number: Any, octets: bytes) -> None:
        """Appends a field, and its contents."""
        self.pieces.append(field_with_contents(name, number, len(self.octets), len(octets)))
        self.octets += octets
