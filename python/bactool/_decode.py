# SPDX-License-Identifier: Apache-2.0 OR MIT
"""From fields to a dict. docs/FORMATS.md, section 8.4, says what each field is."""

from __future__ import annotations

import sys
from typing import Any, Dict, Iterator, List, Tuple

from . import _fields, _values
from ._library import WORDS_OF_FIELD, Desk

# What becomes of a field in a dict. The most frequent ones come first, in the order in which they are looked for.
NUMBER, VALUE, END, LIST, OBJECT, WORD, DICT, ADDRESS, CONTENTS = range(9)

STEPS = (
    ({_fields.VALUE}, VALUE),
    (_fields.ENDS, END),
    (_fields.LISTS, LIST),
    (_fields.OBJECTS, OBJECT),
    (_fields.WORDS, WORD),
    ({_fields.PROPERTY_ERROR}, DICT),
    (_fields.ADDRESSES, ADDRESS),
    (_fields.CONTENTS, CONTENTS),
)

# A name is the first half of its word, and the bits of a Real are the low half of theirs.
HALVES_OF_FIELD = 2 * WORDS_OF_FIELD
LOW_HALF = 0 if sys.byteorder == "little" else 1

# What becomes of the fields of each name, with its word. And the fields that are still to be read: index and name.
Steps = Dict[int, Tuple[int, str]]
Fields = Iterator[Tuple[int, int]]


def steps_of(words: Dict[int, str]) -> Steps:
    """Returns what becomes of the fields of each name."""
    return {
        name: (next((step for names, step in STEPS if name in names), NUMBER), word) for name, word in words.items()
    }


def frame_of(steps: Steps, desk: Desk, count: int) -> Dict[str, Any]:
    """Returns the dict of the frame that has the first fields on the desk."""
    names = desk.halves[: HALVES_OF_FIELD * count : HALVES_OF_FIELD].tolist()
    return members(enumerate(names), steps, desk)


def fields_of(desk: Desk, count: int) -> Iterator[List[int]]:
    """Yields the first fields on the desk: name, number, place, head and length."""
    names = desk.halves[: HALVES_OF_FIELD * count : HALVES_OF_FIELD].tolist()
    for index, name in enumerate(names):
        yield [name, *desk.words[WORDS_OF_FIELD * index + 1 : WORDS_OF_FIELD * (index + 1)].tolist()]


def members(fields: Fields, steps: Steps, desk: Desk) -> Dict[str, Any]:
    """Returns the dict of a frame, of an item or of an error, and leaves what follows its end."""
    said: Dict[str, Any] = {}
    words = desk.words
    for index, name in fields:
        step, word = steps[name]
        if step == NUMBER:
            said[word] = words[WORDS_OF_FIELD * index + 1]
        elif step == VALUE:
            said[word] = elements(fields, steps, desk)
        elif step == END:
            break
        elif step == LIST:
            said[word] = items(fields, steps, desk)
        elif step == OBJECT:
            said[word] = _values.identifier(words[WORDS_OF_FIELD * index + 1])
        elif step == WORD:
            said[word] = True
        elif step == DICT:
            said[word] = members(fields, steps, desk)
        elif step == ADDRESS:
            said[word] = _values.address(words[WORDS_OF_FIELD * index + 1], contents_at(desk, index))
        else:
            said[word] = _values.digits(contents_at(desk, index))
    return said


def items(fields: Fields, steps: Steps, desk: Desk) -> List[Any]:
    """Returns the items of a list, and leaves what follows its end."""
    found: List[Any] = []
    for index, name in fields:
        if name == _fields.ITEM:
            found.append(members(fields, steps, desk))
        elif name == _fields.LISTED_NETWORK:
            found.append(desk.words[WORDS_OF_FIELD * index + 1])
        else:
            break
    return found


def elements(fields: Fields, steps: Steps, desk: Desk) -> List[List[Any]]:
    """Returns the elements of an open value or of a group, and leaves what follows its end."""
    found: List[List[Any]] = []
    for index, name in fields:
        if name == _fields.REAL:
            value = desk.floats[HALVES_OF_FIELD * index + 2 + LOW_HALF]
            bits = "%08X" % desk.words[WORDS_OF_FIELD * index + 1]
            found.append([steps[name][1], _values.floating(value, bits)])
        elif name in _fields.ENDS:
            break
        elif name == _fields.GROUP:
            group = {"tag": desk.words[WORDS_OF_FIELD * index + 1], "value": elements(fields, steps, desk)}
            found.append([steps[name][1], group])
        else:
            value = _values.element(name, desk.words[WORDS_OF_FIELD * index + 1], contents_at(desk, index))
            found.append([steps[name][1], value])
    return found


def contents_at(desk: Desk, index: int) -> bytes:
    """Returns the contents of a field."""
    place, head, length = desk.words[WORDS_OF_FIELD * index + 2 : WORDS_OF_FIELD * index + 5]
    return bytes(desk.octets[place + head : place + head + length])
