# SPDX-License-Identifier: Apache-2.0 OR MIT
"""Names for the numbers of a decoded frame. The tables are those of the helper `with-names`. It is a file of the package
where that is installed; in the repository it is in scripts/."""

from __future__ import annotations

import importlib.machinery
import importlib.util
from functools import lru_cache
from pathlib import Path
from typing import Any, Dict, List, Optional

HERE = Path(__file__).resolve().parent
PLACES = (HERE / "with_names.py", HERE.parents[1] / "scripts" / "with-names")


@lru_cache(maxsize=None)
def with_names() -> Any:
    """Returns the helper as a module. It is loaded when the first name is asked for."""
    path = next((place for place in PLACES if place.exists()), PLACES[0])
    loader = importlib.machinery.SourceFileLoader("bactool.with_names", str(path))
    spec = importlib.util.spec_from_loader(loader.name, loader)
    assert spec is not None
    module = importlib.util.module_from_spec(spec)
    loader.exec_module(module)
    return module


@lru_cache(maxsize=None)
def tables() -> Dict[str, Dict[int, str]]:
    """Returns the names by their numbers, by section."""
    found: Dict[str, Dict[int, str]] = with_names().tables_of(())
    return found


@lru_cache(maxsize=None)
def kinds() -> frozenset[str]:
    """Returns the first words of bodies, where the name of a number depends on them."""
    return frozenset(kind for kind, _ in with_names().SECTIONS_OF)


def named(frame: Dict[str, Any]) -> Dict[str, Any]:
    """Returns a copy of a frame, as `decode` returns it, with names beside its numbers.

    A dict that has numbers with names has one more key, `names`: a dict of these names by the keys of their numbers.
    For an object it is the name of its type. An element of an open value has a third part: a Real or a Double the
    shortest decimal number with its bits, if it is finite; an object identifier the name of its type; a Date and a
    Time a text. A number without a name in the tables stays alone. `encode` refuses what has names."""
    kind = next((word for word in frame if word in kinds()), "")
    return named_members(frame, kind)


def named_members(said: Dict[str, Any], kind: str) -> Dict[str, Any]:
    """Returns a copy of a dict in a frame of a kind, with names."""
    copied = {word: named_part(word, value, kind) for word, value in said.items()}
    names = {word: name for word, value in said.items() if (name := name_of(kind, word, value)) is not None}
    return {**copied, "names": names} if names else copied


def named_part(word: str, value: Any, kind: str) -> Any:
    """Returns a copy of what a key has, with names in it."""
    if isinstance(value, dict):
        return named_members(value, kind)
    if word == "value":
        return [named_element(*pair) for pair in value]
    if isinstance(value, list):
        return [named_members(item, kind) if isinstance(item, dict) else item for item in value]
    return value


def name_of(kind: str, word: str, value: Any) -> Optional[str]:
    """Returns the name of the number that a key has in a frame of a kind, or None."""
    if word in ("object", "device"):
        return type_name(value)
    if word == "net":
        return tables()["network-message"].get(value)
    section = with_names().section_of(kind, word)
    return tables()[section].get(value) if section else None


def type_name(identifier: str) -> Optional[str]:
    """Returns the name of the type of an object, or None."""
    return tables()["object-type"].get(int(identifier.partition(":")[0]))


def named_element(kind: str, value: Any) -> List[Any]:
    """Returns a copy of an element of an open value, with what is added to it."""
    if kind == "group":
        return [kind, {**value, "value": [named_element(*pair) for pair in value["value"]]}]
    added = added_to(kind, value)
    return [kind, value] if added is None else [kind, value, added]


def added_to(kind: str, value: Any) -> Any:
    """Returns what is added to an element, or None."""
    if kind in ("r", "d"):
        return None if value["float"] is None else float(with_names().decimal_text(bytes.fromhex(value["bits"])))
    if kind == "id":
        return type_name(value)
    if kind == "D":
        text: str = with_names().date_text(bytes.fromhex(value))
        return text
    if kind == "T":
        text = with_names().time_text(bytes.fromhex(value))
        return text
    return None
