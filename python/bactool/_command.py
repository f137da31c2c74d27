# SPDX-License-Identifier: Apache-2.0 OR MIT
"""The command line: jobs over standard input."""

from __future__ import annotations

import argparse
import json
import os
import re
import stat
import sys
import time
from contextlib import closing
from typing import Any, BinaryIO, Callable, Dict, Generator, Iterable, Iterator, List, NoReturn, Optional, Tuple

from ._api import Bactool
from ._joining import NOWHERE, Ends, Joining
from ._records import apart, pieces, record
from ._refusals import CutRecord, Refused, RefusedField
from .names import named

NAME = "python3 -m bactool"

# Statuses: all went well; a record or a line is refused; the words, the input or the output are at fault; interrupted.
WELL, REFUSED, FAILED, INTERRUPTED = 0, 1, 2, 130

SUMMARY = "Messages of BACnet (ANSI/ASHRAE 135), from standard input to standard output."
NOTES = """\
A frame file has records: two octets of length, and the octets of one NPDU.

status:
  0  all went well
  1  a record or a line was refused
  2  the words, the input or the output are at fault"""

JOBS = {
    "json": "a line of JSON for each record of a frame file, or why it is refused",
    "encode": "a record for each line of JSON, as json writes it, up to the first line at fault",
    "check": "whether each record is canonical, tolerated or refused",
    "explain": "the same, with a line for each piece of the record: what its octets are",
    "show": "a line for each record: what it means, or why it is refused",
    "read": "a record for each line, as show writes it, up to the first line at fault",
    "normalise": "each record in its canonical encoding, up to the first refused one",
    "join": "each record, with the segments of a message joined to one record",
}

# A string of JSON.
STRING = re.compile(r'"(?:[^"\\]|\\.)*"')

# Seconds from one progress line to the next, and how many records come between two looks at the clock.
PAUSE, STRIDE = 0.2, 256


class Stopped(Exception):
    """A run ends before its input does, with a status."""

    def __init__(self, text: str, status: int) -> None:
        super().__init__(text)
        self.status = status


class TooDeep(Exception):
    """More is open in a line of JSON than in any frame, and than can be read."""


def main(words: Optional[List[str]] = None) -> int:
    """Does what the words of the command line say. Returns the status."""
    asked = parser().parse_args(words)
    if sys.stdin is None or sys.stdout is None:
        complain("standard input or output is closed")
        return FAILED
    try:
        return run(asked, sys.stdin.buffer, sys.stdout.buffer)
    except KeyboardInterrupt:
        status = INTERRUPTED
    except (OSError, MemoryError) as fault:
        complain(str(fault) or "out of memory")
        status = FAILED
    # Nothing more is written, also where the output is what failed.
    os.dup2(os.open(os.devnull, os.O_WRONLY), sys.stdout.fileno())
    return status


def parser() -> argparse.ArgumentParser:
    """Returns what reads the command line."""
    top = argparse.ArgumentParser(
        prog=NAME, description=SUMMARY, epilog=NOTES, formatter_class=argparse.RawDescriptionHelpFormatter
    )
    jobs = top.add_subparsers(dest="job", metavar="JOB", required=True)
    for job, text in JOBS.items():
        words = jobs.add_parser(job, help=text, description=f"Writes {text}.")
        if job == "json":
            words.add_argument("--names", action="store_true", help="with names beside numbers, and decimal numbers")
        if job == "join":
            words.add_argument(
                "--where", metavar="FILE", help="tell packets apart by their addresses, in a file of npdus-from-capture"
            )
    return top


def run(asked: argparse.Namespace, source: BinaryIO, target: BinaryIO) -> int:
    """Does a job for all records or lines of a source. Returns the status."""
    tool, of_lines = Bactool(), asked.job in ("encode", "read")
    items: Iterator[bytes] = iter(source) if of_lines else apart(live(pieces(source), target))
    try:
        with closing(watched(items, 0 if of_lines else 2, size_to_watch(source))) as left:
            status = do(asked, tool, left, target)
        target.flush()
        return status
    except (Stopped, CutRecord) as fault:
        target.flush()
        complain(str(fault))
        return fault.status if isinstance(fault, Stopped) else FAILED


def do(asked: argparse.Namespace, tool: Bactool, items: Iterable[bytes], target: BinaryIO) -> int:
    """Does a job for each record or line. Returns the status, or raises Stopped."""
    if asked.job == "encode":
        return make(lambda line: tool.encode(said(line)), items, target)
    if asked.job == "read":
        return make(lambda line: tool.read(without_number(line)), items, target)
    if asked.job == "normalise":
        return normalise(tool, items, target)
    if asked.job == "join":
        return join(tool, placed(items, asked.where), target)
    if asked.job == "check":
        return tell(lambda number, octets: f"{number} {judged(tool.check(octets))}", refused_text, items, target)
    if asked.job == "explain":
        return explain(tool, items, target)
    if asked.job == "show":
        return tell(lambda number, octets: f"{number} {tool.show(octets)}", refused_text, items, target)
    if asked.names:
        return tell(lambda number, octets: json_of(named(tool.decode(octets))), refused_json, items, target)
    return tell(lambda number, octets: json_of(tool.decode(octets)), refused_json, items, target)


def tell(
    line_of: Callable[[int, bytes], str],
    line_of_refusal: Callable[[int, Refused], str],
    items: Iterable[bytes],
    target: BinaryIO,
) -> int:
    """Writes a line for each record, also for a refused one."""
    status = WELL
    for number, octets in enumerate(items, 1):
        try:
            line = line_of(number, octets)
        except Refused as refusal:
            line, status = line_of_refusal(number, refusal), REFUSED
        target.write(line.encode() + b"\n")
    return status


def explain(tool: Bactool, items: Iterable[bytes], target: BinaryIO) -> int:
    """Writes the line of `check` for each record, and a line for each piece of it."""
    status = WELL
    for number, octets in enumerate(items, 1):
        try:
            line = f"{number} {judged(tool.check(octets))}"
        except Refused as refusal:
            line, status = refused_text(number, refusal), REFUSED
        target.write(f"{line}\n{tool.explain_text(octets)}".encode())
    return status


def judged(place: Optional[int]) -> str:
    """Returns what is said of an accepted record."""
    return "ok" if place is None else f"tolerated at {place}"


def refused_text(number: int, refusal: Refused) -> str:
    """Returns the line of a refused record."""
    return f"{number} refused {refusal}"


def json_of(said_of_record: Any) -> str:
    """Returns a line of JSON."""
    return json.dumps(said_of_record, allow_nan=False)


def refused_json(_: int, refusal: Refused) -> str:
    """Returns the line of JSON of a refused record."""
    return json_of({"refused": refusal.why, "at": refusal.place})


def normalise(tool: Bactool, items: Iterable[bytes], target: BinaryIO) -> int:
    """Writes the canonical octets of each record, up to the first one that is refused."""
    for number, octets in enumerate(items, 1):
        try:
            target.write(record(tool.normalise(octets)))
        except Refused as refusal:
            raise Stopped(f"record {number}: refused {refusal}", REFUSED) from None
    return WELL


def join(tool: Bactool, items: Iterable[Tuple[bytes, Ends]], target: BinaryIO) -> int:
    """Writes each record, and in the place of the last segment of a message its frame in one piece. At the end, also if
    that is a fault, come the segments of messages that are not whole, and a line says how many are not joined."""
    joining, fault = Joining(tool), None
    try:
        for octets, ends in items:
            target.writelines(map(record, joining.take(octets, ends)))
    except (Stopped, CutRecord) as found:
        fault = found
    target.writelines(map(record, joining.rest()))
    if joining.unjoined:
        complain(joining.report())
    if fault is not None:
        raise fault
    return REFUSED if joining.is_refused else WELL


def placed(items: Iterable[bytes], where: Optional[str]) -> Iterator[Tuple[bytes, Ends]]:
    """Yields each record with the source and the destination of its packet, which are the third and the fourth word of
    its line in a file, if there is one."""
    if where is None:
        yield from ((octets, NOWHERE) for octets in items)
        return
    with open(where, "rb") as file:
        for number, octets in enumerate(items, 1):
            words = file.readline().split()
            if len(words) not in (4, 5):
                raise Stopped(f"{where}: line {number} does not say where record {number} is from", FAILED)
            yield octets, (words[2], words[3])
        if file.readline():
            raise Stopped(f"{where}: more lines than there are records", FAILED)


def make(octets_of: Callable[[bytes], bytes], lines: Iterable[bytes], target: BinaryIO) -> int:
    """Writes a record for each line, up to the first one that is at fault."""
    for number, line in enumerate(lines, 1):
        try:
            made = record(octets_of(line.rstrip(b"\n")))
        except (Refused, RefusedField, TooDeep) as refusal:
            raise Stopped(f"line {number}: refused {refusal}", REFUSED) from None
        except ValueError as fault:
            raise Stopped(f"line {number}: {fault}", FAILED) from None
        target.write(made)
    return WELL


def without_number(line: bytes) -> bytes:
    """Returns a line of `show` without its number, if it has one."""
    number, _, text = line.partition(b" ")
    return text if number.isdigit() else line


def said(line: bytes) -> Any:
    """Returns what a line of JSON says. Raises ValueError if it is none."""
    text = line.decode()
    try:
        return json.loads(text, parse_constant=no_number, object_pairs_hook=object_of)
    except RecursionError:
        # Python cannot read what is inside so much else. Whether it is no JSON is then looked at only in this way.
        if not all_close(text):
            raise ValueError("brackets that do not close") from None
        raise TooDeep("Depth: more is open than in any frame") from None


def object_of(pairs: List[Tuple[str, Any]]) -> Dict[str, Any]:
    """Returns a dict. Raises ValueError if a key is there twice, since one of its values would be ignored."""
    found = dict(pairs)
    if len(found) < len(pairs):
        raise ValueError("a key that is there twice")
    return found


def no_number(text: str) -> NoReturn:
    """Refuses NaN and the infinities, which JSON has not."""
    raise ValueError(f"{text} is no number of JSON")


def all_close(text: str) -> bool:
    """Whether each bracket of a line of JSON closes, and none closes that was not open."""
    is_open: List[str] = []
    for bracket in re.findall(r"[\[\]{}]", STRING.sub("", text)):
        if bracket in "[{":
            is_open.append(bracket)
        elif not is_open or is_open.pop() + bracket not in ("[]", "{}"):
            return False
    return not is_open


def live(pieces_of_file: Iterable[bytes], target: BinaryIO) -> Iterator[bytes]:
    """Yields what a source has. What was written is passed on before more is waited for."""
    for piece in pieces_of_file:
        yield piece
        target.flush()


def size_to_watch(source: BinaryIO) -> int:
    """Returns how many octets a source still has, if somebody looks at how far it is and it is a file, and else 0."""
    if not sys.stderr.isatty() or sys.stdout.isatty():
        return 0
    found = os.fstat(source.fileno())
    return found.st_size - source.tell() if stat.S_ISREG(found.st_mode) else 0


def watched(items: Iterator[bytes], head: int, size: int) -> Generator[bytes, None, None]:
    """Yields records or lines, and says how far it is on standard error. Each has some octets before those yielded."""
    if size <= 0:
        yield from items
        return
    done, told = 0, time.monotonic()
    try:
        for number, item in enumerate(items, 1):
            yield item
            done += head + len(item)
            if number % STRIDE == 0 and time.monotonic() - told >= PAUSE:
                told = time.monotonic()
                print(f"\r{number:,} done, {100 * done // size} %", end="", file=sys.stderr, flush=True)
    finally:
        # Takes the line away again.
        print("\r\x1b[K", end="", file=sys.stderr, flush=True)


def complain(text: str) -> None:
    """Writes a line on standard error. Whatever the input had in it, the line is safe on a terminal."""
    shown = "".join(letter if letter.isprintable() else ascii(letter)[1:-1] for letter in text)
    print(f"{NAME}: {shown}", file=sys.stderr)
