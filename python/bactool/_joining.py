# SPDX-License-Identifier: Apache-2.0 OR MIT
"""The segments among the records of a capture, joined to the messages of which they are.

Segments are of one message if they have the client, the server, the invoke id, the kind and the service choice in common,
and none of them contradicts those before it. Client and server are the addresses in the NPDU and, where they are known,
those of the packet. A message is closed by a SimpleACK, an Error, a Reject or an Abort with the same client, server and
invoke id, by a segment that contradicts it and, once it is whole, by another segment 0. What is not whole then, or at the
end, is passed on at the end."""

from __future__ import annotations

from collections import Counter, deque
from typing import Deque, Dict, List, Optional, Tuple

from ._api import Bactool
from ._heads import Address, Head
from ._records import LONGEST
from ._refusals import MissingSegment, RefusedService, WrongFrame

# The source and the destination of a packet, and those of one of which nothing is known.
Ends = Tuple[bytes, bytes]
NOWHERE: Ends = (b"", b"")

# The client or the server: the address of its packets, and that in its NPDUs.
Party = Tuple[bytes, Optional[Address]]

# The client, the server and the invoke id.
Transaction = Tuple[Party, Party, int]

# The kind of a message and its service choice.
Kind = Tuple[Optional[str], int]

# The PDUs that close the messages of their transaction.
CLOSING = ("simple ack", "error", "reject", "abort")

# Why a message is not joined: segments are missing, the joined octets are no service, the frame is too long for a record.
INCOMPLETE, REFUSED, TOO_LONG = "incomplete", "refused", "too long"

# How many whole messages are remembered, at most. A segment of theirs that is sent again comes within seconds, and a
# capture may have any number of them.
REMEMBERED = 4096


class Message:
    """A message of which segments came."""

    def __init__(self, transaction: Transaction, kind: Kind) -> None:
        self.transaction, self.kind = transaction, kind
        # The first frame that came with each sequence number.
        self.frames: Dict[int, bytes] = {}
        # What came and is not passed on, each frame after its number among all records.
        self.waiting: List[Tuple[int, bytes]] = []
        self.is_whole = self.is_joined = False


class Joining:
    """Takes the records of a capture, one after the other, and says what is passed on. Each of them is, by itself or
    within a frame in one piece."""

    def __init__(self, tool: Bactool) -> None:
        self._tool, self._count = tool, 0
        self._messages: Dict[Transaction, Dict[Kind, Message]] = {}
        # The segments of closed messages that are not whole, each after its number.
        self._left: List[Tuple[int, bytes]] = []
        self._remembered: Deque[Message] = deque()
        # How many messages are joined, and how many are not, by the reason.
        self.joined = 0
        self.unjoined: Dict[str, int] = Counter()
        # Whether a record, or the joined octets of a message, are refused.
        self.is_refused = False

    def take(self, octets: bytes, ends: Ends) -> List[bytes]:
        """Takes the next record. Returns what is passed on."""
        self._count += 1
        head = self._tool.head(octets)
        if head.refused is not None:
            self.is_refused = True
        elif head.segmented:
            return self._take_segment(octets, head, ends)
        elif head.pdu in CLOSING:
            for message in self._messages.pop(transaction_of(head, ends), {}).values():
                self._close(message)
        return [octets]

    def rest(self) -> List[bytes]:
        """Returns the segments of all messages that are not whole, in the order in which they came. No record is taken
        after this."""
        for messages in self._messages.values():
            for message in messages.values():
                self._close(message)
        return [octets for _, octets in sorted(self._left)]

    def report(self) -> str:
        """Says how many messages are not joined."""
        unjoined = sum(self.unjoined.values())
        reasons = ", ".join(f"{count} {why}" for why, count in sorted(self.unjoined.items()))
        return f"{unjoined} of {self.joined + unjoined} messages in segments not joined: {reasons}"

    def _take_segment(self, octets: bytes, head: Head, ends: Ends) -> List[bytes]:
        """Takes a segment, into the message that is there for it or into a new one."""
        transaction, kind = transaction_of(head, ends), (head.pdu, head.choice)
        messages = self._messages.setdefault(transaction, {})
        if kind in messages:
            message = messages[kind]
            begins_another = message.is_whole and head.sequence == 0
            passed_on = None if begins_another else self._added(message, octets, head.sequence)
            if passed_on is not None:
                return passed_on
            self._close(message)
        message = messages[kind] = Message(transaction, kind)
        passed_on = self._added(message, octets, head.sequence)
        if passed_on is None:
            # It is number 255 and says that others follow, so it is of no message that can be whole.
            self._forget(message)
            message.waiting.append((self._count, octets))
            self._close(message)
        return passed_on or []

    def _added(self, message: Message, octets: bytes, sequence: int) -> Optional[List[bytes]]:
        """Adds a segment to a message. Returns what is passed on, or None if it contradicts those before it."""
        whole, fault = b"", ""
        try:
            whole = self._tool.join([*message.frames.values(), octets])
            fault = TOO_LONG if len(whole) > LONGEST else ""
        except WrongFrame:
            return None
        except MissingSegment:
            fault = INCOMPLETE
        except RefusedService:
            fault = REFUSED
        if message.is_whole:
            # It came before, and was passed on within the frame in one piece or by itself.
            return [] if message.is_joined else [octets]
        message.frames.setdefault(sequence, octets)
        message.waiting.append((self._count, octets))
        if fault == INCOMPLETE:
            return []
        message.is_whole = True
        self._remember(message)
        waiting, message.waiting = message.waiting, []
        if fault:
            self.unjoined[fault] += 1
            self.is_refused |= fault == REFUSED
            return [octets for _, octets in waiting]
        message.is_joined = True
        self.joined += 1
        return [whole]

    def _close(self, message: Message) -> None:
        """Leaves the segments of a message for the end, if it is not whole."""
        if not message.is_whole:
            self.unjoined[INCOMPLETE] += 1
            self._left += message.waiting

    def _remember(self, message: Message) -> None:
        """Keeps a whole message, and forgets the oldest one if there are too many."""
        self._remembered.append(message)
        if len(self._remembered) > REMEMBERED:
            self._forget(self._remembered.popleft())

    def _forget(self, message: Message) -> None:
        """Forgets a message, if another one has not its place already."""
        messages = self._messages.get(message.transaction, {})
        if messages.get(message.kind) is message:
            del messages[message.kind]
            if not messages:
                del self._messages[message.transaction]


def transaction_of(head: Head, ends: Ends) -> Transaction:
    """Returns the transaction of a segment, or of a PDU that closes one."""
    sender, receiver = (ends[0], head.source), (ends[1], head.destination)
    is_of_client = head.pdu == "confirmed" or (head.pdu == "abort" and not head.server)
    return (sender, receiver, head.invoke) if is_of_client else (receiver, sender, head.invoke)
