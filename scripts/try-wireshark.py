# SPDX-License-Identifier: Apache-2.0 OR MIT
"""Tries wireshark/bactool.lua in tshark, for scripts/try-wireshark: on every frame of examples/every-kind.frames, on what is
left of each if it is cut, on each with an octet changed, and on the short frames of crates/bac_vectors, in a capture of
BACnet/IP; and on packets of other links, and packets that are cut, damaged or fragments.
  try-wireshark.py make FOLDER                    writes into FOLDER the frame file, the captures, and frames with the
                                                  fields that crates/bac_vectors has of them
  try-wireshark.py compare PROGRAM FOLDER TSHARK  runs TSHARK, a command of some words, on the captures, and compares what
                                                  it shows with what PROGRAM, which is bactool, writes of the frames
"""

import importlib.machinery
import importlib.util
import os
import struct
import subprocess
import sys
import typing
import xml.etree.ElementTree

HERE = os.path.dirname(os.path.abspath(__file__))
EVERY_KIND = os.path.join(HERE, os.pardir, "examples", "every-kind.frames")

ETHERNET, MSTP = 1, 165

# The octets of Ethernet, IPv4 and UDP before a payload.
HEADS = 42


# Wireshark cuts a line of its tree after 240 octets, and valgrind is slow: longer frames are left out.
LONGEST = 100


def load(script):
    """Another helper, as a module."""
    loader = importlib.machinery.SourceFileLoader(script.replace("-", "_"), os.path.join(HERE, script))
    module = importlib.util.module_from_spec(importlib.util.spec_from_loader(loader.name, loader))
    loader.exec_module(module)
    return module


sys.dont_write_bytecode = True
# The first makes examples/site.pcap, and its functions make packets. The second reads the rows of crates/bac_vectors.
site = load("site-capture")
vectors = load("frames-of-rows")


# Frames.


def records_of(octets):
    """The records of a frame file."""
    records, place = [], 0
    while place < len(octets):
        (length,) = struct.unpack_from(">H", octets, place)
        records.append(octets[place + 2 : place + 2 + length])
        place += 2 + length
    return records


# Frames, with the line of each field and the octets that it marks, as section 8.4 of docs/FORMATS.md has them.
MARKS = {
    "0104 0005010C 0C00000005 1955": (
        ("prio=0", "04"), ("reply=1", "04"), ("conf", "00"), ("id=1", "01"), ("sa=0", "00"), ("segs=0", "05"),
        ("resp=5", "05"), ("ReadProperty", "0C"), ("object=0:5", "0C00000005"), ("property=85", "1955"),
    ),
    "0128 0005 01 0A 0007 02 0102 FF 1008": (
        ("prio=0", "28"), ("reply=0", "28"), ("dest=5/0A", "0005010A"), ("hops=255", "FF"),
        ("src=7/0102", "0007020102"), ("unconf", "10"), ("Who-Is", "08"),
    ),
    "0100 30F10E 0C00000021 1E 2955 4E 444290999A 4F 2967 5E 9102 9120 5F 1F": (
        ("prio=0", "00"), ("reply=0", "00"), ("ack", "30"), ("id=241", "F1"), ("ReadPropertyMultiple", "0E"),
        ("results=(", ""), ("(", ""), ("object=0:33", "0C00000021"), ("results=(", "1E"),
        ("(", ""), ("property=85", "2955"), ("value={", "4E"), ("r:4290999A", "444290999A"), ("}", "4F"), (")", ""),
        ("(", ""), ("property=103", "2967"), ("error=(", "5E"), ("class=2", "9102"), ("code=32", "9120"), (")", "5F"),
        (")", ""), (")", "1F"), (")", ""), (")", ""),
    ),
    # a text with all that ends a part elsewhere
    "0100 30030C 0C00000005 194D 3E 750F00 C3A9202829207B7D205B315D7B20 2E 2101 2F 3F": (
        ("prio=0", "00"), ("reply=0", "00"), ("ack", "30"), ("id=3", "03"), ("ReadProperty", "0C"),
        ("object=0:5", "0C00000005"), ("property=77", "194D"), ("value={", "3E"),
        ('s:"\u00e9 () {} [1]{ "', "750F00C3A9202829207B7D205B315D7B20"), ("[2]{", "2E"), ("u:1", "2101"), ("}", "2F"),
        ("}", "3F"),
    ),
    "0180 01 0002 0003": (
        ("prio=0", "80"), ("reply=0", "80"), ("net type=01", "01"), ("networks=(", ""), ("2", "0002"), ("3", "0003"),
        (")", ""),
    ),
}


def changed(frame, number):
    """The frame with one octet changed, another one from frame to frame."""
    octets = bytearray(frame)
    octets[number * 7 % len(octets)] ^= 1 << number % 8
    return bytes(octets)


def file_of(frames):
    """The frame file of records."""
    return b"".join(struct.pack(">H", len(frame)) + frame for frame in frames)


def frames_to_try():
    with open(EVERY_KIND, "rb") as file:
        frames = records_of(file.read())
    cut = [frame[: number * 5 % len(frame)] for number, frame in enumerate(frames)]
    changes = [changed(frame, number) for number, frame in enumerate(frames)]
    rows = [*vectors.rows("texts.txt", "[text]"), *rows_of_fields()]
    short = [octets for octets, _ in rows if len(octets) <= LONGEST]
    return frames + cut + changes + short + [bytes.fromhex(digits) for digits in MARKS]


def rows_of_fields():
    """The octets of each row of fields, and its words. A front is before the octets of the rows after it."""
    front = ""
    for line in (vectors.DATA / "fields.txt").read_text().splitlines():
        if line.startswith("["):
            front = ""
        elif line.startswith("front: "):
            front = line[len("front: ") :] + " "
        elif " -> " in line and not line.startswith("#"):
            octets, words = line.split(" -> ")
            yield vectors.octets_of(front + octets), words


# Captures.


def write_capture(path, link, packets):
    """A capture of packets, each with the number of octets that it had on the wire, or 0 if that is all of them."""
    with open(path, "wb") as file:
        file.write(struct.pack("<IHHiIII", 0xA1B2C3D4, 2, 4, 0, 0, 262_144, link))
        for packet, length in packets:
            file.write(struct.pack("<IIII", site.START, 0, len(packet), length or len(packet)) + packet)


def udp(payload):
    return site.udp(site.STATION, site.ONE, site.BACNET_PORT, payload)


# BVLL functions with an NPDU: Original-Unicast, Original-Broadcast, Distribute-Broadcast-To-Network, Forwarded-NPDU.
FUNCTIONS = (0x0A, 0x0B, 0x09, 0x04)


def head_of_frame(number):
    """How many octets are before the NPDU of the frame with this number, and its BVLL function."""
    function = FUNCTIONS[number % len(FUNCTIONS)]
    return HEADS + (10 if function == 0x04 else 4), function


def packet_of_frame(number, frame):
    return udp(site.bvll(head_of_frame(number)[1], frame.hex())), 0


WHO_IS = bytes.fromhex("01001008")
READ = bytes.fromhex("0104 0005010C 0C00000005 1955")
PRIORITY_17 = bytes.fromhex("0104 0005020F 0C00400001 1955 3E 4442C80000 3F 4911")
ODD_OCTET = bytes.fromhex("018001 0005 00")


def said_longer(npdu, more, padding=0):
    """A message of BACnet/IP whose length is too large by some octets, or too small, in a packet with padding."""
    message = bytearray(site.bvll(0x0A, npdu.hex()))
    message[3] += more
    return udp(bytes(message)) + bytes(padding)


def cut_short(npdu, missing):
    """A packet of which the last octets were not captured."""
    packet = udp(site.bvll(0x0A, npdu.hex()))
    return packet[:-missing], len(packet)


def bacnet_ipv6(function, rest):
    return udp(struct.pack(">BBH", 0x82, function, 4 + len(rest)) + rest)


def llc(npdu):
    """BACnet on Ethernet (clause 7), padded to 60 octets."""
    packet = bytes(6 * [0xFF]) + bytes.fromhex("020000000005") + struct.pack(">H", 3 + len(npdu))
    return (packet + b"\x82\x82\x03" + npdu).ljust(60, b"\0")


def ipv4(protocol, fragment, payload):
    """An IPv4 packet in Ethernet, with its field of flags and fragment offset."""
    packet = bytearray(udp(b"")[:34] + payload)
    struct.pack_into(">HHH", packet, 16, 20 + len(payload), 7, fragment)
    packet[23] = protocol
    return bytes(packet)


def mstp(frame_type, npdu):
    """An MS/TP frame (clause 9.3), with checksums that are not right, which Wireshark only remarks."""
    return bytes([0x55, 0xFF, frame_type, 5, 4]) + struct.pack(">HB", len(npdu), 0) + npdu + (npdu and b"\0\0")


def tcp(payload, from_server, place, answered):
    """A packet of a TCP connection over IPv4, with both sequence numbers."""
    ports = (80, 40_000) if from_server else (40_000, 80)
    packet = ipv4(6, 0, struct.pack(">HHIIHHHH", *ports, place, answered, 0x5018, 8192, 0, 0) + payload)
    if from_server:
        packet = packet[:26] + packet[30:34] + packet[26:30] + packet[34:]
    return packet, 0


UPGRADE = b"Upgrade: websocket\r\nConnection: Upgrade\r\nSec-WebSocket-Protocol: hub.bsc.bacnet.org\r\n\r\n"
REQUEST = b"GET / HTTP/1.1\r\n" + UPGRADE
ANSWER = b"HTTP/1.1 101 Switching Protocols\r\n" + UPGRADE


def bacnet_sc(npdus):
    """What a hub sends: an Encapsulated-NPDU of BACnet/SC (annex AB), not encrypted, for each NPDU."""
    messages = [bytes.fromhex("01000001") + npdu for npdu in npdus]
    frames = b"".join(bytes([0x82, len(message)]) + message for message in messages)
    return tcp(frames, True, 1 + len(ANSWER), 1 + len(REQUEST))


QUOTED = udp(site.bvll(0x0A, READ.hex()))[14:]
MORE_FRAGMENTS = 0x2000

# Packets, and the verdicts on the NPDUs in each.
OTHERS = {
    "odd": (ETHERNET, (
        # an empty NPDU, one of one octet, and messages without one: a BVLC-Result, a Register-Foreign-Device
        ((udp(site.bvll(0x0A, "")), 0), ["refused Short at 0"]),
        ((udp(site.bvll(0x0A, "01")), 0), ["refused Short at 1"]),
        ((udp(site.bvll(0x00, "0000")), 0), []),
        ((udp(site.bvll(0x05, "003C")), 0), []),
        ((udp(b""), 0), []),
        ((udp(b"\x81"), 0), []),
        # octets after a network message
        ((udp(site.bvll(0x0A, ODD_OCTET.hex())), 0), ["refused Short at 6"]),
        ((udp(site.bvll(0x0A, "018012AABB")), 0), ["refused Trailing at 3"]),
        # a wrong length of BVLL: too large, with padding after it too; too small; none at all
        ((said_longer(READ, 5), 0), ["incomplete after 13 of 18 octets"]),
        ((said_longer(WHO_IS, 5, 10), 0), ["incomplete after 4 of 9 octets"]),
        ((said_longer(PRIORITY_17, 5), 0), ["refused Content at 21"]),
        ((said_longer(READ, -2), 0), ["refused Short at 11"]),
        ((said_longer(READ, -15), 0), []),
        # not captured whole: only what is there is judged
        (cut_short(READ, 4), ["incomplete after 9 of 13 octets"]),
        (cut_short(WHO_IS + bytes(4), 4), ["incomplete after 4 of 8 octets"]),
        (cut_short(PRIORITY_17 + bytes(4), 4), ["refused Content at 21"]),
        (cut_short(READ, 13), ["incomplete after 0 of 13 octets"]),
        (cut_short(READ, 15), []),
        # quoted by ICMP: whole, and cut
        ((ipv4(1, 0, b"\3\3" + bytes(6) + QUOTED), 0), ["canonical"]),
        ((ipv4(1, 0, b"\3\3" + bytes(6) + QUOTED[:36]), 0), ["incomplete after 4 of 13 octets"]),
        # two fragments
        ((ipv4(17, MORE_FRAGMENTS, QUOTED[20:36]), 0), []),
        ((ipv4(17, 2, QUOTED[36:]), 0), ["canonical"]),
        # BACnet/IPv6: unicast, broadcast, forwarded, to be distributed; an address resolution has no NPDU
        ((bacnet_ipv6(0x01, bytes(6) + READ), 0), ["canonical"]),
        ((bacnet_ipv6(0x02, bytes(3) + PRIORITY_17), 0), ["refused Content at 21"]),
        ((bacnet_ipv6(0x08, bytes(21) + READ), 0), ["canonical"]),
        ((bacnet_ipv6(0x0C, bytes(3)), 0), ["refused Short at 0"]),
        ((bacnet_ipv6(0x03, bytes(6)), 0), []),
        # Ethernet
        ((llc(READ), 0), ["canonical"]),
        ((llc(PRIORITY_17), 0), ["refused Content at 21"]),
        ((llc(ODD_OCTET), 0), ["refused Short at 6"]),
        ((llc(READ)[:25], 60), ["incomplete after 8 octets"]),
    )),
    "sc": (ETHERNET, (
        (tcp(REQUEST, False, 1, 1), []),
        (tcp(ANSWER, True, 1, 1 + len(REQUEST)), []),
        (bacnet_sc((READ, PRIORITY_17, ODD_OCTET, WHO_IS)),
         ["canonical", "refused Content at 21", "refused Short at 6", "canonical"]),
    )),
    "mstp": (MSTP, (
        # data that expects a reply, and data that does not; a token, a test request
        ((mstp(5, READ), 0), ["canonical"]),
        ((mstp(6, PRIORITY_17), 0), ["refused Content at 21"]),
        ((mstp(6, b"\1"), 0), ["refused Short at 1"]),
        ((mstp(6, b""), 0), ["refused Short at 0"]),
        ((mstp(5, READ)[:12], 23), ["incomplete after 4 of 13 octets"]),
        ((mstp(0, b""), 0), []),
        ((mstp(3, WHO_IS), 0), []),
    )),
}


def make(folder):
    frames = frames_to_try()
    with open(os.path.join(folder, "frames"), "wb") as file:
        file.write(file_of(frames))
    with open(os.path.join(folder, "fields"), "w", encoding="ascii") as file:
        for octets, words in rows_of_fields():
            if len(octets) <= LONGEST:
                file.write(f"{octets.hex()} {words}\n")
    packets = [packet_of_frame(number, frame) for number, frame in enumerate(frames)]
    write_capture(os.path.join(folder, "frames.pcap"), ETHERNET, packets)
    for name, (link, rows) in OTHERS.items():
        write_capture(os.path.join(folder, name + ".pcap"), link, [packet for packet, _ in rows])


# What tshark shows.


class Faults:
    """Prints and counts faults."""

    def __init__(self):
        self.count = 0

    def wanted(self, what, found, wanted):
        if found != wanted:
            print(f"try-wireshark: {what}: {found!r} in the place of {wanted!r}")
            self.count += 1


def run(command, faults):
    """What a command of tshark prints. An error of Lua is in the packet, and on standard error."""
    done = subprocess.run(command, capture_output=True, check=False)
    faults.wanted(" ".join(command[-4:]), (done.returncode, done.stderr.decode()), (0, ""))
    faults.wanted("errors of Lua in the packets", done.stdout.count(b"Lua Error"), 0)
    return done.stdout.decode()


class Shown:
    """The subtree "bactool" of an NPDU."""

    def __init__(self, subtree):
        self.subtree = subtree
        self.heading = subtree.get("showname").replace("bactool: ", "", 1)
        self.fields = {field.get("name"): field for field in subtree.findall("field")}
        self.lines = subtree.findall(".//field[@name='_ws.lua.text']")

    def show(self, name):
        return self.fields[name].get("show") if name in self.fields else None


def marked(field):
    """The first octet that a field marks, and how many."""
    return int(field.get("pos")), int(field.get("size"))


def shown_of_capture(tshark, folder, name, faults):
    """The subtrees of each packet of a capture. A filter finds the refused ones, also where no subtree is shown."""
    command = tshark + ["-r", os.path.join(folder, name + ".pcap")]
    document = xml.etree.ElementTree.fromstring(run(command + ["-T", "pdml"], faults))
    packets = [[Shown(proto) for proto in packet.findall("proto[@name='bactool']")] for packet in document]
    found = run(command + ["-Y", 'bactool.verdict == "refused"'], faults).split("\n")[:-1]
    refused = [
        number for number, packet in enumerate(packets, 1) if any(shown.show("bactool.why") for shown in packet)
    ]
    faults.wanted(f"{name}.pcap: packets with refused NPDUs", [int(line.split()[0]) for line in found], refused)
    return packets


# What the program says.


class Frame(typing.NamedTuple):
    """A frame, where it begins in its packet, its line of `check`, and what else the program writes of it."""

    number: int
    octets: bytes
    head: int
    check: str
    line: typing.Optional[str]
    canonical: typing.Optional[bytes]

    def offset(self, field):
        """Where the octets that a field marks begin in the frame, and where they end."""
        place, count = marked(field)
        return place - self.head, place - self.head + count


def output_of(program, command, octets):
    return subprocess.run([program, command], input=octets, stdout=subprocess.PIPE, check=False).stdout


def lines_of(program, command, octets):
    """The lines of a command, without the numbers of the records."""
    return [line.partition(" ")[2] for line in output_of(program, command, octets).decode().split("\n")[:-1]]


def frames_of(program, octets):
    """The frames of a frame file."""
    frames = records_of(octets)
    checks, lines = lines_of(program, "check", octets), lines_of(program, "show", octets)
    accepted = [not check.startswith("refused ") for check in checks]
    spellings = output_of(program, "normalise", file_of(frame for frame, good in zip(frames, accepted) if good))
    canonical = iter(records_of(spellings))
    return [
        Frame(number, frame, head_of_frame(number)[0], check, line if good else None, next(canonical) if good else None)
        for number, (frame, check, line, good) in enumerate(zip(frames, checks, lines, accepted))
    ]


# The comparison.


def octets_of_no_field(line):
    """How many octets of a frame belong to no field: the version, and the four tags around the error and the reference
    of a WritePropertyMultiple error (section 8.4 of docs/FORMATS.md)."""
    return 5 if " error id=" in line and " object=" in line else 1


def try_lines(what, shown, frame, faults):
    """The lines of the fields are the parts of the line, and mark all octets that belong to a field."""
    found = "".join(field.get("showname") for field in shown.lines)
    faults.wanted(f"{what}: the lines of its fields", found.replace(" ", ""), frame.line.replace(" ", ""))
    octets = {place for field in shown.lines for place in range(*frame.offset(field))}
    faults.wanted(f"{what}: octets of fields", len(octets), len(frame.octets) - octets_of_no_field(frame.line))


def try_pieces(what, shown, frame, place, faults):
    """The lines of the pieces mark all octets, one after the other, and one begins at the place of a refusal."""
    marks = [frame.offset(field) for field in shown.lines]
    ends = [0, *(end for _, end in marks)]
    faults.wanted(f"{what}: where its pieces begin", [first for first, _ in marks], ends[:-1])
    faults.wanted(f"{what}: where its pieces end", ends[-1], len(frame.octets))
    arrows = [first for field, (first, _) in zip(shown.lines, marks) if field.get("showname").startswith("<- ")]
    faults.wanted(f"{what}: where the arrow is", arrows, [] if place is None else [int(place)])


def try_place(what, shown, frame, place, faults):
    """The octet at the place is marked, or the last one if the frame ends there."""
    if place is not None and frame.octets:
        first = min(int(place), len(frame.octets) - 1)
        faults.wanted(f"{what}: the octet", frame.offset(shown.fields["bactool.place"]), (first, first + 1))


def try_frame(shown, frame, faults):
    what = f"frame {frame.number + 1}"
    wanted = "canonical" if frame.check == "ok" else frame.check
    verdict, _, rest = wanted.partition(" ")
    why, place = rest.split(" at ") if verdict == "refused" else (None, rest[len("at ") :] or None)
    canonical = frame.canonical.hex().upper() if verdict == "tolerated" else None
    faults.wanted(what, shown.heading, wanted)
    faults.wanted(f"{what}: its octets", frame.offset(shown.subtree), (0, len(frame.octets)))
    for name, value in (("verdict", verdict), ("why", why), ("place", place), ("line", frame.line), ("canonical", canonical)):
        faults.wanted(f"{what}: {name}", shown.show("bactool." + name), value)
    try_place(what, shown, frame, place, faults)
    if verdict == "canonical":
        try_lines(what, shown, frame, faults)
    else:
        try_pieces(what, shown, frame, place if verdict == "refused" else None, faults)


def try_frames(program, folder, tshark, faults):
    with open(os.path.join(folder, "frames"), "rb") as file:
        frames = frames_of(program, file.read())
    packets = shown_of_capture(tshark, folder, "frames", faults)
    faults.wanted("subtrees", [len(packet) for packet in packets], [1] * len(frames))
    faults.wanted("verdicts", {frame.check.split(" ")[0] for frame in frames}, {"ok", "tolerated", "refused"})
    shown_of_frames = [shown for packet in packets for shown in packet]
    for shown, frame in zip(shown_of_frames, frames):
        try_frame(shown, frame, faults)
    last = len(frames) - len(MARKS)
    for shown, frame, wanted in zip(shown_of_frames[last:], frames[last:], MARKS.values()):
        found = [
            (field.get("showname"), frame.octets[slice(*frame.offset(field))].hex().upper()) for field in shown.lines
        ]
        faults.wanted(f"frame {frame.number + 1}: what the lines of its fields mark", found, list(wanted))


def try_others(folder, tshark, faults):
    for name, (_, rows) in OTHERS.items():
        found = [[shown.heading for shown in packet] for packet in shown_of_capture(tshark, folder, name, faults)]
        faults.wanted(f"{name}.pcap: packets", len(found), len(rows))
        for number, (headings, (_, wanted)) in enumerate(zip(found, rows)):
            faults.wanted(f"{name}.pcap: packet {number + 1}", headings, wanted)


def compare(program, folder, tshark):
    faults = Faults()
    try_frames(program, folder, tshark, faults)
    try_others(folder, tshark, faults)
    return faults.count


def main():
    if sys.argv[1] == "make":
        make(sys.argv[2])
        return 0
    return 1 if compare(sys.argv[2], sys.argv[3], sys.argv[4:]) else 0


if __name__ == "__main__":
    sys.exit(main())
