"""Hostile packets for `dnp decode --pcap`: captures of both forms and of all link types that are read, whose packets and blocks lie of
their sizes, are cut, or are noise, with packets of one well-formed connection in between. All that this connection carries has to be
decoded as it is without the others, and a capture that ends in a packet is told so. A case is a packet or a block."""
import json
import re
import struct

import decoding
import wire
from program import DONE, REFUSED, ran

ETHERNET, RAW, NULL, COOKED, COOKED_TWO, OTHER = 1, 101, 0, 113, 276, 147
TCP, UDP = 6, 17
# the well-formed connection, and the others'
OWN, PEER = bytes([192, 0, 2, 1]), bytes([192, 0, 2, 2])
STRANGER, STRANGERS = bytes([198, 51, 100, 1]), 40
LINE = re.compile(r"(\d+) (.*)")
REFUSALS = re.compile(r" (?:refused: |skipped: )")
ENDS = "packet refused: the capture ends in it"


def inside(link, packet):
    """What a packet of IP is in a capture of this link type."""
    return {ETHERNET: bytes(12) + b"\x08\0", RAW: b"", NULL: b"\x02\0\0\0", COOKED: bytes(14) + b"\x08\0", COOKED_TWO: b"\x08\0" + bytes(18)}[link] + packet


def version_four(protocol, source, dest, body):
    return struct.pack(">BBHHHBBH", 0x45, 0, 20 + len(body), 0, 0, 64, protocol, 0) + source + dest + body


def tcp(source, dest, sequence, body):
    return struct.pack(">HHIIBBHHH", source, dest, sequence, 0, 5 << 4, 0x18, 0, 0, 0) + body


def udp(source, dest, body):
    return struct.pack(">HHHH", source, dest, 8 + len(body), 0) + body


def lying(r, link, unit):
    """A packet that is cut, lies of something, or is noise; it is of none of the well-formed connection's addresses."""
    how = r.random()
    if how < 0.15:
        return r.randbytes(r.randrange(80))
    port = r.randrange(STRANGERS)
    body = udp(port, 20_000, unit) if r.random() < 0.2 else tcp(port, 20_000, r.choice((0, 1, r.randrange(1 << 32))), unit)
    packet = bytearray(version_four(r.choice((TCP, TCP, UDP, 1)), STRANGER, PEER, body))
    if how < 0.35:
        # (all but the addresses)
        packet[r.choice((0, 1, 2, 3, 4, 5, 6, 7, 8, 9))] = r.choice((0, 0xFF, 0x45, 0x4F, 0x60, r.randrange(256)))
    elif how < 0.55:
        packet[r.randrange(20, min(40, len(packet)))] = r.choice((0, 0xFF, r.randrange(256)))
    elif how < 0.65:
        packet = struct.pack(">IHBB", 6 << 28, r.choice((0, len(body), 65_535)), r.choice((TCP, UDP, 0)), 64) + bytes(15) + b"\x01" + bytes(15) + b"\x02" + body
    whole = inside(link, bytes(packet))
    if 0.65 <= how < 0.75:
        # (a tag of a virtual network, or another type)
        place = {ETHERNET: 12, COOKED: 14, COOKED_TWO: 0}.get(link)
        if place is not None:
            tags = r.choice((b"\x81\0", b"\x88\xA8", b"\x86\xDD", b"\x08\x06", r.randbytes(2)))
            whole = whole[:place] + tags + r.randbytes(r.choice((0, 2))) + whole[place + 2 * r.randrange(2) :]
    return whole[: r.randrange(len(whole))] if how > 0.85 else whole


class Capture:
    """A capture of one form, packet after packet."""

    def __init__(self, r, newer, link):
        self.r, self.newer, self.link, self.order, self.packets = r, newer, link, r.choice("<>"), 0
        if newer:
            self.octets = self.section()
        else:
            self.octets = struct.pack(self.order + "IHHiIII", r.choice((0xA1B2C3D4, 0xA1B23C4D)), 2, 4, 0, 0, 65_535, link)

    def block(self, kind, body, size=None, end=None):
        """A block, which may lie of its size."""
        body += bytes(-len(body) % 4)
        whole = 12 + len(body)
        return struct.pack(self.order + "II", kind, whole if size is None else size) + body + struct.pack(self.order + "I", whole if end is None else end)

    def section(self):
        """A section's header and its interfaces: that of the link type, and one that isn't read."""
        head = struct.pack(self.order + "IHHq", 0x1A2B3C4D, 1, 0, -1)
        return self.block(0x0A0D0D0A, head) + self.block(1, struct.pack(self.order + "HHI", self.link, 0, 65_535)) + self.block(1, struct.pack(
            self.order + "HHI", OTHER, 0, 65_535))

    def add(self, packet, interface=0):
        """Adds a packet, and answers its number."""
        self.packets += 1
        if not self.newer:
            self.octets += struct.pack(self.order + "IIII", 0, 0, len(packet), len(packet)) + packet
        else:
            kind = self.r.choice((6, 6, 2, 3)) if interface == 0 else self.r.choice((6, 2))
            body = {6: struct.pack(self.order + "IQII", interface, 0, len(packet), len(packet)), 2: struct.pack(self.order + "HHQII", interface, 0, 0, len(packet), len(packet)),
                    3: struct.pack(self.order + "I", len(packet))}[kind]
            self.octets += self.block(kind, body + packet)
        return self.packets

    def add_block(self):
        """Adds a block without a packet, or begins another section, in an order of its own."""
        if self.r.random() < 0.1:
            self.order = self.r.choice("<>")
            self.octets += self.section()
        else:
            self.octets += self.block(self.r.choice((4, 5, 0xBAD, 0x40000BAD, self.r.randrange(7, 1 << 31))), self.r.randbytes(self.r.randrange(40)))

    def add_end(self, packet):
        """Adds what no capture goes on behind: a packet or a block that is cut, or whose sizes contradict each other."""
        if not self.newer:
            whole = struct.pack(self.order + "IIII", 0, 0, len(packet) + 1, len(packet) + 1) + packet
            self.octets += whole[: self.r.randrange(1, len(whole))]
            return
        body = struct.pack(self.order + "IQII", 0, 0, len(packet), len(packet)) + packet
        whole = 12 + len(body) + -len(body) % 4
        self.octets += self.r.choice((
            lambda: self.block(6, body)[: self.r.randrange(1, whole)],
            lambda: self.block(6, body, size=self.r.choice((0, 4, 11, whole + 1, whole + 4, whole - 1, 1 << 31, (1 << 32) - 1))),
            lambda: self.block(6, body, end=self.r.choice((0, whole + 1, whole + 4, whole - 4))),
            lambda: self.block(6, struct.pack(self.order + "IQII", 0, 0, self.r.choice((whole, 1 << 31, (1 << 32) - 1)), 0) + packet),
            lambda: self.block(0x0A0D0D0A, struct.pack(self.order + "IHHq", 0x1A2B3C4E, 1, 0, -1))))()


def told(run, numbers):
    """The lines of the packets with these numbers, each with the place of its number, and all other lines."""
    own, others = [], []
    for line in run.out.split("\n")[:-1]:
        found = LINE.fullmatch(line)
        if not found:
            raise run.broken(f"a line has no number: {line!r}")
        number = int(found[1])
        if number in numbers:
            own.append((numbers[number], found[2]))
        else:
            others.append((number, found[2]))
    return own, others


def tried(r, size, room, bounded):
    """Tries so many cases."""
    newer, link = r.random() < 0.6, r.choice((ETHERNET, RAW, NULL, COOKED, COOKED_TWO))
    mixed, alone = Capture(r, newer, link), Capture(r, newer, link)
    places, apart, waiting, sequence = {}, {}, [], 1
    for _ in range(size):
        if r.random() < 0.2:
            waiting = waiting or decoding.well_formed(r)
            packet = inside(link, version_four(TCP, OWN, PEER, tcp(20_000, 4_000, sequence, waiting[0])))
            sequence = (sequence + len(waiting[0])) % (1 << 32)
            waiting = waiting[1:]
            places[mixed.add(packet)] = len(apart)
            apart[alone.add(packet)] = len(apart)
        if newer and r.random() < 0.1:
            mixed.add_block()
        else:
            unit = decoding.hostile(r, [wire.frame(0xC4, 10, 1, b"\xC0\xC0\x17")])
            mixed.add(lying(r, link, unit), r.choice((0, 0, 0, 1, 7)) if newer else 0)
    ends = r.random() < 0.8
    if ends:
        mixed.add_end(r.randbytes(r.randrange(60)))
    (room / "alone.pcap").write_bytes(alone.octets)
    (room / "mixed.pcap").write_bytes(mixed.octets)
    wanted, rest = told(ran("decode", "--pcap", "alone.pcap", room=room).ends(DONE), apart)
    run = ran("decode", "--pcap", "mixed.pcap", room=room).ends(DONE, REFUSED)
    run.given["capture"] = mixed.octets
    own, others = told(run, places)
    if own != wanted or rest:
        raise run.broken(f"the well-formed connection is decoded as {own}, and without the others as {wanted}")
    if ((mixed.packets + 1, ENDS) in others) != ends or sum(line == ENDS for _, line in others) > 1:
        raise run.broken(f"{others[-1:]} is told of the end, which {'is' if ends else 'is not'} in a packet")
    for number, line in others:
        if line != ENDS and not decoding.BELOW.fullmatch(line) and not decoding.LINKED.fullmatch(line):
            raise run.broken(f"a line has another form: {line!r}")
    if (run.status == REFUSED) != any(REFUSALS.search(" " + line) for _, line in others) or run.err:
        raise run.broken(f"status {run.status}, and {run.err!r}")
    if bounded and run.kilobytes > decoding.OWN + 10 * decoding.EACH * len(mixed.octets):
        raise run.broken(f"{run.kilobytes} kilobytes of memory for {len(mixed.octets)} octets")
    if r.random() < 0.1:
        again = ran("decode", "--json", "--pcap", "mixed.pcap", room=room).ends(run.status)
        if not {json.loads(line)["layer"] for line in again.out.split("\n")[:-1]} <= decoding.LAYERS | {"frame", "packet"}:
            raise again.broken("other objects are printed")
    return size
