#!/usr/bin/env python3
"""A DNP3 outstation, made from the tables of IEEE Std 1815-2012, that shares nothing with the program that polls it.

    substation.py PORT STATION EVENTS LOG

It serves connections of the master 2 one by one as substation STATION, and says on standard error when it listens.
Before each READ its analog 0 changes EVENTS times, to each value once: 1, 2, 3 and so on. An event goes once it was
confirmed. Its one output takes each command, and its setpoint too. LOG gets a line 'value V' before the response to a
READ, V being the last value, 'gone V' where events up to that value were confirmed, and 'operated N' for each
command, N being its on-time or its value. With EVENTS 'none' it has no event, with 'silent' it answers nothing, with
'noise' it answers octets that are no frame, without an end, and with 'stranger' events of a point that is not
planned.

Other words for EVENTS have it answer a READ so: 'float' by a value that the profile lacks, 'floats' by the same at another place each time, 'odd' by a qualifier that no object has,
'classless' by an event of the analog 1, 'elsewhere' from the link address 99, 'numbered' with the next sequence number but one, 'later' without
FIR, 'leaving' by the end of the connection; 'refusing' refuses the first two, and 'overflown' has lost events until then. Or a command: 'select-4' and 'operate-6' by that status, a
'select-odd' and an 'operate-odd' without it, a 'select-none' and an 'operate-none' not at all.
"""
import socket
import struct
import sys
import time

MASTER, PAGE = 2, 200
WORDS = {3: "select", 4: "operate"}
# what follows the function of a response to the READ of this number, by the word for EVENTS: IIN and objects
READS = {
    "float": lambda _: b"\0\0" + struct.pack("<BBBBBBf", 30, 5, 0, 0, 0, 1, 1.5),
    "floats": lambda number: b"\0\0" + number % 2 * struct.pack("<BBBBBBi", 30, 1, 0, 0, 0, 1, 5) + struct.pack("<BBBBBBf", 30, 5, 0, 0, 0, 1, 1.5),
    "odd": lambda _: b"\0\0" + bytes([30, 1, 0x5B, 0]),
    "classless": lambda _: b"\0\0" + struct.pack("<BBBHHBi", 32, 1, 0x28, 1, 1, 1, 5),
    "elsewhere": lambda _: b"\0\0",
    "numbered": lambda _: b"\0\0",
    "later": lambda _: b"\0\0",
    "leaving": lambda _: None,
    "refusing": lambda number: bytes([0, 2 if number <= 2 else 0]),
    "overflown": lambda number: bytes([0, 8 if number <= 2 else 0]),
}


def check(octets):
    """The check word: the polynomial of the data link layer, low bits first, complemented."""
    word = 0
    for octet in octets:
        word ^= octet
        for _ in range(8):
            word = word >> 1 ^ (0xA6BC if word & 1 else 0)
    return struct.pack("<H", word ^ 0xFFFF)


class Ended(Exception):
    """The connection has ended."""


class Substation:
    def __init__(self, station, events, log):
        self.address, self.kind, self.log = 10 + station, events, open(log, "a", encoding="ascii")
        self.own, self.reads = self.address, 0
        self.each = int(events) if events.isdigit() else 2 if events == "stranger" else 0
        self.value = 0
        self.waiting = []

    def note(self, line):
        self.log.write(line + "\n")
        self.log.flush()

    def serve(self, stream):
        self.stream, self.kept, self.number, self.offered, self.left = stream, b"", 0, [], []
        if self.kind == "noise":
            while True:
                self.stream.sendall(b"\x05\x64\x00noise without an end")
                time.sleep(0.02)
        while True:
            fragment = self.fragment()
            if self.kind != "silent":
                self.answer(fragment)

    def read(self, count):
        while len(self.kept) < count:
            piece = self.stream.recv(65536)
            if not piece:
                raise Ended
            self.kept += piece
        octets, self.kept = self.kept[:count], self.kept[count:]
        return octets

    def fragment(self):
        fragment, last = b"", False
        while not last:
            header = self.read(10)
            start, length, control, to, of = struct.unpack("<HBBHH", header[:8])
            assert (start, to, of, control) == (0x6405, self.address, MASTER, 0xC4), header.hex(" ")
            user, left = b"", length - 5
            while len(user) < left:
                size = min(16, left - len(user))
                block = self.read(size + 2)
                assert check(block[:-2]) == block[-2:], block.hex(" ")
                user += block[:-2]
            last = user[0] & 0x80
            fragment += user[1:]
        return fragment

    def send(self, fragment):
        pieces = [fragment[k : k + 249] for k in range(0, len(fragment), 249)]
        octets = b""
        for k, piece in enumerate(pieces):
            user = bytes([(k == len(pieces) - 1) << 7 | (k == 0) << 6 | self.number]) + piece
            self.number = (self.number + 1) % 64
            header = struct.pack("<HBBHH", 0x6405, 5 + len(user), 0x44, MASTER, self.address)
            blocks = [user[k : k + 16] for k in range(0, len(user), 16)]
            octets += b"".join(block + check(block) for block in [header, *blocks])
        self.stream.sendall(octets)

    def answer(self, fragment):
        control, function = fragment[0], fragment[1]
        if function == 1 and self.kind in READS:
            if self.kind == "elsewhere":
                self.address = 99
            self.reads += 1
            answered = READS[self.kind](self.reads)
            if answered is None:
                raise Ended
            number = control + 2 if self.kind == "numbered" else control
            self.send(bytes([(0x40 if self.kind == "later" else 0xC0) | number % 16, 0x81]) + answered)
            self.address = self.own
        elif function in (3, 4) and self.kind.split("-")[0] == WORDS[function]:
            how = self.kind.split("-")[1]
            if how != "none":
                self.send(bytes([0xC0 | control % 16, 0x81, 0, 0]) + (fragment[2:-1] + bytes([int(how)]) if how != "odd" else b""))
        elif function == 0:
            if self.offered:
                self.note(f"gone {self.offered[-1]}")
            del self.waiting[: len(self.offered)]
            self.offered = []
            if self.left:
                self.offer((control + 1) % 16, False)
        elif function == 1:
            for _ in range(self.each):
                self.value += 1
                self.waiting.append(self.value)
            self.note(f"value {self.value}")
            self.left = list(self.waiting)
            self.offer(control % 16, True)
        elif function in (3, 4):
            # one command: header of five octets, index of two, object with its status at the end
            if function == 4:
                group, octets = fragment[2], fragment[9:]
                self.note(f"operated {struct.unpack('<I', octets[2:6])[0] if group == 12 else int.from_bytes(octets[:-1], 'little', signed=True)}")
            self.send(bytes([0xC0 | control % 16, 0x81, 0, 0]) + fragment[2:])
        else:
            self.send(bytes([0xC0 | control % 16, 0x81, 0, 0]))

    def offer(self, sequence, first):
        """The next events of a READ's response, as 32.1 with indices of two octets."""
        self.offered, self.left = self.left[:PAGE], self.left[PAGE:]
        point = 7 if self.kind == "stranger" else 0
        head = 0x80 * first | 0x40 * (not self.left) | 0x20 * bool(self.offered) | sequence
        octets = bytes([head, 0x81, 0, 0])
        if self.offered:
            octets += struct.pack("<BBBH", 32, 1, 0x28, len(self.offered))
            octets += b"".join(struct.pack("<HBi", point, 1, value) for value in self.offered)
        self.send(octets)


def main():
    port, station, events, log = sys.argv[1:]
    substation = Substation(int(station), events, log)
    listener = socket.socket()
    listener.setsockopt(socket.SOL_SOCKET, socket.SO_REUSEADDR, 1)
    listener.bind(("127.0.0.1", int(port)))
    listener.listen()
    print(f"listening on 127.0.0.1:{port} as {substation.address} for master {MASTER}", file=sys.stderr, flush=True)
    while True:
        stream, _ = listener.accept()
        stream.setsockopt(socket.IPPROTO_TCP, socket.TCP_NODELAY, 1)
        try:
            substation.serve(stream)
        except (Ended, OSError):
            pass
        stream.close()


main()
