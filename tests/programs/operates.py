#!/usr/bin/env python3
"""operates.py COMMANDS CONNECTIONS: a master of another make, which operates the outputs of `dnp outstation --forever` so often
over one connection, and then as often again over so many. Each command is answered by itself with SUCCESS, at last the binary
outputs show what the last commands left them in, and the memory of the station stands still. Prints a line 'ok CASE' or
'FAILED CASE' for each case."""
import os
import socket
import struct
import subprocess
import sys
import tempfile
import time
from pathlib import Path

from network import DNP, free_port, is_listening, kilobytes

OUTSTATION, MASTER = 10, 2
OUTPUTS, SETPOINTS = 6, 3
LANES = "[" + ", ".join(["2"] * 9) + "]"
PLAN = f"""confirm_ms = 5000
response_ms = 10000
select_ms = 300
retries = 0
unsolicited = false
queue = {LANES}
queue2 = {LANES}
[[substation]]
lanes = {LANES}
binary = []
counter = []
analog = []
deadband = []
outputs = {OUTPUTS}
setpoints = {SETPOINTS}
base = [0, 0, 0, 0, 0]
"""
# so many requests are on their way at once; so many requests, and connections, come before the memory is looked at first
ROUND, FIRST, FIRST_CONNECTIONS = 16, 512, 100
# how far the resident memory may grow, in kilobytes: 100,000 commands would be 1,600
KILOBYTES = kilobytes(256)
LATCH_ON, LATCH_OFF = 3, 4


def check(octets):
    """The check word: the polynomial of the data link layer, low bits first, complemented."""
    word = 0
    for octet in octets:
        word ^= octet
        for _ in range(8):
            word = word >> 1 ^ (0xA6BC if word & 1 else 0)
    return struct.pack("<H", word ^ 0xFFFF)


def frame(control, to, of, user):
    header = struct.pack("<BBBBHH", 0x05, 0x64, 5 + len(user), control, to, of)
    blocks = [user[k : k + 16] for k in range(0, len(user), 16)]
    return b"".join(block + check(block) for block in [header, *blocks])


def commands(number):
    """The objects of the request of this number: eight commands, to binary outputs or to setpoints."""
    if number % 4 == 3:
        return bytes([41, 1, 0x28, 8, 0]) + b"".join(struct.pack("<HiB", k % SETPOINTS, number - k, 0) for k in range(8))
    code = LATCH_OFF if number % 3 == 0 else LATCH_ON
    return bytes([12, 1, 0x28, 8, 0]) + b"".join(struct.pack("<HBBIIB", (number + k) % OUTPUTS, code, 1, 0, 0, 0) for k in range(8))


# A request and its answer have one number each, by which the segments and the fragments are numbered too.
REQUESTS = [frame(0xC4, OUTSTATION, MASTER, bytes([0xC0 | n, 0xC0 | n % 16, 5]) + commands(n)) for n in range(64)]
ANSWERS = [frame(0x44, MASTER, OUTSTATION, bytes([0xC0 | n, 0xC0 | n % 16, 0x81, 0x80, 0]) + commands(n)) for n in range(64)]


def whole(stream, count):
    octets = b""
    while len(octets) < count:
        piece = stream.recv(count - len(octets))
        if not piece:
            raise ValueError("the connection ended")
        octets += piece
    return octets


class Station:
    """`dnp outstation`, which serves for ever."""

    def __init__(self, room):
        self.port = free_port()
        plan = Path(room) / "plan.toml"
        plan.write_text(PLAN, encoding="ascii")
        words = [DNP, "outstation", "--plan", plan, "--station", "0", "--port", str(self.port), "--forever"]
        self.program = subprocess.Popen(words, stdin=subprocess.DEVNULL, stdout=subprocess.DEVNULL, stderr=subprocess.DEVNULL)
        while not is_listening(self.port):
            if self.program.poll() is not None:
                raise ValueError("it did not begin")
            time.sleep(0.01)

    def memory(self):
        """Its resident memory, in kilobytes."""
        with open(f"/proc/{self.program.pid}/status", encoding="ascii") as status:
            return next(int(line.split()[1]) for line in status if line.startswith("VmRSS"))

    def connect(self):
        stream = socket.create_connection(("127.0.0.1", self.port), timeout=20)
        stream.setsockopt(socket.IPPROTO_TCP, socket.TCP_NODELAY, 1)
        return stream

    def operate(self, stream, first, count):
        """So many requests, from a number on: each is answered as it has to be."""
        for begin in range(first, first + count, ROUND):
            numbers = [n % 64 for n in range(begin, min(begin + ROUND, first + count))]
            stream.sendall(b"".join(REQUESTS[n] for n in numbers))
            wanted = b"".join(ANSWERS[n] for n in numbers)
            came = whole(stream, len(wanted))
            if came != wanted:
                raise ValueError(f"request {begin} and on: wanted {wanted.hex(' ')}, and came {came.hex(' ')}")

    def shown(self):
        """The flags that the binary outputs show, by a READ on a new connection."""
        with self.connect() as stream:
            stream.sendall(frame(0xC4, OUTSTATION, MASTER, bytes([0xC0, 0xC0, 1, 10, 2, 6])))
            blocks = whole(stream, len(frame(0x44, MASTER, OUTSTATION, bytes(5 + 7 + OUTPUTS))))[10:]
        user = b"".join(blocks[k : k + 18][:-2] for k in range(0, len(blocks), 18))
        return list(user[-OUTPUTS:])


def left_by(numbers):
    """The flags that binary outputs show after the requests of these numbers."""
    flags = [0x01] * OUTPUTS
    for number in numbers:
        if number % 4 != 3:
            for k in range(8):
                flags[(number + k) % OUTPUTS] = 0x01 if number % 3 == 0 else 0x81
    return flags


def judge(name, fault):
    print(f"FAILED {name}\n    {fault}" if fault else f"ok {name}")
    return not fault


def over_one(station, requests):
    """Operates over one connection, and tells what was wrong."""
    with station.connect() as stream:
        station.operate(stream, 0, FIRST)
        before = station.memory()
        station.operate(stream, FIRST, requests)
        after = station.memory()
    return f"{before} kB of memory, then {after}" if after > before + KILOBYTES else ""


def over_many(station, requests, connections):
    """Operates over so many connections, and tells what was wrong."""
    each = max(requests // connections, 1)
    for number in range(FIRST_CONNECTIONS + connections):
        if number == FIRST_CONNECTIONS:
            before = station.memory()
        with station.connect() as stream:
            station.operate(stream, 0, each)
    after = station.memory()
    return f"{before} kB of memory, then {after}" if after > before + KILOBYTES else ""


def tried(what, *words):
    try:
        return what(*words)
    except (OSError, ValueError) as fault:
        return repr(fault)


def main():
    wanted, connections = (int(word) for word in sys.argv[1:])
    requests = wanted // 8
    with tempfile.TemporaryDirectory() as room:
        station = Station(room)
        good = judge("operates-over-one-connection", tried(over_one, station, requests))
        good = judge("operates-over-many-connections", tried(over_many, station, requests, connections)) and good
        last = left_by(n % 64 for n in range(max(requests // connections, 1)))
        shown = tried(station.shown)
        good = judge("shows-what-was-operated-last", "" if shown == last else f"wanted {last}, and came {shown}") and good
        station.program.kill()
        station.program.wait()
    return 0 if good else 1


if __name__ == "__main__":
    sys.exit(main())
