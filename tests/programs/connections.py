#!/usr/bin/env python3
"""connections.py CONNECTIONS OCTETS: a master of another make, which connects to `dnp outstation --forever` so often, one
connection after the other, and asks for the link's status or for the outputs on each, which has to be answered; and then sends so
many hostile octets, spoilt frames, mutated requests and noise with whole requests between them, over ten connections, of which
the last request of each has to be answered. The memory of the station may not grow: from the 1,000th connection on, or the first
quarter of them, and after the first of the ten. Prints a line 'ok CASE' or 'FAILED CASE' for each case."""
import random
import socket
import sys
import tempfile
import threading
import time
from pathlib import Path

from network import kilobytes
from operates import MASTER, OUTPUTS, OUTSTATION, Station, frame, judge, tried, whole

sys.path.insert(0, str(Path(__file__).resolve().parents[1] / "hostile"))
sys.dont_write_bytecode = True
import serving  # noqa: E402

# how far the resident memory may grow, in kilobytes, and after how many connections at most it is looked at first
KILOBYTES, FIRST = kilobytes(1024), 1000
SLAB, CONNECTIONS = 100_000, 10
STATUS, IS_STATUS = frame(0xC9, OUTSTATION, MASTER, b""), frame(0x0B, MASTER, OUTSTATION, b"")
# a READ of all binary outputs, which are off until somebody operates them
READ = frame(0xC4, OUTSTATION, MASTER, bytes([0xC0, 0xC0, 1, 10, 2, 6]))
SHOWN = frame(0x44, MASTER, OUTSTATION, bytes([0xC0, 0xC0, 0x81, 0x80, 0, 10, 2, 1, 0, 0, OUTPUTS - 1, 0]) + b"\x01" * OUTPUTS)


def over_connections(station, connections):
    """Asks on so many connections, one after the other, and tells what was wrong."""
    for number in range(connections):
        if number == min(FIRST, connections // 4):
            before = station.memory()
        with station.connect() as stream:
            asked, answer = (STATUS, IS_STATUS) if number % 2 else (READ, SHOWN)
            stream.sendall(asked)
            came = whole(stream, len(answer))
            if came != answer:
                return f"connection {number}: wanted {answer.hex(' ')}, and came {came.hex(' ')}"
    after = station.memory()
    return f"{before} kB of memory, then {after}" if after > before + KILOBYTES else ""


def hostile(seed):
    """Hostile units for the outstation, some of them, and whole ones."""
    chance = random.Random(seed)
    base = [unit for number in range(8) for unit in serving.wire.frames(0xC4, OUTSTATION, MASTER, serving.probes(number)[0], number)]
    return [serving.hostile(chance, base, OUTSTATION, MASTER, serving.wire.fragment) for _ in range(20_000)], chance


def slab(units, chance):
    """So many octets of them, in an order of their own, with a whole request after each hundredth. At the end stands what no
    frame can outlast, and then the request for the link's status."""
    octets, number = bytearray(), 0
    while len(octets) < SLAB:
        octets += chance.choice(units)
        number += 1
        if number % 100 == 0:
            octets += STATUS + READ
    return bytes(octets) + bytes(300) + STATUS


def drained(stream, found):
    """Reads all that comes, and keeps the end of it."""
    try:
        while octets := stream.recv(1 << 16):
            found[0] = (found[0] + octets)[-len(IS_STATUS) :]
    except OSError as fault:
        found[1] = repr(fault)


def under_hostile_octets(station, wanted):
    """Sends so many octets over some connections, one after the other, and tells what was wrong."""
    units, chance = hostile(1)
    before = None
    for number in range(CONNECTIONS):
        stream, found = station.connect(), [b"", ""]
        reader = threading.Thread(target=drained, args=(stream, found))
        reader.start()
        for _ in range(max(wanted // CONNECTIONS // SLAB, 1)):
            stream.sendall(slab(units, chance))
        stream.shutdown(socket.SHUT_WR)
        reader.join(120)
        stream.close()
        if found != [IS_STATUS, ""]:
            return f"connection {number}: the last request was not answered, but {found[0].hex(' ')} came, {found[1]}"
        before = before or station.memory()
    after = station.memory()
    return f"{before} kB of memory, then {after}" if after > before + KILOBYTES else ""


def main():
    connections, octets = (int(word) for word in sys.argv[1:])
    with tempfile.TemporaryDirectory() as room:
        station, good = Station(room), True
        try:
            for name, case, count in (("connections", over_connections, connections), ("hostile-octets", under_hostile_octets, octets)):
                begun, first = time.monotonic(), station.memory()
                fault = tried(case, station, count)
                told = f"in {time.monotonic() - begun:.0f} s, {first} kB of memory and then {station.memory()}"
                good = judge(f"{count}-{name} ({told})", fault) and good
        finally:
            station.program.kill()
            station.program.wait()
    return 0 if good else 1


if __name__ == "__main__":
    sys.exit(main())
