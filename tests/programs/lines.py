"""Lines of TCP that fail: each stands at a port of its own before a program, hands on what comes in both directions, and cuts, drops,
delays and splits it while it is told to. And what a master and a substation say on such a line, read off it."""
import collections
import random
import socket
import struct
import sys
import threading
import time
from pathlib import Path

sys.path.insert(0, str(Path(__file__).resolve().parents[1] / "hostile"))
import wire  # noqa: E402

CONFIRM, OPERATES, ASKS, NUMBER = 0, (4, 5, 6), 0x20, 0x1F
# how often what comes at once is cut, dropped in part, delayed or split
CUTS, DROPS, DELAYS, SPLITS = 0.03, 0.04, 0.1, 0.2
# the octets of an event, by its group and variation; its kind, by its group
SIZES = {(2, 1): 1, (2, 2): 7, (2, 3): 3, (22, 1): 5, (22, 5): 11, (32, 1): 5, (32, 3): 11}
KINDS = {2: "binary", 22: "counter", 32: "analog"}


def events_of(fragment):
    """The events of a response: each its kind, its index, its flags, its value and its time."""
    return events_and_end(fragment)[0]


def events_and_end(fragment):
    """The same, and at which octet what is no event begins, or the response ends."""
    found, place, common = [], 4, 0
    while place < len(fragment):
        group, variation, qualifier = fragment[place : place + 3]
        if group == 51:
            common, place = int.from_bytes(fragment[place + 4 : place + 10], "little"), place + 10
            continue
        if (group, variation) not in SIZES:
            break
        size = SIZES[group, variation]
        wide = 2 if qualifier == 0x28 else 1
        count, place = int.from_bytes(fragment[place + 3 : place + 3 + wide], "little"), place + 3 + wide
        for _ in range(count):
            index, row = int.from_bytes(fragment[place : place + wide], "little"), fragment[place + wide : place + wide + size]
            place += wide + size
            flags, value, time_ms = row[0], row[0] >> 7, None
            if group == 2:
                flags &= 0x7F
                if variation > 1:
                    time_ms = int.from_bytes(row[1:], "little") + common * (variation == 3)
            else:
                value = struct.unpack_from("<i" if group == 32 else "<I", row, 1)[0]
                time_ms = int.from_bytes(row[5:], "little") if size == 11 else None
            found.append((KINDS[group], index, flags, value, time_ms))
    return found, place


class Frames:
    """The user data of all frames that stand anywhere in a stream: what any station may read of it, and more rather than less."""

    def __init__(self):
        self.kept = b""

    def fed(self, octets):
        self.kept, found = self.kept + octets, []
        while (place := self.kept.find(b"\x05\x64")) >= 0:
            self.kept = self.kept[place:]
            if len(self.kept) < wire.HEADER:
                return found
            size = wire.size_of(self.kept[2]) if wire.begins(self.kept, 0) and self.kept[2] >= 5 else 0
            if size > len(self.kept):
                return found
            unit = self.kept[:size]
            whole = size and wire.spoilt_block(unit) is None
            if whole and size > wire.HEADER:
                found.append(b"".join(unit[k : k + wire.BLOCK] for k in range(wire.HEADER, size, wire.BLOCK + 2))[: unit[2] - 5])
            self.kept = self.kept[size if whole else 1 :]
        self.kept = self.kept[-1:]
        return found


class Heard:
    """What went between a master and a substation, over all connections of a line: `gone` are the events that the substation
    may have let go, since a confirm of their fragment was sent to it, and `operated` counts the commands by their on-times."""

    def __init__(self):
        self.gone, self.operated = set(), collections.Counter()

    def begun(self):
        """What is read off one connection."""
        return Talk(self)


class Talk:
    def __init__(self, heard):
        self.heard, self.up, self.down, self.fragment, self.awaits = heard, Frames(), Frames(), b"", {}

    def said(self, octets):
        """What came from the substation."""
        for user in self.up.fed(octets):
            self.fragment = user[1:] if user[0] & 0x40 else self.fragment + user[1:]
            if user[0] & 0x80 and len(self.fragment) >= 4 and self.fragment[0] & ASKS:
                self.awaits[self.fragment[0] & NUMBER] = events_of(self.fragment)

    def told(self, octets):
        """What is handed on to the substation."""
        for user in self.down.fed(octets):
            if len(user) >= 3 and user[2] == CONFIRM:
                self.heard.gone.update(self.awaits.get(user[1] & NUMBER, []))
            elif len(user) >= 16 and user[2] in OPERATES:
                # (of one output: a header of five octets, an index of two, and the code and the count before the on-time)
                self.heard.operated[struct.unpack_from("<I", user, 12)[0]] += 1


def ended(pair):
    """Ends both streams of a connection."""
    for end in pair:
        try:
            end.shutdown(socket.SHUT_RDWR)
        except OSError:
            pass


class Line(threading.Thread):
    """A line from a port to another one."""

    def __init__(self, port, target, seed, heard=None):
        super().__init__(daemon=True)
        self.target, self.chance, self.heard = target, random.Random(seed), heard
        self.fails, self.doomed, self.counts = False, False, collections.Counter()
        # the connections that stand, each as its two streams; and what was wrong with what was read off them
        self.standing, self.lock, self.wrong = set(), threading.Lock(), []
        self.listener = socket.create_server(("127.0.0.1", port), backlog=50)
        self.start()

    def run(self):
        while True:
            stream, _ = self.listener.accept()
            try:
                other = socket.create_connection(("127.0.0.1", self.target), timeout=5)
            except OSError:
                stream.close()
                continue
            for end in (stream, other):
                end.settimeout(None)
                end.setsockopt(socket.IPPROTO_TCP, socket.TCP_NODELAY, 1)
            pair, talk = (stream, other), self.heard and self.heard.begun()
            with self.lock:
                self.standing.add(pair)
            for way in ((pair, 0, None, talk and talk.told), (pair, 1, talk and talk.said, None)):
                threading.Thread(target=self.carry, args=way, daemon=True).start()

    def cut(self):
        """Cuts what stands: at once, and without what is on its way."""
        with self.lock:
            standing = list(self.standing)
        for pair in standing:
            self.counts["cut"] += 1
            for end in pair:
                end.setsockopt(socket.SOL_SOCKET, socket.SO_LINGER, struct.pack("ii", 1, 0))
            ended(pair)

    def carry(self, pair, way, came, goes):
        """Hands on what comes on one stream of a connection to the other one, until one of them ends."""
        try:
            while octets := pair[way].recv(1 << 16):
                if came:
                    came(octets)
                for piece in self.pieces(octets):
                    if goes:
                        goes(piece)
                    pair[1 - way].sendall(piece)
        except OSError:
            pass
        except (IndexError, KeyError, ValueError, struct.error) as fault:
            self.wrong.append(f"what came on a line was not understood: {fault!r}")
        ended(pair)
        # (the second of the two ways closes both)
        with self.lock:
            first = pair in self.standing
            self.standing.discard(pair)
        if not first:
            for end in pair:
                end.close()

    def pieces(self, octets):
        """What is handed on of what came at once, bit by bit, whatever happens to it."""
        how = self.chance.random() if self.fails else 1
        if self.doomed or how > 1 - CUTS and self.fails:
            # (in the middle of what came, as a cable that is cut)
            self.doomed = False
            yield octets[: self.chance.randrange(len(octets) + 1)]
            self.cut()
            return
        if how < DROPS:
            self.counts["drop"] += 1
            first = self.chance.choice((0, self.chance.randrange(len(octets))))
            last = self.chance.choice((len(octets), self.chance.randint(first + 1, len(octets))))
            octets = octets[:first] + octets[last:]
        elif how < DROPS + DELAYS:
            self.counts["delay"] += 1
            time.sleep(self.chance.random() ** 2 * 0.5)
        elif how < DROPS + DELAYS + SPLITS:
            self.counts["split"] += 1
            while len(octets) > 1 and self.chance.random() < 0.8:
                size = self.chance.randint(1, min(len(octets), 40))
                yield octets[:size]
                octets = octets[size:]
                time.sleep(self.chance.random() * 0.01)
        if octets:
            yield octets
