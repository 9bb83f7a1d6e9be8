"""What stations of another make stand on, which share nothing with the programs: frames, segments and fragments by the tables of IEEE Std
1815-2012, over one connection at a time. Each is a thread of its own, in a network namespace if one is named, and keeps in `wrong` what no
station may send. peer_substation.py, bad_peers.py and peer_centre.py have the stations."""
import collections
import ctypes
import select
import socket
import struct
import sys
import threading
import time
from pathlib import Path

sys.path.insert(0, str(Path(__file__).resolve().parents[1] / "hostile"))
import wire  # noqa: E402

FIR, FIN, CON, UNS = 0x80, 0x40, 0x20, 0x10
CONFIRM, READ, WRITE, SELECT, OPERATE, DIRECT, ENABLE, DISABLE, DELAY = 0, 1, 2, 3, 4, 5, 20, 21, 23
RESPONSE, UNSOLICITED = 0x81, 0x82
# internal indications, of the first octet, and flags of a point
RESTART, NEED_TIME = 0x80, 0x10
ONLINE, COMM_LOST = 0x01, 0x04
CLONE_NEWNET = 0x40000000


def now_ms():
    """Milliseconds since 1970."""
    return time.time_ns() // 1_000_000


def enter(namespace):
    """This thread is in a network namespace from now on, and so are the sockets that it makes."""
    with open(f"/run/netns/{namespace}", "rb") as file:
        if ctypes.CDLL(None, use_errno=True).setns(file.fileno(), CLONE_NEWNET) != 0:
            raise OSError(ctypes.get_errno(), "setns", namespace)


def reset(stream):
    """Ends a connection as a crash does: at once, without what is on its way."""
    stream.setsockopt(socket.SOL_SOCKET, socket.SO_LINGER, struct.pack("ii", 1, 0))
    stream.close()


class Wrong(Exception):
    """Octets came that no station may send."""


class Link:
    """A connection: frames of octets, and fragments of segments."""

    def __init__(self, stream, own, peer, is_master):
        self.stream, self.own, self.peer, self.is_master = stream, own, peer, is_master
        self.kept, self.fragment, self.number, self.awaited = b"", b"", 0, None

    def send(self, fragment):
        """Sends a fragment by unconfirmed user data."""
        frames = wire.frames(0xC4 if self.is_master else 0x44, self.peer, self.own, fragment, self.number)
        self.number = (self.number + len(frames)) % 64
        self.give(b"".join(frames))

    def give(self, octets):
        self.stream.sendall(octets)

    def fed(self, octets):
        """The fragments that are whole with these octets."""
        self.kept += octets
        while len(self.kept) >= wire.HEADER:
            if not wire.begins(self.kept, 0) or self.kept[2] < 5:
                raise Wrong(f"no header of a frame: {self.kept[:10].hex(' ')}")
            size = wire.size_of(self.kept[2])
            if len(self.kept) < size:
                return
            unit, self.kept = self.kept[:size], self.kept[size:]
            if fragment := self.heard(unit):
                yield fragment

    def heard(self, unit):
        """The fragment that a frame completes, if it does."""
        control, to, of = struct.unpack("<BHH", unit[3:8])
        if (to, of) != (self.own, self.peer) or bool(control & 0x80) == self.is_master or wire.spoilt_block(unit):
            raise Wrong(f"a frame that is not for this station: {unit.hex(' ')}")
        if control & 0x4F == 0x49:
            self.give(wire.frame(0x8B if self.is_master else 0x0B, self.peer, self.own))
            return None
        if control & 0x4F != 0x44:
            raise Wrong(f"a frame of another function: {unit.hex(' ')}")
        return self.joined(b"".join(unit[k : k + wire.BLOCK] for k in range(wire.HEADER, len(unit), wire.BLOCK + 2))[: unit[2] - 5])

    def joined(self, user):
        """The fragment that a segment completes, if it does."""
        number = user[0] & 0x3F
        if not user[0] & 0x40 and number != self.awaited:
            raise Wrong(f"a segment out of its order: {user.hex(' ')}")
        self.fragment = user[1:] if user[0] & 0x40 else self.fragment + user[1:]
        self.awaited = (number + 1) % 64
        return self.fragment if user[0] & 0x80 else None


class Peer(threading.Thread):
    """A station of another make, which serves one connection at a time."""

    def __init__(self, own, peer, namespace=None):
        super().__init__(daemon=True)
        self.own, self.peer, self.namespace, self.is_over = own, peer, namespace, False
        self.link, self.wrong, self.calls, self.lost = None, [], collections.deque(), 0
        self.woken, self.waker = socket.socketpair()

    def run(self):
        if self.namespace:
            enter(self.namespace)
        self.open()
        while not self.is_over:
            try:
                self.turn()
            except OSError:
                self.lose()
            except Wrong as fault:
                self.wrong.append(str(fault))
                self.lose()
            except (IndexError, KeyError, ValueError, struct.error) as fault:
                self.wrong.append(f"what came was not understood: {fault!r}")
                self.lose()
        self.lose()
        self.shut()

    def turn(self):
        """Does what is due, and what is asked by what comes until then."""
        wait = self.due() - time.monotonic()
        streams = [self.woken, *self.doors(), *([self.link.stream] if self.link else [])]
        ready, _, _ = select.select(streams, [], [], min(max(wait, 0), 1))
        if self.woken in ready:
            self.woken.recv(1)
            self.calls.popleft()()
        for door in self.doors():
            if door in ready:
                self.accept(door)
                return
        if self.link and self.link.stream in ready:
            octets = self.link.stream.recv(65536)
            if not octets:
                raise OSError("the connection ended")
            for fragment in self.link.fed(octets):
                self.take(fragment)

    def call(self, function):
        """Has a function called in this thread."""
        self.calls.append(function)
        self.waker.send(b"1")

    def end(self):
        self.is_over = True
        self.call(lambda: None)
        self.join(10)

    def begin_link(self, stream, is_master):
        stream.setsockopt(socket.IPPROTO_TCP, socket.TCP_NODELAY, 1)
        stream.settimeout(10)
        self.link = Link(stream, self.own, self.peer, is_master)

    def lose(self):
        """The connection has ended, if there was one."""
        if self.link:
            self.link.stream.close()
            self.link, self.lost = None, self.lost + 1

    def open(self):
        """It begins."""

    def shut(self):
        """It ends."""

    def doors(self):
        """The sockets at which connections come."""
        return []

    def accept(self, door):
        """A connection came, if it still stands."""
