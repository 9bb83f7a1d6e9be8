"""A relay between who connects to a place and another place: it delays what it carries, and cuts, freezes and refuses when it is told. What is
on its way when it cuts is lost. It is a thread of its own, in a network namespace if one is named."""
import collections
import select
import socket
import threading
import time

from lines import Frames, events_of
from peers import CON, CONFIRM, enter, now_ms, reset

Piece = collections.namedtuple("Piece", "at end octets")
Row = collections.namedtuple("Row", "came index value time")
# the first and the last segment of a fragment, and a fragment's number with UNS
FIRST, LAST, NUMBER = 0x40, 0x80, 0x1F


class Relay(threading.Thread):
    def __init__(self, place, target, delay_s=0, namespace=None):
        super().__init__(daemon=True)
        self.place, self.target, self.delay_s, self.namespace = place, target, delay_s, namespace
        # each connection's other end, the ends that have sent all, and what is on its way
        self.others, self.ended, self.pieces, self.lock = {}, set(), collections.deque(), threading.Lock()
        self.is_frozen = self.is_over = self.refuses = False
        self.cuts, self.is_open = 0, threading.Event()
        self.start()
        self.is_open.wait(5)

    def run(self):
        if self.namespace:
            enter(self.namespace)
        door = socket.create_server(self.place)
        self.is_open.set()
        while not self.is_over:
            wait = max(0, self.pieces[0].at - time.monotonic()) if self.pieces and not self.is_frozen else 0.1
            try:
                ready, _, _ = select.select([door, *self.read_from()], [], [], min(wait, 0.1))
            except (OSError, ValueError):
                # (one of them was cut meanwhile)
                continue
            with self.lock:
                self.turn(door, ready)
        self.cut()
        door.close()

    def read_from(self):
        """The ends that are read from."""
        with self.lock:
            return [] if self.is_frozen else [end for end in self.others if end not in self.ended]

    def turn(self, door, ready):
        for end in ready:
            if end is door:
                self.accept(door)
            elif end in self.others:
                self.read(end)
        while self.pieces and not self.is_frozen and self.pieces[0].at <= time.monotonic():
            self.carry(self.pieces.popleft())

    def accept(self, door):
        near, _ = door.accept()
        try:
            if self.refuses:
                raise OSError("refused")
            far = socket.create_connection(self.target, timeout=2)
        except OSError:
            reset(near)
            return
        for end, other in ((near, far), (far, near)):
            end.setsockopt(socket.IPPROTO_TCP, socket.TCP_NODELAY, 1)
            end.settimeout(5)
            self.others[end] = other

    def read(self, end):
        try:
            octets = end.recv(65536)
        except OSError:
            octets = b""
        if not octets:
            self.ended.add(end)
        self.pieces.append(Piece(time.monotonic() + self.delay_s, end, octets))

    def carry(self, piece):
        """Hands on a piece, or that its end has sent all."""
        other = self.others.get(piece.end)
        if not other:
            return
        try:
            if piece.octets:
                other.sendall(piece.octets)
            elif other not in self.ended:
                other.shutdown(socket.SHUT_WR)
            else:
                self.drop(piece.end, other)
        except OSError:
            self.drop(piece.end, other)

    def drop(self, *ends):
        for end in ends:
            self.ended.discard(end)
            del self.others[end]
            reset(end)

    def cut(self):
        """Cuts all that is there, at once."""
        with self.lock:
            self.cuts += len(self.others) // 2
            self.drop(*list(self.others))
            self.pieces.clear()

    def end(self):
        self.is_over = True
        self.join(5)


class Talk:
    """What goes over one connection between a centre and a concentrator."""

    def __init__(self):
        self.down, self.up, self.fragment, self.awaits = Frames(), Frames(), b"", {}

    def said(self, octets):
        """What came from the concentrator."""
        for user in self.up.fed(octets):
            self.fragment = user[1:] if user[0] & FIRST else self.fragment + user[1:]
            if user[0] & LAST and len(self.fragment) >= 4 and self.fragment[0] & CON:
                self.awaits[self.fragment[0] & NUMBER] = events_of(self.fragment)

    def told(self, octets):
        """What came from the centre: the events that it confirms."""
        for user in self.down.fed(octets):
            if len(user) >= 3 and user[2] == CONFIRM:
                yield from self.awaits.pop(user[1] & NUMBER, [])


class Witness(Relay):
    """A relay between a centre and the concentrator, which keeps each event with the moment at which the centre confirmed it. A centre confirms
    a fragment once its rows are committed and synced."""

    def __init__(self, *place, **how):
        self.talks, self.rows = {}, []
        super().__init__(*place, **how)

    def carry(self, piece):
        other = self.others.get(piece.end)
        super().carry(piece)
        if not other or not piece.octets:
            return
        is_of_centre = piece.end.getsockname()[1] == self.place[1] if piece.end.fileno() >= 0 else False
        near = piece.end if is_of_centre else other
        talk = self.talks.setdefault(near, Talk())
        if not is_of_centre:
            talk.said(piece.octets)
            return
        came = now_ms()
        self.rows += [Row(came, index, value, stamp) for _, index, _, value, stamp in talk.told(piece.octets)]
