"""A centre of another make, made from the tables of IEEE Std 1815-2012, which polls a concentrator, or a substation, over a connection
that it keeps: it disables unsolicited responses, reads all classes, clears DEVICE_RESTART, writes the time if that is needed, and enables
unsolicited responses. Each row that comes is kept with its moment."""
import collections
import socket
import struct
import time

from lines import events_and_end
from peers import (COMM_LOST, CON, CONFIRM, DISABLE, ENABLE, FIN, FIR, NEED_TIME, ONLINE, READ, RESPONSE, RESTART, UNS, UNSOLICITED, WRITE, Peer,
                   Wrong, now_ms)

CLASSES = {"0": (60, 1, 6), "1": (60, 2, 6), "2": (60, 3, 6), "3": (60, 4, 6)}
# how long a response is awaited, and how long it rests before it connects again, in seconds
RESPONSE_S, REST_S = 10, 0.2
# the octets of a present value, by its group and variation; its kind, by its group
SIZES = {(1, 2): 1, (10, 2): 1, (20, 1): 5, (30, 1): 5, (40, 1): 5}
KINDS = {1: "binary", 10: "output", 20: "counter", 30: "analog", 40: "setpoint"}
Row = collections.namedtuple("Row", "came kind index flags value time is_unasked")
Value = collections.namedtuple("Value", "value flags moment")


def values_of(fragment, place):
    """The present values of a response, from an octet on: each its kind, its index, its value and its flags."""
    while place < len(fragment):
        group, variation, qualifier = fragment[place : place + 3]
        size, wide = SIZES[group, variation], 2 if qualifier & 1 else 1
        first, last = (int.from_bytes(fragment[place + 3 + wide * k : place + 3 + wide * (k + 1)], "little") for k in (0, 1))
        place += 3 + 2 * wide
        for index in range(first, last + 1):
            row = fragment[place : place + size]
            place += size
            if size == 1:
                yield KINDS[group], index, row[0] >> 7, row[0] & 0x7F
            else:
                yield KINDS[group], index, struct.unpack_from("<I" if group == 20 else "<i", row, 1)[0], row[0]


class Centre(Peer):
    """Connects to a place, and again if it is lost."""

    def __init__(self, place, own=1, peer=9, enables="123", namespace=None):
        super().__init__(own, peer, namespace)
        self.place, self.enables, self.try_at = place, enables, 0
        self.rows, self.present, self.indications, self.started, self.connected = [], {}, [], [], []
        self.forget()

    def forget(self):
        """Nothing is awaited any more."""
        self.tasks, self.sequence, self.awaits, self.late_at, self.last_unasked = collections.deque(), 15, None, None, None
        self.is_started = False

    def due(self):
        """The next moment at which there is something to do, which is done if it has come."""
        now = time.monotonic()
        if not self.link and self.try_at <= now:
            self.connect()
        if self.link and self.late_at and self.late_at <= now:
            self.wrong.append("no response came in time")
            self.lose()
        self.ask()
        if not self.link:
            return self.try_at
        return self.late_at or now + 1

    def connect(self):
        self.try_at = time.monotonic() + REST_S
        stream = socket.create_connection(self.place, timeout=2)
        self.forget()
        self.begin_link(stream, is_master=True)
        self.connected.append(time.monotonic())
        self.tasks += [(DISABLE, every("123")), (READ, every("1230"))]

    def lose(self):
        super().lose()
        self.try_at = max(self.try_at, time.monotonic() + REST_S)

    def poll(self, classes):
        """Has these classes read, soon."""
        self.call(lambda: self.tasks.append((READ, every(classes))))

    def ask(self):
        """Sends the next request, if none is awaited."""
        if not self.link or self.awaits:
            return
        if not self.tasks and not self.is_started:
            self.is_started = True
            self.started.append(time.monotonic())
            if self.enables:
                self.tasks.append((ENABLE, every(self.enables)))
        if not self.tasks:
            return
        function, objects = self.tasks.popleft()
        self.sequence = (self.sequence + 1) % 16
        self.awaits, self.late_at = (self.sequence, True), time.monotonic() + RESPONSE_S
        self.link.send(bytes([FIR | FIN | self.sequence, function]) + objects)

    def take(self, fragment):
        control, function, one = fragment[0], fragment[1], fragment[2]
        if function == UNSOLICITED and control & UNS and control & (FIR | FIN) == FIR | FIN:
            self.take_unasked(fragment)
        elif function == RESPONSE and not control & UNS:
            self.take_response(fragment)
        else:
            raise Wrong(f"a fragment that no outstation sends: {fragment.hex(' ')}")
        self.look_at(one)

    def take_unasked(self, fragment):
        """An unsolicited response, which is confirmed; one that came again isn't taken again."""
        if fragment != self.last_unasked:
            self.store(fragment, True)
        self.last_unasked = fragment
        self.confirm(fragment[0])

    def take_response(self, fragment):
        """A fragment of the response that is awaited; any other is wrong."""
        sequence, is_first = self.awaits or (None, None)
        if (fragment[0] & 0x0F, bool(fragment[0] & FIR)) != (sequence, is_first):
            raise Wrong(f"a response that nobody asked for: {fragment.hex(' ')}")
        if fragment[3] & 0x07:
            self.wrong.append(f"a request was refused: {fragment[:4].hex(' ')}")
        self.store(fragment, False)
        self.confirm(fragment[0])
        if fragment[0] & FIN:
            self.awaits = self.late_at = None
        else:
            self.sequence = (sequence + 1) % 16
            self.awaits, self.late_at = (self.sequence, False), time.monotonic() + RESPONSE_S

    def confirm(self, control):
        if control & CON:
            self.link.send(bytes([FIR | FIN | control & (UNS | 0x0F), CONFIRM]))

    def store(self, fragment, is_unasked):
        """Keeps the rows and the values of a fragment."""
        events, place = events_and_end(fragment)
        came, moment = now_ms(), time.monotonic()
        self.rows += [Row(came, kind, index, flags, value, stamp, is_unasked) for kind, index, flags, value, stamp in events]
        for kind, index, flags, value, _ in events:
            self.present[kind, index] = Value(value, flags, moment)
        for kind, index, value, flags in values_of(fragment, place):
            self.present[kind, index] = Value(value, flags, moment)

    def look_at(self, indications):
        """Clears DEVICE_RESTART and writes the time, where that is indicated."""
        if not self.indications or self.indications[-1] != indications:
            self.indications.append(indications)
        waiting = {function_and_group(task) for task in self.tasks}
        if indications & RESTART and (WRITE, 80) not in waiting:
            self.tasks.append((WRITE, bytes([80, 1, 0, 7, 7, 0])))
        if indications & NEED_TIME and (WRITE, 50) not in waiting:
            self.tasks.append((WRITE, bytes([50, 1, 7, 1]) + now_ms().to_bytes(6, "little")))

    def quality(self, kind, index):
        """The flags of a point, as it was read last; none if it never was."""
        value = self.present.get((kind, index))
        return value and value.flags

    def is_online(self, kind, index):
        return (self.quality(kind, index) or 0) & (ONLINE | COMM_LOST) == ONLINE

    def is_lost(self, kind, index):
        return (self.quality(kind, index) or 0) & (ONLINE | COMM_LOST) == COMM_LOST


def every(classes):
    """All objects of these classes."""
    return b"".join(bytes(CLASSES[each]) for each in classes)


def function_and_group(task):
    return task[0], task[1][0]
