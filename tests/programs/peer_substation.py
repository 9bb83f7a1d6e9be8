"""A substation of another make, made from the tables of IEEE Std 1815-2012. It answers polls by class, sends unsolicited responses once they are
enabled, keeps events until they are confirmed, and keeps each request with its moment."""
import collections
import socket
import struct
import sys
import time
from pathlib import Path

from peers import (CON, CONFIRM, DELAY, DIRECT, DISABLE, ENABLE, FIN, FIR, NEED_TIME, ONLINE, OPERATE, READ, RESPONSE, RESTART, SELECT, UNS,
                   UNSOLICITED, WRITE, Peer, now_ms, reset)

sys.path.insert(0, str(Path(__file__).resolve().parents[1]))
from scale import scaled  # noqa: E402

# internal indications, of the second octet
NO_FUNCTION, OBJECT_UNKNOWN, PARAMETER = 1, 2, 4
SUCCESS, NO_SELECT = 0, 2
# the events of a fragment at most, and how long a confirm is awaited, in seconds
PAGE, CONFIRM_S = 50, scaled(5, 20)
Heard = collections.namedtuple("Heard", "moment function objects sequence")
Event = collections.namedtuple("Event", "index value time")


class Outgoing:
    """A fragment with events, and how it is confirmed."""

    def __init__(self, sequence, events, fragment):
        self.sequence, self.events, self.fragment, self.repeat_at = sequence, events, fragment, time.monotonic() + CONFIRM_S


class Substation(Peer):
    """A substation whose events are of analog inputs: the event with the number N has the value N, and is of point N modulo the number of
    points, whose class is one more than its index modulo three. Events are kept until they are confirmed. It indicates DEVICE_RESTART and NEED_TIME
    until a master clears the one and writes the time."""

    def __init__(self, place, own=10, peer=2, points=3, every=None, namespace=None):
        super().__init__(own, peer, namespace)
        self.place, self.points, self.every, self.next_at, self.door = place, points, every, None, None
        self.values, self.events, self.made, self.gone = [0] * points, [], [], []
        self.heard, self.operated, self.clocks = [], [], []
        self.restart()

    def restart(self):
        """What a restart leaves: the events."""
        self.iin, self.enabled, self.is_greeted, self.number = RESTART | NEED_TIME, set(), False, 15
        self.forget()

    def forget(self):
        """Nothing that was sent is awaited any more."""
        self.asked = self.unasked = self.held = self.selected = None
        self.left, self.asks_values, self.last = [], False, (None, None)

    def open(self):
        self.door = socket.create_server(self.place)

    def shut(self):
        if self.door:
            self.door.close()
        self.door = None

    def crash(self, seconds):
        """It fails as a machine without power, and is back so much later."""
        def fail():
            if self.link:
                reset(self.link.stream)
            self.lose()
            self.shut()
            time.sleep(seconds)
            self.restart()
            self.open()
        self.call(fail)

    def begin(self, every):
        """An event is made each so many seconds from now on. Substations next to each other don't make theirs at one moment."""
        self.every, self.next_at = every, time.monotonic() + every * (self.own % 16) / 16

    def rest(self):
        """No event is made from now on."""
        self.every = self.next_at = None

    def doors(self):
        return [self.door] if self.door else []

    def accept(self, door):
        self.lose()
        stream, _ = door.accept()
        self.forget()
        self.begin_link(stream, is_master=False)
        # (events begin with the first connection)
        if self.every and not self.next_at:
            self.next_at = time.monotonic()
        self.offer_unasked()

    def due(self):
        """The next moment at which there is something to do, which is done if it has come."""
        now = time.monotonic()
        if self.next_at and self.next_at <= now:
            self.next_at = max(self.next_at + self.every, now)
            self.change()
        if self.unasked and self.unasked.repeat_at <= now:
            self.repeat_unasked()
        if self.asked and self.asked.repeat_at <= now:
            self.asked = None
            self.offer_unasked()
        waits = [it.repeat_at for it in (self.asked, self.unasked) if it and self.link]
        return min([self.next_at or now + 1, *waits])

    def change(self):
        """Makes an event."""
        value = len(self.made) + 1
        event = Event(value % self.points, value, now_ms())
        self.values[event.index] = value
        self.made.append(event)
        self.events.append(event)
        self.offer_unasked()

    def take(self, fragment):
        control, function, objects = fragment[0], fragment[1], fragment[2:]
        self.heard.append(Heard(time.monotonic(), function, objects, control & 0x0F))
        if function == CONFIRM:
            self.take_confirm(control)
        elif fragment == self.last[0] and self.last[1]:
            self.link.send(self.last[1])
        else:
            self.last = fragment, None
            if function != OPERATE:
                self.selected = None
            self.take_request(control & 0x0F, function, objects)

    def take_request(self, sequence, function, objects):
        self.asked, self.left = None, []
        if function == READ:
            self.held = sequence, classes_of(objects)
            if not self.unasked:
                self.answer_read()
        elif function in (SELECT, OPERATE, DIRECT):
            self.take_command(sequence, function, objects)
        elif function in (ENABLE, DISABLE):
            classes = classes_of(objects) or set()
            self.enabled = self.enabled | classes if function == ENABLE else self.enabled - classes
            self.respond(sequence, b"")
            self.offer_unasked()
        elif function == WRITE:
            self.respond(sequence, b"", 0 if self.is_written(objects) else PARAMETER)
        elif function == DELAY:
            self.respond(sequence, bytes([52, 2, 7, 1, 0, 0]))
        else:
            self.respond(sequence, b"", NO_FUNCTION)

    def is_written(self, objects):
        """Takes what is written: whether it may be written."""
        if objects == bytes([80, 1, 0, 7, 7, 0]):
            self.iin &= ~RESTART
        elif objects[:4] == bytes([50, 1, 7, 1]) and len(objects) == 10:
            self.clocks.append(int.from_bytes(objects[4:], "little") - now_ms())
            self.iin &= ~NEED_TIME
        else:
            return False
        return True

    def take_command(self, sequence, function, objects):
        """One command, whose status is its last octet."""
        is_first = function == SELECT or self.selected == ((sequence - 1) % 16, objects) or function == DIRECT
        self.selected = (sequence, objects) if function == SELECT else None
        if function != SELECT and is_first:
            self.operated.append(objects)
        self.respond(sequence, objects[:-1] + bytes([SUCCESS if is_first else NO_SELECT]))

    def take_confirm(self, control):
        found = self.unasked if control & UNS else self.asked
        if not found or found.sequence != control & 0x0F:
            return
        self.gone += found.events
        self.events = [event for event in self.events if event not in found.events]
        if control & UNS:
            self.unasked, self.is_greeted = None, True
            if self.held:
                self.answer_read()
        else:
            self.asked = None
            if self.left:
                self.offer((found.sequence + 1) % 16, False)
        self.offer_unasked()

    def answer_read(self):
        """Answers the READ that waits."""
        (sequence, classes), self.held = self.held, None
        if classes is None:
            self.respond(sequence, b"", OBJECT_UNKNOWN)
            return
        self.left, self.asks_values = [event for event in self.events if class_of(event.index) in classes], 0 in classes
        self.offer(sequence, True)

    def offer(self, sequence, is_first):
        """The next fragment of a READ's response."""
        events, self.left = self.left[:PAGE], self.left[PAGE:]
        objects = self.rows(events) + (self.present() if self.asks_values and not self.left else b"")
        head = FIR * is_first | FIN * (not self.left) | CON * bool(events)
        self.respond(sequence, objects, head=head)
        self.asked = Outgoing(sequence, events, b"") if events else None

    def respond(self, sequence, objects, two=0, head=FIR | FIN):
        fragment = bytes([head | sequence, RESPONSE, self.iin, two]) + objects
        self.last = self.last[0], fragment
        self.link.send(fragment)

    def offer_unasked(self):
        """Sends an unsolicited response if it may: an empty one after a restart, and then events of the classes that are enabled."""
        if not self.link or self.unasked or self.asked:
            return
        events = [event for event in self.events if class_of(event.index) in self.enabled][:PAGE]
        if self.is_greeted and not events:
            return
        self.number = (self.number + 1) % 16
        events = events if self.is_greeted else []
        fragment = bytes([FIR | FIN | CON | UNS | self.number, UNSOLICITED, self.iin, 0]) + self.rows(events)
        self.unasked = Outgoing(self.number, events, fragment)
        self.link.send(fragment)

    def repeat_unasked(self):
        """No confirm came: a READ that waits is answered, or the response is sent again."""
        if self.link and self.held:
            self.unasked = None
            self.answer_read()
        elif self.link:
            self.unasked.repeat_at = time.monotonic() + CONFIRM_S
            self.link.send(self.unasked.fragment)
        else:
            self.unasked = None

    def rows(self, events):
        """Events as 32.3, with indices of two octets."""
        if not events:
            return b""
        rows = (struct.pack("<HBi", event.index, ONLINE, event.value) + event.time.to_bytes(6, "little") for event in events)
        return struct.pack("<BBBH", 32, 3, 0x28, len(events)) + b"".join(rows)

    def present(self):
        """All values as 30.1."""
        return struct.pack("<BBBHH", 30, 1, 1, 0, self.points - 1) + b"".join(struct.pack("<Bi", ONLINE, value) for value in self.values)


def class_of(index):
    """The class of a point."""
    return 1 + index % 3


def classes_of(objects):
    """The classes that a request names; none if it names anything else."""
    found, place = set(), 0
    while place < len(objects):
        group, variation, qualifier = objects[place : place + 3]
        if group != 60 or not 1 <= variation <= 4 or qualifier != 6:
            return None
        found.add(variation - 1)
        place += 3
    return found
