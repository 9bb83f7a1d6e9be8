#!/usr/bin/env python3
"""replay.py CHANGES SECONDS: `dnp outstation --replay` over a file of so many changes in so many seconds, one for each second of a
day, to binary inputs, counters and analog inputs of each class; every other 360 of them are due at once. A master of another make
polls classes 1, 2 and 3 as fast as it can, and confirms. Each change has to come once, with its value, its flags and its time,
those of a point in their order, not before it is due, and two seconds later at most; nothing else may come, no lane may overflow,
and in the end the program has served what the master sent. Then short files in which something is wrong, each of which has to be
seen. Prints a line 'ok CASE' or 'FAILED CASE' for each case."""
import collections
import socket
import struct
import subprocess
import sys
import tempfile
import time
from pathlib import Path
from typing import NamedTuple

from lines import ASKS, NUMBER, events_and_end, wire
from network import DNP, free_port, is_listening
from operates import MASTER, OUTSTATION, judge, whole

# how many points of each kind there are, a third of each class; and how many changes are due at once
POINTS, STORM = 9, 360
# how late a change may come, how long nothing may come after the last one, and how long the program may take to begin, in seconds
LATE, AFTER, BEGIN = 2, 0.5, 60
# the room of a lane; and of one that overflows
ROOM, NO_ROOM = 4096, 2
CLASSES = [index % 3 + 1 for index in range(POINTS)]
PLAN = f"""confirm_ms = 5000
response_ms = 10000
select_ms = 5000
retries = 0
unsolicited = false
queue = {[2] * 9}
queue2 = {[2] * 9}
[[substation]]
lanes = {{lanes}}
binary = {CLASSES}
counter = {CLASSES}
analog = {CLASSES}
deadband = {[0] * POINTS}
outputs = 0
setpoints = 0
base = [0, 0, 0, 0, 0]
"""
DAY, SECOND = 1_795_737_600_000, 1000
KINDS, FLAGS = ("binary", "counter", "analog"), (0x01, 0x05, 0x09, 0x11)
# what a frame for the master says after its length; a READ of classes 1, 2 and 3; the first and the last of segments and fragments
WAY, READ = struct.pack("<BHH", 0x44, MASTER, OUTSTATION), bytes([1, 60, 2, 6, 60, 3, 6, 60, 4, 6])
FIRST_SEGMENT, LAST_SEGMENT, FIRST, LAST, RESPONSE, OVERFLOW = 0x40, 0x80, 0x80, 0x40, 0x81, 0x08


class Change(NamedTuple):
    """A change of a point, which is due so many milliseconds from the start."""

    due: int
    kind: str
    index: int
    flags: int
    value: int
    time: int

    def __str__(self):
        return f"{self.due} change {self.kind} {self.index} {self.value} {self.flags:02x} {self.time}"


def changes_of(count, seconds, lead=0):
    """So many changes, the first of which is due so many milliseconds from the start: a binary input has the one value and the other
    in turn, and each other value and each time comes once."""
    made = []
    for k in range(count):
        first = k - k % STORM if k // STORM % 2 else k
        value = (1 - k // (3 * POINTS) % 2, 2**32 - 1 - k, -k if k % 2 else k)[k % 3]
        due = lead + 1000 * seconds * first // count
        made.append(Change(due, KINDS[k % 3], k // 3 % POINTS, FLAGS[k % 4], value, DAY + k * SECOND))
    return made


class Master:
    def __init__(self, port):
        self.stream = socket.create_connection(("127.0.0.1", port), timeout=20)
        self.stream.setsockopt(socket.IPPROTO_TCP, socket.TCP_NODELAY, 1)
        self.number, self.sent = 0, 0

    def send(self, octets):
        """Sends a fragment of one segment."""
        fragment = bytes([FIRST | LAST | self.number]) + octets
        self.stream.sendall(b"".join(wire.frames(0xC4, OUTSTATION, MASTER, fragment, self.sent)))
        self.sent += 1

    def fragment(self):
        fragment, last = b"", 0
        while not last:
            unit = whole(self.stream, wire.HEADER)
            if not wire.begins(unit, 0) or unit[3:8] != WAY:
                raise ValueError(f"no frame for the master: {unit.hex(' ')}")
            unit += whole(self.stream, wire.size_of(unit[2]) - wire.HEADER)
            user = b"".join(unit[k : k + wire.BLOCK] for k in range(wire.HEADER, len(unit), wire.BLOCK + 2))[: unit[2] - 5]
            if wire.spoilt_block(unit) is not None or bool(user[0] & FIRST_SEGMENT) != (fragment == b""):
                raise ValueError(f"a wrong frame: {unit.hex(' ')}")
            fragment, last = fragment + user[1:], user[0] & LAST_SEGMENT
        return fragment

    def poll(self):
        """The fragments of the response to a READ; each is confirmed, where it asks for that, once it was looked at."""
        self.send(READ)
        first, last = FIRST, 0
        while not last:
            fragment = self.fragment()
            head, function, _, errors = fragment[:4]
            if (head & (FIRST | NUMBER), function) != (first | self.number, RESPONSE):
                raise ValueError(f"no answer to request {self.number}: {fragment.hex(' ')}")
            if errors:
                raise ValueError(f"indications {fragment[2]:02x} {errors:02x}" + ", a lane overflowed" * (errors == OVERFLOW))
            yield fragment
            if head & ASKS:
                self.send(b"\0")
            self.number = (self.number + 1) % 16
            first, last = 0, head & LAST


class Watch:
    """What is still to come, of each point by itself, in its order."""

    def __init__(self, changes, began):
        self.began, self.left, self.soonest, self.latest, self.most = began, len(changes), float("inf"), 0.0, 0
        self.points = collections.defaultdict(collections.deque)
        for change in changes:
            self.points[change.kind, change.index].append(change)

    def came(self, fragment):
        """Looks at the events of a fragment, and tells how many there were."""
        now = time.monotonic()
        events, end = events_and_end(fragment)
        if end != len(fragment):
            raise ValueError(f"no events alone: {fragment.hex(' ')}")
        for kind, index, *row in events:
            left = self.points[kind, index]
            if not left or row != [*left[0][3:]]:
                raise ValueError(f"{kind} {index} {row} came, where " + (f"'{left[0]}' is next" if left else "nothing is left"))
            late = now - self.began - left.popleft().due / 1000
            if late < 0:
                raise ValueError(f"{kind} {index} {row} came {-late:.2f} s too early")
            self.soonest, self.latest = min(self.soonest, late), max(self.latest, late)
        self.left -= len(events)
        self.most = max(self.most, len(events))
        return len(events)


def polled(port, changes, began, listened):
    """Polls until all changes have come and then nothing, and tells what was seen and how many fragments were sent. The changes are
    due from when the program has read them on, which was at some moment before it listened, and before any change came."""
    master, watch, polls = Master(port), Watch(changes, began), 0
    end = began + listened + changes[-1].due / 1000 + LATE
    with master.stream:
        while time.monotonic() < end:
            polls += 1
            for fragment in master.poll():
                if watch.came(fragment) and not watch.left:
                    end = time.monotonic() + AFTER
        if watch.left:
            missing = next(left[0] for left in watch.points.values() if left)
            raise ValueError(f"{watch.left} changes did not come in time, as '{missing}'")
    late = watch.latest - min(watch.soonest, listened)
    if late > LATE:
        raise ValueError(f"a change came {late:.2f} s too late")
    return f" ({polls} polls, a fragment had {watch.most} events at most, none came over {late:.2f} s late)", master.sent


class Station:
    """`dnp outstation`, which replays these changes once, over one connection."""

    def __init__(self, room, changes, lane=ROOM):
        plan, file, self.port = Path(room) / "plan.toml", Path(room) / "file", free_port()
        plan.write_text(PLAN.format(lanes=[lane] * 9), encoding="ascii")
        file.write_text("".join(f"{change}\n" for change in changes), encoding="ascii")
        words = [DNP, "outstation", "--plan", plan, "--station", "0", "--port", str(self.port), "--replay", file]
        self.began = time.monotonic()
        self.program = subprocess.Popen(words, stdin=subprocess.DEVNULL, stdout=subprocess.PIPE, stderr=subprocess.DEVNULL)

    def listens(self):
        """Waits until it listens, and tells after how many seconds it did."""
        while not is_listening(self.port):
            if self.program.poll() is not None or time.monotonic() > self.began + BEGIN:
                raise ValueError("it did not begin")
            time.sleep(0.005)
        return time.monotonic() - self.began

    def __enter__(self):
        return self

    def __exit__(self, *_):
        self.program.kill()
        self.program.communicate()


def replayed(changes, wanted, lane=ROOM):
    """Replays these changes where those are wanted: what was seen, or what was wrong."""
    try:
        with tempfile.TemporaryDirectory(prefix="replay-") as room, Station(room, changes, lane) as station:
            listened = station.listens()
            told, sent = polled(station.port, wanted, station.began, listened)
            said = station.program.communicate(timeout=20)[0]
            if (station.program.returncode, said) != (0, b"served %d\n" % sent):
                raise ValueError(f"status {station.program.returncode}, {said!r}, and {sent} fragments were sent")
            return told, ""
    except (OSError, ValueError, IndexError, struct.error, subprocess.TimeoutExpired) as fault:
        return "", str(fault) or repr(fault)


def led(count, seconds):
    """So many changes, all due after the program has begun to listen, by how long it takes for that with such a file."""
    with tempfile.TemporaryDirectory(prefix="replay-") as room, Station(room, changes_of(count, seconds)) as station:
        return changes_of(count, seconds, int(2000 * station.listens()))


def lies(made):
    """What is wrong in files: what has to be said of it, the changes of the file, those that are wanted, and the room of a lane."""
    at = len(made) // 2 + 1
    before, it, after = made[:at], made[at], made[at + 1 :]
    yield "is next", before + after, made, ROOM
    yield "is next", before + [it, it._replace(value=0)] + after, made, ROOM
    for what in ("index", "flags", "value", "time"):
        yield "is next", before + [it._replace(**{what: getattr(it, what) ^ 2})] + after, made, ROOM
    yield "nothing is left", made + [made[-1]._replace(value=0)], made, ROOM
    later = [change._replace(due=change.due + 60_000) for change in made]
    yield "too early", made, later, ROOM
    yield "did not come in time", made[:-1] + later[-1:], made, ROOM
    yield "too late", made, before + [it._replace(due=it.due - 1000 * (LATE + 1))] + after, ROOM
    yield "a lane overflowed", made, made, NO_ROOM


def main():
    count, seconds = (int(word) for word in sys.argv[1:])
    try:
        changes, short, wrong = led(count, seconds), led(2 * STORM, 1), []
    except (OSError, ValueError) as fault:
        judge("a-replay-begins", str(fault))
        return 1
    told, fault = replayed(changes, changes)
    good = judge(f"replay-of-{count}-changes-in-{seconds}-s{told}", fault)
    for said, *lie in lies(short):
        fault = replayed(*lie)[1]
        if said not in fault:
            wrong.append(f"wanted '{said}', and came '{fault}'")
    return 0 if judge("what-is-wrong-in-a-replay-is-seen", "; ".join(wrong)) and good else 1


if __name__ == "__main__":
    sys.exit(main())
