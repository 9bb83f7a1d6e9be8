#!/usr/bin/env python3
"""A concentrator that lives: `dnp concentrate --every` over two substations, one of which goes away and is silent, and two centres, one
of which is silent, sends half a frame, reads nothing, asks without a pause, does not confirm, or connects again as its confirm is
unread: rounds go on, each centre is served by itself, and what the one doesn't take stands in the queue. And `dnp centre --every`, whose concentrator comes late. Prints a line
'ok CASE' or 'FAILED CASE' for each case."""
import re
import signal
import socket
import sqlite3
import subprocess
import sys
import tempfile
import threading
import time
from pathlib import Path

from network import DNP, HERE, free_port, is_listening
from operates import frame
from scale import scaled

CONCENTRATOR, SECOND, POINTS = 9, 3, 40
# a checked program takes so often as long: how long is waited for what is to come, and who is silent is hung up, in seconds; and
# how long the concentrator waits for an answer, in milliseconds
SLOWER = scaled(1, 3)
PATIENCE, SILENCE, RESPONSE = 5.0 * SLOWER, 4 * SLOWER, 800 * SLOWER
# how long a program may take to begin, in seconds: one that checks each access makes its stores slowly
BEGIN = 60
LANES = "[" + ", ".join(["4096"] * 9) + "]"
PLAN = """confirm_ms = {confirm_ms}
response_ms = {response_ms}
select_ms = 5000
retries = 1
unsolicited = {unsolicited}
queue = {lanes}
queue2 = {lanes}
"""
SUBSTATION = """[[substation]]
lanes = {lanes}
binary = []
counter = []
analog = {classes}
deadband = {deadbands}
outputs = 1
setpoints = 0
base = [0, 0, {first}, {number}, 0]
"""
# the analog input 0 changes twice a second, for ever
REPLAY = "".join(f"{500 * k} change analog 0 {k} 01 now\n" for k in range(1, 6))
# a READ of class 0, which is answered with all points, and the beginning of it
READ = frame(0xC4, CONCENTRATOR, SECOND, bytes([0xC0, 0xC0, 1, 60, 1, 6]))
# a READ of the events, and the CONFIRM of its answer
EVENTS = frame(0xC4, CONCENTRATOR, SECOND, bytes([0xC0, 0xC0, 1, 60, 2, 6, 60, 3, 6, 60, 4, 6]))
CONFIRM = frame(0xC4, CONCENTRATOR, SECOND, bytes([0xC1, 0xC0, 0]))
# the octets of an event in an answer: the index, the flags, the value and the time
EVENT = 13
# The line with which a program begins its log: which build it is.
STARTED = re.compile(r"\d{4}-\d\d-\d\dT\d\d:\d\d:\d\d\.\d{3}Z started: dnp [\d.]+ \((?:proved.*|built without proof|build unknown)\)\n")
QUIET = {"stdin": subprocess.DEVNULL, "stdout": subprocess.DEVNULL, "stderr": subprocess.DEVNULL}


def judge(name, *faults):
    faults = [fault for fault in faults if fault]
    print(f"{'FAILED' if faults else 'ok'} living:{name}" + "".join(f"\n    {fault}" for fault in faults))
    return not faults


def awaited(what, seconds=PATIENCE):
    """Whether something comes to be so in time."""
    end = time.monotonic() + seconds
    while time.monotonic() < end:
        if what():
            return True
        time.sleep(0.01)
    return bool(what())


class Living:
    """A plan of two substations, `dnp concentrate` over it, and whoever connects to it."""

    def __init__(self, room, unsolicited="false", confirm_ms=5000):
        self.room = Path(room)
        texts = [SUBSTATION.format(lanes=LANES, classes=[1] * POINTS, deadbands=[0] * POINTS, first=100 * number, number=number)
                 for number in range(2)]
        head = PLAN.format(unsolicited=unsolicited, confirm_ms=confirm_ms, response_ms=RESPONSE, lanes=LANES)
        (self.room / "plan.toml").write_text(head + "".join(texts), encoding="ascii")
        (self.room / "replay").write_text(REPLAY, encoding="ascii")
        self.ports = [free_port(), free_port()]
        # (the substations' ports are one after the other)
        self.below = next(port for port in iter(free_port, None) if not is_listening(port + 1))
        self.programs = []

    def begin(self, words, **streams):
        program = subprocess.Popen([str(word) for word in words], cwd=self.room, **{**QUIET, **streams})
        self.programs.append(program)
        return program

    def substation(self, number, kind=None):
        """Begins a substation: of `dnp`, whose point 0 changes, or one of another make that fails so."""
        port = self.below + number
        if kind:
            words = [sys.executable, HERE / "substation.py", port, number, kind, "log"]
        else:
            words = [DNP, "outstation", "--plan", "plan.toml", "--station", number, "--port", port, "--forever", "--replay", "replay",
                     "--repeat"]
        program = self.begin(words)
        awaited(lambda: is_listening(port), BEGIN)
        return program

    def concentrate(self, *words):
        with open(self.room / "rounds", "w", encoding="ascii") as rounds, open(self.room / "said", "w", encoding="ascii") as said:
            program = self.begin(
                [DNP, "concentrate", "--plan", "plan.toml", "--queue", "queue.db", "--controls", "below.db", "--port", self.ports[0],
                 "--port2", self.ports[1], "--below", self.below, *words], stdout=rounds, stderr=said)
        awaited(lambda: is_listening(self.ports[1]), BEGIN)
        return program

    def centre(self, *words, stdout=subprocess.PIPE, stderr=subprocess.PIPE):
        return self.begin([DNP, "centre", "--plan", "plan.toml", "--journal", "journal.db", "--controls", "above.db", "--port", self.ports[0],
                           *words], stdout=stdout, stderr=stderr)

    def connect(self, number):
        stream = socket.socket()
        stream.setsockopt(socket.SOL_SOCKET, socket.SO_RCVBUF, 4096)
        stream.settimeout(10)
        stream.connect(("127.0.0.1", self.ports[number - 1]))
        return stream

    def text(self, name):
        return (self.room / name).read_text(encoding="ascii")

    def rounds(self):
        return self.text("rounds").count("\n")

    def says(self, text, seconds=PATIENCE):
        """Nothing, or that it isn't said in the log."""
        return "" if awaited(lambda: text in self.text("said"), seconds) else f"not said: {text}; {self.text('said')!r}"

    def goes_on(self, count, seconds):
        """Nothing, or that there are not so many more rounds in time."""
        before = self.rounds()
        return "" if awaited(lambda: self.rounds() >= before + count, seconds) else f"{self.rounds() - before} rounds, not {count}"

    def end(self):
        for program in self.programs:
            program.kill()
            program.wait()


def polled(program, polls):
    """What a centre came to: how many rows, and nothing or what was wrong. Each poll brought a line."""
    out, err = (octets.decode() for octets in program.communicate(timeout=60))
    rows = [int(line.split()[1]) for line in out.splitlines()]
    good = program.returncode == 0 and len(rows) == polls and STARTED.fullmatch(err)
    wrong = "" if good else f"status {program.returncode}, {rows}, {err!r}"
    return sum(rows), wrong


def events_of(living, name, table):
    """The events of a store, each by its point, its value and its time, however often it stands there."""
    base = sqlite3.connect(living.room / name, timeout=20)
    try:
        return set(base.execute(f"SELECT point, value, time FROM {table}"))
    finally:
        base.close()


def count_of(living, point):
    """How many events of a point the journal has."""
    return sum(event[0] == point for event in events_of(living, "journal.db", "journal"))


def silent_centre(living):
    """The second centre connects, sends half a frame, and is silent; the first one polls meanwhile."""
    silent = living.connect(2)
    silent.sendall(READ[:7])
    begun, wrong = time.monotonic(), living.goes_on(6, SILENCE - 0.5)
    rows, fault = polled(living.centre("--new", "--every", "100", "--polls", "5"), 5)
    good = judge("rounds-go-on-beside-a-silent-centre", wrong)
    good = judge("the-other-centre-gets-its-events", fault, "" if rows >= 2 else f"{rows} rows") and good
    wrong = living.says(f"centre 2 ended, served 0: idle, nothing whole came for {SILENCE} seconds", SILENCE + 2)
    early = time.monotonic() - begun < SILENCE - 0.5
    good = judge("a-silent-centre-is-hung-up", wrong, "too early" if early else "", "" if silent.recv(1) == b"" else "it stands") and good
    return good


def newest_centre(living):
    """A second connection of a centre takes the place of the first; one whose frame comes in pieces is answered."""
    first, second = living.connect(2), None
    wrong = living.says(":%d centre 2 connected" % first.getsockname()[1])
    second = living.connect(2)
    taken = living.says(f"centre 2 ended, served 0: taken over by 127.0.0.1:{second.getsockname()[1]}")
    good = judge("the-newest-takes-the-place", wrong, taken, "" if first.recv(1) == b"" else "the first stands")
    for piece in (READ[:3], READ[3:12], READ[12:]):
        second.sendall(piece)
        time.sleep(0.15)
    second.settimeout(0.5)
    octets = b""
    try:
        while piece := second.recv(4096):
            octets += piece
    except TimeoutError:
        pass
    second.close()
    closed = living.says("centre 2 ended, served 1: the master closed the connection")
    return judge("a-frame-in-pieces-is-answered", "" if len(octets) > POINTS * 5 else octets.hex(" "), closed) and good


def unread_centre(living):
    """The second centre asks and doesn't read what is sent."""
    unread = living.connect(2)
    unread.setblocking(False)
    asked, end = 0, time.monotonic() + 1
    while time.monotonic() < end:
        try:
            asked += unread.send(READ * 50)
        except BlockingIOError:
            time.sleep(0.01)
    wrong = living.goes_on(4, PATIENCE)
    rows, fault = polled(living.centre("--every", "100", "--polls", "3"), 3)
    held = "" if awaited(lambda: living.text("said").count("idle,") == 2, SILENCE + PATIENCE) else "it was not hung up"
    unread.close()
    return judge("a-centre-that-does-not-read-holds-nobody-up", wrong, fault, held, "" if rows else "no rows", "" if asked else "not asked")


def busy_centre(living):
    """The second centre asks without a pause, and reads all that is sent."""
    busy, is_done, read = living.connect(2), threading.Event(), 0

    def ask():
        try:
            while not is_done.is_set():
                busy.sendall(READ)
        except OSError:
            pass

    def take():
        nonlocal read
        try:
            while octets := busy.recv(65536):
                read += len(octets)
        except OSError:
            pass

    threads = [threading.Thread(target=work, daemon=True) for work in (ask, take)]
    for thread in threads:
        thread.start()
    time.sleep(0.5)
    wrong = living.goes_on(4, 5)
    rows, fault = polled(living.centre("--every", "100", "--polls", "3"), 3)
    is_done.set()
    busy.shutdown(socket.SHUT_RDWR)
    for thread in threads:
        thread.join()
    busy.close()
    return judge("a-centre-that-asks-without-a-pause-holds-nobody-up", wrong, fault, "" if rows else "no rows", "" if read > 100 * POINTS else f"{read} octets read")


def lost_substation(living, first):
    """A substation is gone, and then silent: the other one's events come all the same."""
    first.kill()
    first.wait()
    wrong = living.says(f"port {living.below}: Connection refused")
    before = count_of(living, 100)
    rounds = living.goes_on(4, PATIENCE)
    silent = living.substation(0, "silent")
    late = living.says(f": no answer in {RESPONSE} ms")
    slower = living.goes_on(3, 6 * SLOWER)
    rows, fault = polled(living.centre("--every", "100", "--polls", "2"), 2)
    after = count_of(living, 100)
    silent.kill()
    silent.wait()
    return judge("a-substation-that-is-away-costs-no-other", wrong, rounds, late, slower, fault,
                 "" if after - before >= 3 and rows >= after - before else f"{rows} rows, {before} then {after}")


def user_data(octets):
    """The user data of the link frame with which these octets begin, or nothing if it isn't whole."""
    length = octets[2] - 5 if len(octets) >= 10 else 0
    blocks = [octets[k : k + 18] for k in range(10, 10 + length + (length + 15) // 16 * 2, 18)]
    return b"".join(block[:-2] for block in blocks) if length and sum(map(len, blocks)) == length + 2 * len(blocks) else b""


def first_event(stream):
    """Asks for the events. The octets of the first one in the answer, which has one link frame, or nothing if there is none."""
    stream.sendall(EVENTS)
    octets = b""
    while not user_data(octets):
        piece = stream.recv(4096)
        if not piece:
            raise ValueError("the connection ended")
        octets += piece
    # (behind the octet of the transport function, the four of the response's header and the five of the object header)
    return user_data(octets)[10 : 10 + EVENT]


def replaced(room):
    """The second centre connects again while its confirm waits in its connection, and the concentrator asks a silent substation: what
    was confirmed doesn't come again."""
    living = Living(room)
    try:
        living.substation(0)
        living.substation(1, "silent")
        concentrator = living.concentrate("--new", "--every", "200", "--forever")
        confirmed = again = 0
        for _ in range(12):
            time.sleep(0.55)
            old = living.connect(2)
            event = first_event(old)
            # (by now the concentrator waits for the silent substation)
            time.sleep(0.1)
            concentrator.send_signal(signal.SIGSTOP)
            old.sendall(CONFIRM)
            new = living.connect(2)
            concentrator.send_signal(signal.SIGCONT)
            came = first_event(new)
            new.sendall(CONFIRM)
            confirmed += bool(event)
            again += bool(event) and event == came
            new.shutdown(socket.SHUT_WR)
            new.close()
            old.close()
        return judge("what-was-confirmed-comes-once-where-a-centre-connects-again",
                     f"{again} of {confirmed} came again" if again or confirmed < 6 else "")
    finally:
        living.end()


def stands(living, concentrator):
    """What the second centre never took stands in the queue for it."""
    concentrator.kill()
    concentrator.wait()
    time.sleep(0.1)
    taken = events_of(living, "journal.db", "journal") | events_of(living, "queue.db", "queue")
    stands_there = events_of(living, "queue.db", "queue_b")
    points = {event[0] for event in stands_there}
    wrong = "" if stands_there == taken and points == {0, 100} else f"{len(taken)} events came, and {len(stands_there)} stand, of {points}"
    return judge("what-a-centre-does-not-take-stands-in-the-queue", wrong)


def over_substations(room):
    living = Living(room)
    try:
        first = living.substation(0)
        living.substation(1)
        concentrator = living.concentrate("--new", "--every", "200", "--forever", "--idle", str(SILENCE))
        good = silent_centre(living)
        good = newest_centre(living) and good
        good = unread_centre(living) and good
        good = busy_centre(living) and good
        good = lost_substation(living, first) and good
        return stands(living, concentrator) and good
    finally:
        living.end()


def unsolicited(room):
    """A centre that doesn't confirm gets an unsolicited response, gets it again, and is hung up; rounds end by their number."""
    living = Living(room, "true", 300)
    try:
        living.substation(0, "none")
        living.substation(1, "none")
        with open(living.room / "polls", "w", encoding="ascii") as polls, open(living.room / "refused", "w", encoding="ascii") as refused:
            late = living.centre("--new", "--every", "200", "--forever", stdout=polls, stderr=refused)
        # (it is said once that nobody is there, whatever the number of polls)
        line = f": port {living.ports[0]}: Connection refused (os error 111)\n"
        awaited(lambda: line in living.text("refused"), BEGIN)
        time.sleep(0.5 * SLOWER)
        concentrator = living.concentrate("--new", "--every", "100", "--rounds", "30")
        deaf, octets, begun = living.connect(2), b"", time.monotonic()
        while piece := deaf.recv(4096):
            octets += piece
        took = time.monotonic() - begun
        units = octets.count(b"\x05\x64")
        good = judge("an-unsolicited-response-is-repeated-and-given-up", "" if units == 2 and 0.5 < took < 2 * SLOWER else f"{units} units in {took:.2f} s",
                     living.says("centre 2 ended, served 0: the station closed the connection"))
        awaited(lambda: living.text("polls").count("rows ") >= 2)
        try:
            concentrator.wait(timeout=10 * SLOWER)
        except subprocess.TimeoutExpired:
            pass
        ended = "" if (concentrator.returncode, living.rounds()) == (0, 30) else f"status {concentrator.returncode}, {living.rounds()} rounds"
        good = judge("rounds-end-by-their-number", ended) and good
        on = late.poll() is None
        late.terminate()
        late.wait()
        came, said = living.text("polls"), living.text("refused")
        back = re.search(r" the concentrator: back after \d+ m?s and (\d+) tries\n", said)
        # (once more where it polled between the end of the last round and its own)
        before, after = said[: back.start()] if back else said, said[back.end() :] if back else ""
        told = STARTED.match(said) and before.count(line) == 1 and after.count(line) <= 1 and back and int(back[1]) >= 2
        whole = on and late.returncode == -15 and came.count("rows ") >= 2 and told
        return judge("a-centre-goes-on-where-polls-fail", "" if whole else f"status {late.returncode}, {came!r}, {said!r}") and good
    finally:
        living.end()


def main():
    good = True
    for case in (over_substations, unsolicited, replaced):
        with tempfile.TemporaryDirectory(prefix="living-") as room:
            try:
                good = case(room) and good
            except (OSError, ValueError, subprocess.TimeoutExpired) as fault:
                good = judge(case.__name__.replace("_", "-"), repr(fault))
    return 0 if good else 1


if __name__ == "__main__":
    sys.exit(main())
