#!/usr/bin/env python3
"""`dnp poll` over localhost: against `dnp outstation`, and against an outstation of another make, written here from the
tables of IEEE Std 1815-2012, which refuses, is silent, answers nonsense, and looks whether rows were printed before they
were confirmed. Prints a line 'ok CASE' or 'FAILED CASE' for each case.

    poll.py [DNP]: the program, by default the one that is built
"""
import json
import os
import pty
import select
import socket
import struct
import subprocess
import sys
import tempfile
import threading
import time
from pathlib import Path

sys.path.insert(0, str(Path(__file__).resolve().parents[1]))
import scale  # noqa: E402

DNP = sys.argv[1] if len(sys.argv) > 1 else scale.DNP
MASTER, OUTSTATION = 2, 10
CON, UNS = 0x20, 0x10
TIME = 1_795_575_601_000  # 2026-11-25T03:00:01.000Z
COMMAND = "block 5 3 1 0 0"
BLOCK = bytes([12, 1, 0x28, 1, 0, 5, 0, 3, 1]) + bytes(9)


def check(octets):
    """The check word: the polynomial of the data link layer, low bits first, complemented."""
    word = 0
    for octet in octets:
        word ^= octet
        for _ in range(8):
            word = word >> 1 ^ (0xA6BC if word & 1 else 0)
    return struct.pack("<H", word ^ 0xFFFF)


class Ended(Exception):
    """The connection has ended."""


class Outstation:
    """An outstation at a port of its own, which serves one connection by `serve`, a function of it, in a thread."""

    def __init__(self, serve):
        self.listener = socket.create_server(("127.0.0.1", 0))
        self.place = f"127.0.0.1:{self.listener.getsockname()[1]}"
        self.serve, self.heard, self.kept, self.number, self.wrong = serve, [], b"", 0, None
        # all octets that came, and all that went; those that wait to go in one piece, if they do
        self.came, self.went, self.held = b"", b"", None
        self.ends = MASTER, OUTSTATION
        self.thread = threading.Thread(target=self.run, daemon=True)
        self.thread.start()

    def run(self):
        try:
            self.stream, _ = self.listener.accept()
            self.stream.settimeout(20)
            self.serve(self)
            while True:
                self.fragment()
        except Ended:
            pass
        except Exception as fault:  # told by the case
            self.wrong = repr(fault)
        self.stream.close()

    def read(self, count):
        while len(self.kept) < count:
            try:
                piece = self.stream.recv(65536)
            except ConnectionError:
                piece = b""
            if not piece:
                raise Ended
            self.kept += piece
            self.came += piece
        octets, self.kept = self.kept[:count], self.kept[count:]
        return octets

    def fragment(self):
        """The next fragment that the master sends, which is also kept in `heard`."""
        fragment, last = b"", False
        while not last:
            header = self.read(10)
            start, length, control, to, of = struct.unpack("<HBBHH", header[:8])
            assert (start, to, of, control) == (0x6405, OUTSTATION, MASTER, 0xC4), header.hex(" ")
            user, left = b"", length - 5
            while len(user) < left:
                size = min(16, left - len(user))
                block = self.read(size + 2)
                assert check(block[:-2]) == block[-2:], block.hex(" ")
                user += block[:-2]
            last = user[0] & 0x80
            fragment += user[1:]
        self.heard.append(fragment)
        return fragment

    def send(self, *fragment):
        octets, fragment = b"", b"".join(fragment)
        pieces = [fragment[k : k + 249] for k in range(0, len(fragment), 249)]
        for k, piece in enumerate(pieces):
            user = bytes([(k == len(pieces) - 1) << 7 | (k == 0) << 6 | self.number]) + piece
            self.number = (self.number + 1) % 64
            header = struct.pack("<HBBHH", 0x6405, 5 + len(user), 0x44, *self.ends)
            blocks = [user[k : k + 16] for k in range(0, len(user), 16)]
            octets += b"".join(block + check(block) for block in [header, *blocks])
        if self.held is None:
            self.give(octets)
        else:
            self.held += octets

    def give(self, octets):
        self.went += octets
        self.stream.sendall(octets)

    def answer(self, sequence, *objects, one=0, two=0, first=True, last=True, bits=0):
        """A fragment of a response with this sequence number."""
        control = first << 7 | last << 6 | bits | sequence % 16
        self.send(bytes([control, 0x82 if bits & UNS else 0x81, one, two]), *objects)

    def functions(self):
        return [fragment[1] for fragment in self.heard]


# 2.2 with an index of two octets, and the present values 30.1 5..6, 10.2 0..1 and 40.1 3
EVENT = bytes([2, 2, 0x28, 1, 0, 3, 0, 0x81]) + struct.pack("<Q", TIME)[:6]
VALUES = (bytes([30, 1, 0, 5, 6, 1]) + struct.pack("<i", -5) + b"\x01" + struct.pack("<i", 70_000)
          + bytes([10, 2, 0, 0, 1, 0x81, 0x01]) + bytes([40, 1, 0, 3, 3, 1]) + struct.pack("<i", 9))
EVENT_LINES = ["binary 3 1 01 2026-11-25T03:00:01.000Z event"]
VALUE_LINES = ["analog 5 -5 01 - static", "analog 6 70000 01 - static", "output 0 1 01 - static", "output 1 0 01 - static",
               "setpoint 3 9 01 - static"]


def poll(place, *words, out=subprocess.PIPE):
    return subprocess.Popen([DNP, "poll", place, *words], stdin=subprocess.DEVNULL, stdout=out, stderr=subprocess.PIPE)


def ended(process):
    out, err = process.communicate(timeout=60)
    return process.returncode, (out or b"").decode().splitlines(), err.decode().splitlines()


def case(name, holds, *seen):
    print(f"ok {name}" if holds else f"FAILED {name}: {seen}", flush=True)
    return bool(holds)


def against(name, serve, status, lines, says, *words, functions=None, strange=()):
    """A poll of an outstation that serves so ends with this status, these lines, and these words on standard error, behind a line that
    says what strange came."""
    station = Outstation(serve)
    came = ended(poll(station.place, *words))
    station.thread.join(5)
    heard = station.functions()
    good = came[0] == status and came[1] == lines and len(came[2]) == (1 if says else 0) + bool(strange)
    good = good and all(said in came[2][-1] for said in says) and all(said in came[2][0] for said in strange) and station.wrong is None
    return case(name, good and (functions is None or heard == functions), came, heard, station.wrong)


# ---- how outstations serve

def reads_two(printed):
    """A READ's response in two fragments, each with a confirm; `printed` tells what the poll has printed by then."""
    def serve(station):
        sequence = station.fragment()[0] % 16
        # one that was asked for by nobody's number comes first, and isn't told
        station.answer(sequence + 5, EVENT, bits=CON)
        station.answer(sequence, EVENT, one=0x80, bits=CON, last=False)
        assert station.fragment() == bytes([0xC0 | sequence, 0])
        assert printed(1) == EVENT_LINES, printed(0)
        station.answer(sequence + 1, VALUES, one=0x80, bits=CON, first=False)
        assert station.fragment() == bytes([0xC0 | sequence + 1, 0])
        assert printed(5) == VALUE_LINES, printed(0)
    return serve


def one_answer(*objects, **bits):
    def serve(station):
        station.answer(station.fragment()[0], *objects, **bits)
    return serve


def answers_each(*statuses):
    """Each of so many commands is answered by itself with this status; none is answered after that."""
    def serve(station):
        for status in statuses:
            fragment = station.fragment()
            station.answer(fragment[0], fragment[2:-1], bytes([status]))
    return serve


def unasked(station):
    station.answer(7, EVENT, bits=UNS | CON)
    fragment = station.fragment()
    if fragment[1] == 1:
        confirm = station.fragment()
    else:
        fragment, confirm = station.fragment(), fragment
    assert confirm == bytes([0xC0 | UNS | 7, 0]), confirm.hex(" ")
    station.answer(fragment[0], one=0x80)


def reports_on(station):
    """Reports that nobody asked for come without an end, ten in the time that the poll waits, and no answer."""
    station.fragment()
    for number in range(200):
        try:
            station.answer(number, bits=UNS)
        except ConnectionError:
            raise Ended from None
        time.sleep(0.03)


def answers_as(source, dest=MASTER):
    """What is asked is answered, by frames with these link addresses."""
    def serve(station):
        sequence = station.fragment()[0]
        station.ends = dest, source
        station.answer(sequence, VALUES)
    return serve


def numbered_otherwise(station):
    """What is asked is answered with the sequence number after the next one, and waits."""
    station.answer((station.fragment()[0] + 2) % 16, VALUES)


def greets(station):
    station.give(b"SSH-2.0-OpenSSH_9.2p1 Debian-2\r\n")
    station.fragment()


def half_an_answer(station):
    """The first fragment of a response, and nothing more."""
    station.answer(station.fragment()[0], EVENT, last=False)


def noise(station):
    station.fragment()
    station.stream.sendall(b"\x05\x64\x00no frame at all" * 9)
    station.stream.shutdown(socket.SHUT_WR)


def foreign_cases():
    """Against the outstation of another make."""
    good = True

    # each row is out before its fragment is confirmed, and all of them are, in order
    come = b""

    def printed(count):
        nonlocal come
        while come.count(b"\n") < count and select.select([process.stdout], [], [], 0)[0]:
            come += os.read(process.stdout.fileno(), 65536)
        # (what comes after these lines is kept for the end)
        lines = come.splitlines(keepends=True)
        come = b"".join(lines[count:])
        return [line.decode().rstrip("\n") for line in lines[:count]]

    begun = threading.Event()

    def serve(station):
        begun.wait(10)
        reads_two(printed)(station)

    station = Outstation(serve)
    process = poll(station.place)
    begun.set()
    # (nobody else reads its output meanwhile)
    station.thread.join(20)
    status, lines, said = ended(process)
    came = status, come.decode().splitlines() + lines, said
    good &= case("rows-are-out-before-they-are-confirmed", came == (0, ["iin 80 00 restart"], []) and station.wrong is None, came, station.wrong)

    # what asks for no confirm gets none, nor does anything with --confirm no
    read = one_answer(EVENT, VALUES, bits=CON)
    lines = EVENT_LINES + VALUE_LINES + ["iin 00 00"]
    good &= against("confirms-what-asks-for-it", read, 0, lines, [], functions=[1, 0])
    good &= against("confirms-nothing-where-told", read, 0, lines, [], "--confirm", "no", functions=[1])
    good &= against("prints-and-confirms-what-nobody-asked-for", unasked, 0, [EVENT_LINES[0] + " unsolicited", "iin 80 00 restart"], [])
    good &= against("reads-the-classes-that-are-named", one_answer(), 0, ["iin 00 00"], [], "--classes", "02", functions=[1])
    good &= against("sets-the-clock", one_answer(), 0, ["time iin 00 00"], [], "--time", "now", functions=[2])

    # JSON
    station = Outstation(read)
    came = ended(poll(station.place, "--json"))
    objects = [json.loads(line) for line in came[1]]
    wanted = {"kind": "binary", "index": 3, "value": 1, "flags": "01", "time": TIME, "event": True, "unsolicited": False}
    good &= case("prints-json", came[0] == 0 and objects[0] == wanted and objects[4]["kind"] == "output"
                 and objects[-1] == {"task": "poll", "iin": ["00", "00"]}, came)

    # what it refuses
    good &= against("tells-an-error-bit", one_answer(two=2), 1, ["iin 00 02 object-unknown"], [])
    nonsense = one_answer(EVENT, bytes([110, 1, 0, 0, 0, 65]), bits=CON)
    good &= against("refuses-an-answer-out-of-the-grammar", nonsense, 1, [], ["response refused: 110.1 at octet 18 is not in the profile"], functions=[1])
    short = lambda station: (station.fragment(), station.send(b"\xc0\x81"))  # noqa: E731
    good &= against("refuses-a-cut-answer", short, 1, [], ["response refused: Short at octet 2"], functions=[1])

    # commands
    operate = ("--operate", COMMAND)
    both = ["select 5 SUCCESS", "operate 5 SUCCESS"]
    good &= against("operates-what-was-selected", answers_each(0, 0), 0, both, [], *operate, functions=[3, 4])
    good &= against("operates-nothing-that-was-refused", answers_each(4), 1, ["select 5 NOT_SUPPORTED"], [], *operate, functions=[3])
    other = bytes([12, 1, 0x28, 1, 0, 6, 0, 3, 1]) + bytes(9)
    good &= against("operates-nothing-that-was-answered-otherwise", one_answer(other), 1, ["select 5 unanswered"], [], *operate, functions=[3])
    good &= against("tells-a-refused-operate", answers_each(0, 7), 1, [both[0], "operate 5 LOCAL"], [], *operate, functions=[3, 4])
    patience = ("--timeout", "300")
    good &= against("selects-once-where-nothing-comes", answers_each(), 3, [], ["no response in 300 ms"], *operate, *patience, functions=[3])
    good &= against("operates-once-where-nothing-comes", answers_each(0), 3, both[:1],
                    ["no response in 300 ms", "output 5 may have been operated"], *operate, *patience, functions=[3, 4])

    # without a SELECT: what is sent has the octets of one, but for the function
    direct = (*operate, "--direct")
    good &= against("operates-directly", answers_each(0), 0, ["direct-operate 5 SUCCESS"], [], *direct, functions=[5])
    good &= against("tells-a-refused-direct-operate", answers_each(7), 1, ["direct-operate 5 LOCAL"], [], *direct, functions=[5])
    good &= against("tells-a-direct-operate-that-is-not-repeated", one_answer(other), 1, ["direct-operate 5 unanswered"], [], *direct, functions=[5])
    good &= against("operates-directly-once-where-nothing-comes", answers_each(), 3, [],
                    ["no response in 300 ms", "output 5 may have been operated"], *direct, *patience, functions=[5])
    good &= against("tells-an-open-direct-operate-where-the-connection-ends", noise, 3, [],
                    ["the connection ended before the answer", "output 5 may have been operated"], *direct,
                    strange=["octets came, and no frame"])
    station = Outstation(answers_each(0))
    came = ended(poll(station.place, *direct, "--json"))
    station.thread.join(5)
    good &= case("sends-a-direct-operate", came[0] == 0 and station.heard == [b"\xc0\x05" + BLOCK] and json.loads(came[1][0])
                 == {"task": "direct-operate", "index": 5, "status": 0, "name": "SUCCESS", "iin": ["00", "00"]}, came, station.heard)

    # silence, noise, an end, and a lost output
    good &= against("waits-no-longer-than-told", lambda station: None, 3, [], ["no response in 300 ms"], *patience, functions=[1])
    began = time.monotonic()
    good &= against("waits-no-longer-while-other-things-come", reports_on, 3, [], ["no response in 300 ms"], *patience, functions=[1])
    took = time.monotonic() - began
    good &= case("waits-as-long-as-told", 0.3 <= took < 3, took)
    good &= against("ends-where-the-connection-does", noise, 3, [], ["the connection ended before the answer"], strange=["octets came, and no frame"])
    good &= against("tells-of-frames-of-others", answers_as(1), 3, [], ["no response in 300 ms"], *patience, functions=[1],
                    strange=["frames came from 1 to 2; this asks 10 as 2"])
    good &= against("tells-of-frames-for-others", answers_as(10, 7), 3, [], ["no response in 300 ms"], *patience, functions=[1],
                    strange=["frames came from 10 to 7; this asks 10 as 2"])
    good &= against("tells-of-another-sequence-number", numbered_otherwise, 3, [], ["no response in 300 ms"], *patience, functions=[1],
                    strange=["a response with sequence number 2 came, where 0 is awaited"])
    good &= against("tells-of-another-protocol", greets, 3, [], ["no response in 300 ms"], *patience, functions=[1],
                    strange=["octets came, and no frame"])
    station = Outstation(read)
    with open("/dev/full", "wb") as full:
        came = ended(poll(station.place, out=full))
    station.thread.join(5)
    good &= case("confirms-nothing-that-is-not-printed", came[0] == 3 and station.functions() == [1], came, station.functions())
    return good


def range_cases():
    """Points that are read by their indices."""
    good = True
    for text, octets in {
        "30.1:5-6": "1E 01 00 05 06",
        "1.2:7": "01 02 00 07 07",
        "30.0:0-255": "1E 00 00 00 FF",
        "40.2:255-256": "28 02 01 FF 00 00 01",
        "10.0:65535": "0A 00 01 FF FF FF FF",
        "110.255:1-2": "6E FF 00 01 02",
    }.items():
        station = Outstation(one_answer(VALUES))
        came = ended(poll(station.place, "--read", text))
        station.thread.join(5)
        good &= case(f"reads:{text}", came == (0, VALUE_LINES + ["iin 00 00"], []) and station.heard == [b"\xc0\x01" + bytes.fromhex(octets)],
                     came, [it.hex(" ") for it in station.heard])
    # each round and each listening begins with them
    station = Outstation(answers_reads(2))
    came = ended(poll(station.place, "--read", "30.1:5", "--repeat", "10ms", "--count", "2", "--clear-restart"))
    station.thread.join(5)
    good &= case("reads-points-in-rounds", came[0] == 0 and [it[1:3] for it in station.heard] == 2 * [b"\x02\x50", b"\x01\x1e"], came, station.heard)
    good &= against("tells-a-group-that-is-unknown", one_answer(two=2), 1, ["iin 00 02 object-unknown"], [], "--read", "110.1:0", functions=[1])
    for text in ("30.1", "30:1", ".1:0", "30.:0", "30.1:", "30.1:-1", "30.1:1-", "30.1:9-0", "256.1:0", "30.256:0", "30.1:65536", "30.1:0-9-9", "+30.1:0"):
        came = ended(poll("127.0.0.1:9", "--read", text))
        said = f"error: invalid value '{text}' for '--read <POINTS>': not a group, a variation and indices, as 30.1:0-9 or 1.2:7"
        good &= case(f"refuses-to-read:{text}", came[0] == 2 and came[1] == [] and came[2][:1] == [said], came)
    return good


def answers_reads(rounds):
    """So many rounds of two requests are answered."""
    def serve(station):
        for _ in range(2 * rounds):
            station.answer(station.fragment()[0])
    return serve


def waiting_cases():
    """What is said while a response is awaited."""
    good = True
    patience = ("--timeout", "1500")
    waits = "waiting for station 10: the "
    good &= against("tells-what-is-waited-for", lambda station: None, 3, [], ["no response in 1500 ms"], *patience, functions=[1],
                    strange=[waits + "response to READ, sequence number 0, is awaited since 20", "Z, for ", " ms more"])
    good &= against("tells-which-fragment-is-waited-for", half_an_answer, 3, EVENT_LINES, ["no response in 1500 ms"], *patience, functions=[1],
                    strange=[waits + "next fragment of the response to READ, sequence number 1, is awaited since 20"])
    good &= against("tells-which-command-is-waited-for", answers_each(0), 3, ["select 5 SUCCESS"], ["no response in 1500 ms"],
                    "--operate", COMMAND, *patience, strange=[waits + "response to OPERATE, sequence number 1, is awaited"])
    good &= against("tells-which-direct-command-is-waited-for", answers_each(), 3, [], ["output 5 may have been operated"],
                    "--operate", COMMAND, "--direct", *patience, strange=[waits + "response to DIRECT_OPERATE, sequence number 0, is awaited"])
    # (twelve reports in that time end no wait)
    good &= against("tells-it-once-while-other-things-come", reports_on, 3, [], ["no response in 1300 ms"], "--timeout", "1300", functions=[1],
                    strange=[waits + "response to READ"])

    def late(station):
        sequence = station.fragment()[0]
        time.sleep(1.3)
        station.answer(sequence)

    station = Outstation(late)
    came = ended(poll(station.place))
    good &= case("tells-nothing-else-of-a-late-answer", came[:2] == (0, ["iin 00 00"]) and len(came[2]) == 1 and waits in came[2][0], came)
    return good


def hex_cases():
    """The octets of both ways."""
    good = True

    def octets_of(lines, word):
        """The octets of the lines with this word after the time, one frame or piece an item."""
        found = [line.split(" ", 1)[1] for line in lines if line[:2] == "20"]
        return [bytes.fromhex(line.removeprefix(word)) for line in found if line.startswith(word + " 0") or line.startswith(word + " 5")]

    for name, serve, frames in (("prints-each-frame", one_answer(EVENT, VALUES, bits=CON), (2, 1)),
                                ("prints-frames-that-come-in-one-piece", in_one_piece(9 * VALUES, 9 * VALUES, 9 * VALUES), (3, 6))):
        station = Outstation(serve)
        plain = ended(poll(station.place))
        station = Outstation(serve)
        came = ended(poll(station.place, "--hex"))
        station.thread.join(5)
        sent, received = (octets_of(came[2], word) for word in ("sent", "received"))
        same = b"".join(sent) == station.came and b"".join(received) == station.went and (len(sent), len(received)) == frames
        whole = all(it[:2] == b"\x05d" for it in sent + received)
        good &= case(name, came[:2] == plain[:2] and same and whole and len(came[2]) == sum(frames), came, plain, station.wrong)

    # what is no frame is printed as such, before a frame and alone
    def noisy(station):
        sequence = station.fragment()[0]
        station.give(b"\x00\x05\x64\x05")
        station.answer(sequence)

    station = Outstation(noisy)
    came = ended(poll(station.place, "--hex"))
    station.thread.join(5)
    good &= case("prints-what-is-no-frame", came[0] == 0 and octets_of(came[2], "received, in no frame:") == [b"\x00\x05\x64\x05"]
                 and b"".join(octets_of(came[2], "received")) == station.went[4:], came)
    station = Outstation(greets)
    came = ended(poll(station.place, "--hex", "--timeout", "300"))
    station.thread.join(5)
    good &= case("prints-another-protocol", came[0] == 3 and octets_of(came[2], "received, in no frame:") == [station.went], came)
    return good


def in_one_piece(*contents):
    """A response of so many fragments, each with a confirm."""
    def serve(station):
        sequence = station.fragment()[0] % 16
        for number, objects in enumerate(contents):
            first, last = number == 0, number == len(contents) - 1
            station.held = b""
            station.answer(sequence + number, objects, first=first, last=last, bits=0 if last else CON)
            octets, station.held = station.held, None
            station.give(octets)
            if not last:
                assert station.fragment() == bytes([0xC0 | (sequence + number) % 16, 0])
    return serve


def listen_cases():
    """Unsolicited responses that are enabled and listened to."""
    good = True
    unasked = EVENT_LINES[0] + " unsolicited"
    times = []

    def listened(serve, *words):
        """The status, the lines without their times, what was said, and the station."""
        station = Outstation(serve)
        came = ended(poll(station.place, "--listen", *words))
        station.thread.join(5)
        lines = [line.split(" ", 1) for line in came[1]]
        times.append([line[0] for line in lines])
        return came[0], [line[1] for line in lines], came[2], station

    def reports(station):
        """It answers what it is asked, and sends an unsolicited response in one piece with the answer to ENABLE, and one later."""
        station.answer(station.fragment()[0], VALUES)
        enable = station.fragment()
        assert enable[1:] == bytes([20, 60, 2, 6, 60, 3, 6, 60, 4, 6]), enable.hex(" ")
        station.held = b""
        station.answer(enable[0])
        station.answer(3, one=0x80, bits=UNS | CON)
        octets, station.held = station.held, None
        station.give(octets)
        assert station.fragment() == bytes([0xC0 | UNS | 3, 0])
        time.sleep(0.2)
        station.answer(4, EVENT, bits=UNS | CON)
        assert station.fragment() == bytes([0xC0 | UNS | 4, 0])
        disable = station.fragment()
        assert disable[1:] == bytes([21, 60, 2, 6, 60, 3, 6, 60, 4, 6]), disable.hex(" ")
        station.answer(disable[0])

    began = time.monotonic()
    status, lines, says, station = listened(reports, "--for", "1s")
    took = time.monotonic() - began
    wanted = VALUE_LINES + ["iin 00 00", "enable iin 00 00", "unsolicited iin 80 00 restart", unasked, "unsolicited iin 00 00", "disable iin 00 00"]
    good &= case("listens-for-a-time", (status, lines, says) == (0, wanted, []) and station.wrong is None and 1 <= took < 4,
                 status, lines, says, station.wrong, took)
    good &= case("prints-the-times", times and all(len(it) == 24 and it[-1] == "Z" for it in times[0]) and times[0] == sorted(times[0]), times)

    def of_one_class(station):
        for function in (1, 20, 21):
            fragment = station.fragment()
            assert fragment[1:] == bytes([function, 60, 3, 6]), fragment.hex(" ")
            station.answer(fragment[0])

    status, lines, says, station = listened(of_one_class, "--classes", "2", "--for", "100ms")
    good &= case("listens-to-the-classes-that-are-named", status == 0 and station.wrong is None, status, lines, says, station.wrong)

    def refuses(station):
        station.answer(station.fragment()[0])
        station.answer(station.fragment()[0], two=1)

    status, lines, says, station = listened(refuses, "--for", "1s")
    good &= case("listens-to-nothing-that-is-refused", (status, lines) == (1, ["iin 00 00", "enable iin 00 01 no-function"])
                 and station.functions() == [1, 20], status, lines, says)

    def leaves(station):
        station.answer(station.fragment()[0])
        station.answer(station.fragment()[0])
        raise Ended

    status, lines, says, station = listened(leaves)
    good &= case("tells-that-the-outstation-left", status == 3 and len(says) == 1 and "ended the connection while this listened" in says[0],
                 status, lines, says)

    # until it is ended: each line is out at once, and nothing is disabled
    def goes_on(station):
        station.answer(station.fragment()[0])
        station.answer(station.fragment()[0])
        station.answer(5, EVENT, bits=UNS | CON)

    station = Outstation(goes_on)
    process = poll(station.place, "--listen", "--json")
    lines = [json.loads(process.stdout.readline()) for _ in range(4)]
    for _ in range(400):
        if len(station.heard) == 3:
            break
        time.sleep(0.05)
    process.terminate()
    process.communicate(timeout=20)
    station.thread.join(5)
    good &= case("listens-until-it-is-ended", [it.get("task", it.get("kind")) for it in lines] == ["poll", "enable", "binary", "unsolicited"]
                 and all(it["at"] > TIME - 10**12 for it in lines) and station.functions() == [1, 20, 0], lines, station.functions())

    # and a command before that
    def operates(station):
        station.answer(station.fragment()[0])
        for status in (0, 0):
            fragment = station.fragment()
            station.answer(fragment[0], fragment[2:-1], bytes([status]))
        station.answer(6, EVENT, bits=UNS | CON)
        station.fragment()
        station.answer(station.fragment()[0])

    status, lines, says, station = listened(operates, "--operate", COMMAND, "--for", "500ms")
    good &= case("operates-and-listens", (status, lines) == (0, ["enable iin 00 00", "select 5 SUCCESS", "operate 5 SUCCESS", unasked,
                                                                "unsolicited iin 00 00", "disable iin 00 00"]), status, lines, says, station.wrong)
    return good


def counts_up(station):
    """Each READ is answered with an event of binary 0, ten binaries and twenty analogs, of which 0 and 15 change each time, and not 3."""
    for number in range(1, 100):
        fragment = station.fragment()
        event = bytes([2, 2, 0x28, 1, 0, 0, 0, 0x81 if number % 2 else 1]) + struct.pack("<Q", TIME + 1000 * number)[:6]
        binaries = bytes([1, 2, 0, 0, 9, 0x81 if number % 2 else 1]) + 9 * b"\x01"
        analogs = bytes([30, 1, 0, 0, 19]) + b"".join(b"\x01" + struct.pack("<i", number if k == 15 else 100 * k) for k in range(20))
        station.answer(fragment[0], event, binaries, analogs, one=0x80)


def screens_of(place, *words, **environment):
    """What a poll draws at a terminal: the lines of each screen, and all that it wrote."""
    ours, its = pty.openpty()
    process = subprocess.Popen([DNP, "poll", place, *words], stdin=subprocess.DEVNULL, stdout=its, stderr=subprocess.PIPE,
                               env={**os.environ, "TERM": "xterm", **environment})
    os.close(its)
    written = b""
    while True:
        try:
            piece = os.read(ours, 65536)
        except OSError:
            break
        if not piece:
            break
        written += piece
    os.close(ours)
    process.communicate(timeout=20)
    text = written.decode().replace("\r\n", "\n")
    return [screen.splitlines() for screen in text.split("\x1b[H\x1b[J")], text


def table_cases():
    """Rounds as a table at a terminal, and as lines elsewhere."""
    good = True
    words = ("--classes", "10", "--repeat", "50ms", "--count", "3")

    # at a pipe: each round begins with a line, and nothing is drawn
    station = Outstation(counts_up)
    status, lines, says = ended(poll(station.place, *words))
    marks = [line for line in lines if line.startswith("round ")]
    good &= case("marks-rounds", status == 0 and says == [] and [line.split()[1] for line in marks] == ["1", "2", "3"] and lines[0] == marks[0]
                 and all(len(line.split()[2]) == 24 for line in marks) and len(lines) == 3 * 33 and not any("\x1b" in line for line in lines), lines)
    station = Outstation(counts_up)
    status, lines, says = ended(poll(station.place, *words, "--json"))
    objects = [json.loads(line) for line in lines]
    good &= case("marks-rounds-as-json", [it["round"] for it in objects if "round" in it] == [1, 2, 3] and all("at" not in it for it in objects), lines)
    station = Outstation(counts_up)
    status, lines, says = ended(poll(station.place, *words, "--times"))
    good &= case("tells-the-time-of-each-line", all(line[:2] == "20" and line[23:25] == "Z " for line in lines if not line.startswith("round"))
                 and sum(line.startswith("round") for line in lines) == 3, lines)

    # at a terminal: one screen a fragment, with what changed marked
    station = Outstation(counts_up)
    screens, text = screens_of(station.place, *words, "--height", "60", NO_COLOR="1")
    good &= case("draws-a-screen-each-round", len(screens) == 4 and screens[0] == [] and all(len(it) == 33 for it in screens[1:]), screens)
    shown = screens[-1] if len(screens) == 4 else [""] * 33
    good &= case("draws-each-point", shown[0].startswith("round 3 20") and shown[0].endswith("Z station 10")
                 and shown[1] == "  kind     index       value flags time"
                 and shown[2] == "* binary       0           1    01 2026-11-25T03:00:04.000Z"
                 and shown[5] == "  binary       3           0    01 -" and shown[27] == "* analog      15           3    01 -"
                 and shown[28] == "  analog      16        1600    01 -" and shown[32] == "iin 80 00 restart", shown)
    marked = [[line for line in screen if line.startswith("*")] for screen in screens[1:]]
    good &= case("marks-what-changed", [len(it) for it in marked] == [0, 2, 2], marked)
    good &= case("has-no-colour-where-none-is-wanted", "\x1b[33m" not in text and text.count("\x1b") == 6, text.count("\x1b"))

    # fewer lines: those that changed are among them
    station = Outstation(counts_up)
    screens, text = screens_of(station.place, *words, "--height", "12", NO_COLOR="")
    shown = screens[-1]
    good &= case("draws-what-there-is-room-for", len(shown) == 11 and shown[-2] == "  and 23 more: '--height' gives the table more lines"
                 and any("analog      15" in line for line in shown), shown)
    good &= case("colours-what-changed", text.count("\x1b[33m* ") == 4, text)

    # lines at a terminal, where they are asked for
    for option in ("--json", "--times"):
        station = Outstation(counts_up)
        screens, text = screens_of(station.place, *words, option)
        good &= case(f"draws-nothing-with{option[1:]}", len(screens) == 1 and "\x1b" not in text, text[:200])
    station = Outstation(counts_up)
    screens, text = screens_of(station.place, *words, TERM="dumb")
    good &= case("draws-nothing-on-a-dumb-terminal", "\x1b" not in text, text[:200])
    return good


# The object of each command after the function, by IEEE Std 1815-2012, 12.1 (code, count, ms on, ms off, status) and 41.1 and
# 41.2 (value, status), with an index of two octets. The codes are those of opendnp3's ControlCode as well.
SENT = {
    "latch-on 3": "0C 01 28 01 00 03 00 03 01 00 00 00 00 00 00 00 00 00",
    "latch-off 3": "0C 01 28 01 00 03 00 04 01 00 00 00 00 00 00 00 00 00",
    "pulse-on 3 100ms": "0C 01 28 01 00 03 00 01 01 64 00 00 00 00 00 00 00 00",
    "pulse-off 3 2s": "0C 01 28 01 00 03 00 02 01 D0 07 00 00 00 00 00 00 00",
    "close 3 100ms": "0C 01 28 01 00 03 00 41 01 64 00 00 00 00 00 00 00 00",
    "trip 3 100ms": "0C 01 28 01 00 03 00 81 01 64 00 00 00 00 00 00 00 00",
    "trip 259 4294967295ms": "0C 01 28 01 00 03 01 81 01 FF FF FF FF 00 00 00 00 00",
    "close 3 4294967s": "0C 01 28 01 00 03 00 41 01 D8 FE FF FF 00 00 00 00 00",
    "set16 2 -1": "29 02 28 01 00 02 00 FF FF 00",
    "set32 2 -2": "29 01 28 01 00 02 00 FE FF FF FF 00",
    "block 1 129 2 100 200": "0C 01 28 01 00 01 00 81 02 64 00 00 00 C8 00 00 00 00",
    "block 1 0x81 2 100 200": "0C 01 28 01 00 01 00 81 02 64 00 00 00 C8 00 00 00 00",
}
# What is refused before a connection is made, and what standard error says of it.
REFUSED = {
    "Trip 3 100ms": "word 1: 'Trip', where latch-on, latch-off, pulse-on, pulse-off, close, trip, set16, set32 or block belongs",
    "trip 3 100": "word 3: '100', where a time as 100ms or 2s, 4294967295ms at most, belongs",
    "trip 3": "word 3: the words end, where a time as 100ms or 2s, 4294967295ms at most, belongs",
    "trip -1 1s": "word 2: '-1', where an output's number, 0 to 65535, belongs",
    "latch-on 3 1s": "word 3: '1s', where the end belongs",
    "block 5 0x1G 1 0 0": "word 3: '0x1G', where a control code, 0 to 255 or 0x00 to 0xFF, belongs",
    "block 1 81 1 100 100": "81 is 0x51: PULSE_ON, CLOSE, queue; trip is 0x81 ('--raw' sends it all the same)",
    "block 1 41 1 100 100": "41 is 0x29: reserved operation, clear; close is 0x41 ('--raw' sends it all the same)",
    "block 1 0x51 1 100 100": "81 is 0x51: PULSE_ON, CLOSE, queue ('--raw' sends it all the same)",
    "block 1 0 1 0 0": "0 is 0x00: NUL ('--raw' sends it all the same)",
    "block 1 193 1 0 0": "193 is 0xC1: PULSE_ON, reserved relay ('--raw' sends it all the same)",
}


def command_cases():
    """Each word of a command, as it goes over the wire, and those that nothing is sent for."""
    good = True

    def sends(name, text, octets, *words):
        station = Outstation(answers_each(0, 0))
        came = ended(poll(station.place, "--operate", text, *words))
        station.thread.join(5)
        wanted = [bytes([function]) + bytes.fromhex(octets) for function in (3, 4)]
        heard = [fragment[1:] for fragment in station.heard]
        return case(name, came[0] == 0 and heard == wanted, came, [it.hex(" ") for it in heard])

    for text, octets in SENT.items():
        good &= sends(f"sends:{text}", text, octets)
    good &= sends("sends-any-code-where-told", "block 1 81 1 100 100", "0C 01 28 01 00 01 00 51 01 64 00 00 00 64 00 00 00 00", "--raw")
    for text, why in REFUSED.items():
        came = ended(poll("127.0.0.1:9", "--operate", text))
        said = f"error: invalid value '{text}' for '--operate <COMMAND>': {why}"
        good &= case(f"refuses:{text}", came[0] == 2 and came[1] == [] and came[2][:1] == [said], came)
    return good


def word_cases():
    """Words, and no connection."""
    good = True
    closed = socket.create_server(("127.0.0.1", 0))
    place = f"127.0.0.1:{closed.getsockname()[1]}"
    closed.close()
    came = ended(poll(place))
    good &= case("tells-that-nobody-listens", came[0] == 3 and came[1] == [] and len(came[2]) == 1, came)
    for name, words in {
        "operate-and-repeat": ["--operate", COMMAND, "--repeat", "1s"],
        "no-command": ["--operate", "block 5 3"],
        "raw-without-a-command": ["--raw"],
        "direct-without-a-command": ["--direct"],
        "direct-and-repeat": ["--operate", COMMAND, "--direct", "--repeat", "1s"],
        "points-and-classes": ["--read", "30.1:0", "--classes", "1"],
        "class-twice": ["--classes", "11"],
        "no-time": ["--repeat", "5"],
        "count-alone": ["--count", "2"],
        "another-word": ["--confirm", "maybe"],
        "timeout-of-0": ["--timeout", "0"],
        "time-of-49-bits": ["--time", str(2**48)],
        "height-without-rounds": ["--height", "30"],
        "height-of-json": ["--repeat", "1s", "--height", "30", "--json"],
        "height-of-lines": ["--repeat", "1s", "--height", "30", "--times"],
        "height-of-nine": ["--repeat", "1s", "--height", "9"],
        "listening-in-rounds": ["--listen", "--repeat", "1s"],
        "listening-without-confirms": ["--listen", "--confirm", "no"],
        "time-of-no-listening": ["--for", "1s"],
        "listening-for-no-time": ["--listen", "--for", "0s"],
    }.items():
        came = ended(poll(place, *words))
        good &= case(f"refuses-{name}", came[0] == 2 and came[1] == [], came)
    came = ended(poll("127.0.0.1"))
    good &= case("refuses-no-port", came[0] == 2 and came[1] == [], came)
    return good


PLAN = """confirm_ms = 5000
response_ms = 10000
select_ms = 5000
retries = 0
unsolicited = false
queue = [9, 9, 9, 9, 9, 9, 9, 9, 9]
queue2 = [9, 9, 9, 9, 9, 9, 9, 9, 9]
[[substation]]
lanes = [9, 9, 9, 9, 9, 9, 9, 9, 9]
binary = [1, 1, 1, 1]
counter = [2]
analog = [3]
deadband = [0]
outputs = 6
setpoints = 1
base = [0, 0, 0, 0, 0]
"""


def own_cases():
    """Against `dnp outstation`."""
    good = True
    with tempfile.TemporaryDirectory() as room:
        Path(room, "plan.toml").write_text(PLAN, encoding="ascii")
        Path(room, "day.txt").write_text(f"0 change binary 3 1 01 {TIME}\n", encoding="ascii")
        with socket.create_server(("127.0.0.1", 0)) as taken:
            port = taken.getsockname()[1]
        words = ["--plan", "plan.toml", "--station", "0", "--port", str(port), "--replay", "day.txt", "--connections", "14"]
        station = subprocess.Popen([DNP, "outstation", *words], cwd=room, stdin=subprocess.DEVNULL, stdout=subprocess.DEVNULL,
                                   stderr=subprocess.DEVNULL)
        try:
            place = f"127.0.0.1:{port}"
            for _ in range(400):
                if f":{port:04X} 00000000:0000 0A" in Path("/proc/net/tcp").read_text(encoding="ascii"):
                    break
                time.sleep(0.05)
            status, lines, says = ended(poll(place, "--confirm", "no", "--classes", "1"))
            good &= case("reads-events", (status, lines, says) == (0, EVENT_LINES + ["iin 80 00 restart"], []), status, lines, says)
            status, lines, says = ended(poll(place, "--clear-restart", "--classes", "1230", "--repeat", "50ms", "--count", "3"))
            cleared = ["clear-restart iin 02 00 class-1-events"] + 2 * ["clear-restart iin 00 00"]
            good &= case("keeps-events-that-are-not-confirmed", status == 0 and lines[1] == EVENT_LINES[0], status, lines, says)
            good &= case("asks-again-on-one-connection", [line for line in lines if line.startswith("clear")] == cleared
                         and lines.count(EVENT_LINES[0]) == 1 and lines.count("iin 00 00") == 3, lines)
            static = "binary 3 1 01 - static"
            good &= case("reads-present-values", lines.count(static) == 3 and "counter 0 0 02 - static" in lines, lines)
            came = ended(poll(place, "--operate", COMMAND))
            good &= case("operates", came == (0, ["select 5 SUCCESS", "operate 5 SUCCESS"], []), came)
            came = ended(poll(place, "--operate", "block 9 3 1 0 0"))
            good &= case("tells-what-is-not-there", came == (1, ["select 9 NOT_SUPPORTED"], []), came)
            for text in ("trip 3 100ms", "close 3 100ms", "latch-off 3"):
                came = ended(poll(place, "--operate", text))
                good &= case(f"operates:{text}", came == (0, ["select 3 SUCCESS", "operate 3 SUCCESS"], []), came)
            came = ended(poll(place, "--operate", "set16 0 -7"))
            good &= case("sets", came == (0, ["select 0 SUCCESS", "operate 0 SUCCESS"], []), came)
            came = ended(poll(place, "--operate", "latch-on 4", "--direct"))
            good &= case("operates-directly-here", came == (0, ["direct-operate 4 SUCCESS"], []), came)
            came = ended(poll(place, "--operate", "latch-on 9", "--direct"))
            good &= case("tells-what-is-not-there-directly", came == (1, ["direct-operate 9 NOT_SUPPORTED"], []), came)
            came = ended(poll(place, "--read", "10.0:3-4"))
            good &= case("reads-a-range", (came[0], came[2]) == (0, []) and came[1][:-1] == ["output 3 0 01 - static", "output 4 1 01 - static"], came)
            came = ended(poll(place, "--read", "110.1:0"))
            good &= case("tells-an-unknown-group", came[0] == 1 and "object-unknown" in came[1][0], came)
            came = ended(poll(place, "--peer", "11", "--timeout", "300"))
            good &= case("tells-a-wrong-address", came[0] == 3 and "no response in 300 ms" in came[2][0], came)
            # (as a station of another number answers: its frames are told)
            came = ended(poll(place, "--own", "3", "--timeout", "300"))
            good &= case("is-no-other-master", came[0] == 3 and "no response in 300 ms" in came[2][0], came)
        finally:
            station.kill()
            station.wait()
    return good


if __name__ == "__main__":
    results = [foreign_cases(), range_cases(), waiting_cases(), hex_cases(), listen_cases(), table_cases(), command_cases(), word_cases(), own_cases()]
    sys.exit(0 if all(results) else 1)
