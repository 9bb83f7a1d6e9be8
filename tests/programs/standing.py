"""A network over connections that stand: `dnp concentrate --network` and `dnp centre --network` over files in one folder, substations by `dnp
outstation` and of another make, and what came of it: rows and their ages, and the lines of logs."""
import collections
import itertools
import json
import os
import re
import subprocess
import threading
import time
from pathlib import Path

from counting import FILES
from network import DNP, is_listening
from peers import now_ms
from relay import Relay, Witness
from scale import scaled

HOST = "127.0.0.1"
# the files are in memory where that can be, since a disk that others write to takes longer for a step of a store than all else together
MEMORY = "/dev/shm" if os.access("/dev/shm", os.W_OK) else None
# points of each substation, and how long anything is waited for, in seconds
POINTS, WAIT = 3, scaled(10, 40)
RESPONSE_MS = scaled(1000, 5000)
POLL_MS = 2 * RESPONSE_MS
# how often a substation has an event, in seconds
EVERY_S = scaled(0.2, 1)
# how old rows may be when they come, in the middle; of checked programs, of which `dnp rows` is one, hardly anything is asked
MEDIAN_MS = scaled(200, 60_000)
# what memory a program may take; of a checked one nothing is asked
MOST_KB = scaled(40_000, 1 << 30)
PLACES = 1000
LANES = "[" + ", ".join([str(PLACES)] * 9) + "]"
PLAN = f"""confirm_ms = {5 * RESPONSE_MS}
response_ms = {RESPONSE_MS}
select_ms = 5000
retries = 3
unsolicited = true
queue = {LANES}
queue2 = {LANES}
"""
SUBSTATION = f"""[[substation]]
lanes = {LANES}
binary = []
counter = []
analog = {[1 + index % 3 for index in range(POINTS)]}
deadband = {[0] * POINTS}
outputs = 1
setpoints = 1
base = [0, 0, {{first}}, {{number}}, {{number}}]
"""
NETWORK = """[concentrator]
listen = "{listen}"
listen2 = "{listen2}"
at = "{at}"
at2 = "{at2}"
[defaults]
{polls}poll_ms = {poll_ms}
[centre]
{polls}"""
STATION = """[[substation]]
at = "{at}"
listen = "{listen}"
"""


# a hundred for each process of those that run side by side, below those that the system gives to others, and above those of network.py
PORTS = itertools.cycle(range(30_050 + os.getpid() % 27 * 100, 30_150 + os.getpid() % 27 * 100))


def free_port():
    """A port where nobody listens, the one after the last one where that is free."""
    return next(port for port in itertools.islice(PORTS, 100) if not is_listening(port))


def judge(name, *faults, told=""):
    """Prints what became of a case, and whether it was good."""
    faults = [fault for fault in faults if fault]
    print(f"{'FAILED' if faults else 'ok'} {name}{told and f' ({told})'}" + "".join(f"\n    {fault}" for fault in faults), flush=True)
    return not faults


def awaited(what, seconds=WAIT, step=0.02):
    """Whether something comes to be so in time."""
    end = time.monotonic() + seconds
    while time.monotonic() < end:
        if what():
            return True
        time.sleep(step)
    return bool(what())


def above(substation, index):
    """The index of an analog input at the concentrator."""
    return 100 * substation + index


def place_text(place):
    return f"{place[0]}:{place[1]}"


def percentile(numbers, part):
    """The number under which this part of the numbers is."""
    ordered = sorted(numbers)
    return ordered[min(len(ordered) - 1, int(len(ordered) * part))] if ordered else None


def ages(rows):
    """How old each row was when it came, in milliseconds: of those that have a time."""
    return [row.came - row.time for row in rows if row.time is not None]


def aged(rows):
    """The ages in words."""
    found = ages(rows)
    return f"{len(found)} rows, median {percentile(found, 0.5)} ms, 99th percentile {percentile(found, 0.99)} ms" if found else "no rows"


def each_once(name, rows, made, often=1):
    """Nothing, or which of the events that were made didn't come, came with another time, came more often than that, or never were. `made` has
    the time of each event by its index and value, or none where that isn't known."""
    came = collections.Counter((row.index, row.value) for row in rows)
    found = {
        "missing": sorted(event for event in made if event not in came),
        "never made": sorted(event for event in came if event not in made),
        "more than once": sorted(event for event, count in came.items() if count > often),
        "with another time": sorted((row.index, row.value) for row in rows if made.get((row.index, row.value)) not in (None, row.time)),
    }
    words = [f"{len(events)} {what}, as {events[:3]}" for what, events in found.items() if events]
    return f"{name}: {', '.join(words)} (of {len(made)})" if words else ""


def made_of(number, peer):
    """The events of a substation of another make, as they are above."""
    return {(above(number, event.index), event.value): event.time for event in peer.made}


def made_by_replay(number, count, first=1):
    """Those of `replay_of`."""
    return {(above(number, value % POINTS), value): None for value in range(first, first + count)}


class Follower(threading.Thread):
    """`dnp rows --follow` over a journal: each row with the moment at which it was read."""

    Row = collections.namedtuple("Row", "came index value time")

    def __init__(self, room, journal):
        super().__init__(daemon=True)
        self.rows = []
        words = [DNP, "rows", "--journal", journal, "--follow", "--every", "50", "--json"]
        self.program = subprocess.Popen(words, cwd=room, stdout=subprocess.PIPE, stderr=subprocess.DEVNULL)
        self.start()

    def run(self):
        for line in self.program.stdout:
            row = json.loads(line)
            self.rows.append(self.Row(now_ms(), row["index"], row["value"], row["time"]))

    def end(self):
        self.program.terminate()
        self.program.wait()
        self.join(5)


class Network:
    """A plan of so many substations, and the programs over it."""

    # the keys of polling of each link
    POLLS = 'unsolicited = "123"\n'

    def __init__(self, room, substations, ways=None, has_witness=False):
        """`ways` are the places where the concentrator finds a substation that isn't found where it listens, by its number. A witness is between
        the first centre and the concentrator."""
        self.room, self.programs, self.peers, self.relays = Path(room), {}, [], []
        self.room.mkdir(exist_ok=True)
        self.place_all(substations, ways or ())
        if has_witness:
            self.ways_above = [self.place_of_witness(), self.doors[1]]
        self.write()

    def place_all(self, substations, ways):
        """Says where all of them are."""
        self.listens = [(HOST, free_port()) for _ in range(substations)]
        self.doors = [(HOST, free_port()) for _ in range(2)]
        self.ways = [(HOST, free_port()) if number in ways else listen for number, listen in enumerate(self.listens)]
        self.ways_above = self.doors

    def place_of_witness(self):
        return HOST, free_port()

    def witness(self):
        """Begins the witness."""
        witness = Witness(self.ways_above[0], self.doors[0], namespace=self.namespace("scada"))
        self.relays.append(witness)
        return witness

    def words_of(self, name, words):
        """The words by which a program of this name is begun."""
        return words

    def write(self):
        plan = "".join(SUBSTATION.format(first=above(number, 0), number=number) for number in range(len(self.listens)))
        (self.room / "plan.toml").write_text(PLAN + plan, encoding="ascii")
        (listen, listen2), (at, at2) = (map(place_text, places) for places in (self.doors, self.ways_above))
        head = NETWORK.format(listen=listen, listen2=listen2, at=at, at2=at2, poll_ms=POLL_MS, polls=self.POLLS)
        each = (STATION.format(at=place_text(way), listen=place_text(listen)) for way, listen in zip(self.ways, self.listens))
        (self.room / "network.toml").write_text(head + "".join(each), encoding="ascii")

    def begin(self, name, *words):
        """Begins a program of this name, whose log goes on where it had one."""
        words = self.words_of(name, [DNP, words[0], "--plan", "plan.toml", "--network", "network.toml", *words[1:]])
        with open(self.room / f"{name}.log", "ab") as log, open(self.room / f"{name}.out", "ab") as out:
            program = subprocess.Popen(words, cwd=self.room, stdin=subprocess.DEVNULL, stdout=out, stderr=log)
        self.programs[name] = program
        return program

    def concentrate(self):
        new = [] if (self.room / "queue.db").exists() else ["--new"]
        program = self.begin("concentrator", "concentrate", "--queue", "queue.db", "--controls", "below.db", *new)
        return program if self.is_open(self.doors[1]) else None

    def centre(self, *words, number=1):
        """A centre, whose files have its number after their names as in counting.py."""
        journal, book = (f"{name}{FILES[number]}.db" for name in ("journal", "above"))
        new = [] if (self.room / journal).exists() else ["--new"]
        which = ["--number", str(number), "--journal", journal, "--controls", book]
        program = self.begin(f"centre{FILES[number]}", "centre", *which, *new, *words)
        awaited(lambda: (self.room / book).exists())
        return program

    def outstation(self, number, replay):
        """A substation by `dnp outstation`, with the changes of this text."""
        (self.room / f"replay{number}").write_text(replay, encoding="ascii")
        name = f"substation{number}"
        program = self.begin(name, "outstation", "--station", str(number), "--forever", "--replay", f"replay{number}")
        return program if self.is_open(self.listens[number]) else None

    def is_open(self, place):
        return awaited(lambda: is_listening(place[1]), 2 * WAIT)

    def namespace(self, host):
        """The network namespace of a host; none if all are on this machine."""
        return None

    def peer(self, kind, number, **how):
        """A substation of another make."""
        peer = kind(self.listens[number], own=10 + number, points=POINTS, namespace=self.namespace(f"rtu{number}"), **how)
        self.peers.append(peer)
        peer.start()
        return peer

    def peer_above(self, kind):
        """The second centre, of another make, which isn't begun yet."""
        peer = kind(self.ways_above[1], own=3, namespace=self.namespace("centre2"))
        self.peers.append(peer)
        return peer

    def relay(self, number, delay_ms=0):
        """A relay on the machine of a substation, where the concentrator finds it."""
        relay = Relay(self.ways[number], self.listens[number], delay_ms / 1000, self.namespace(f"rtu{number}"))
        self.relays.append(relay)
        return relay

    def follow(self):
        follower = Follower(self.room, "journal.db")
        self.peers.append(follower)
        return follower

    def kill(self, name):
        """Kills a program by SIGKILL."""
        self.programs[name].kill()
        self.programs[name].wait()
        # (its files may be held a moment longer)
        time.sleep(0.05)

    def log(self, name="concentrator"):
        return (self.room / f"{name}.log").read_text(encoding="utf-8")

    def lines_of(self, number):
        """What the concentrator's log says of a substation, without the times and the names."""
        pattern = rf"^\S+ substation {number}(?: \([^)]*\))?: (.*)$"
        return re.findall(pattern, self.log(), re.M)

    def says(self, pattern, name="concentrator", seconds=WAIT):
        """Nothing, or that no line of a log has it."""
        return "" if awaited(lambda: re.search(pattern, self.log(name)), seconds) else f"{name} does not say '{pattern}': {self.log(name)[-600:]}"

    def wrongs(self):
        """What no station may send, and what came all the same."""
        return [f"{peer.own}: {wrong}" for peer in self.peers if hasattr(peer, "wrong") for wrong in peer.wrong[:3]]

    def end(self):
        for program in self.programs.values():
            program.kill()
            program.wait()
        for peer in [*self.peers, *self.relays]:
            peer.end()


def processor_s(program):
    """How many seconds of a processor a program took."""
    return int(Path(f"/proc/{program.pid}/schedstat").read_text().split()[0]) / 1e9


def memory_kb(program):
    return int(re.search(r"VmRSS:\s+(\d+)", Path(f"/proc/{program.pid}/status").read_text())[1])


def replay_of(count, every_ms, first_ms=0, first=1):
    """So many changes, one each so many milliseconds: the value of each is its number, and its point as of one of another make."""
    return "".join(f"{first_ms + k * every_ms} change analog {(first + k) % POINTS} {first + k} 01 now\n" for k in range(count))
