#!/usr/bin/env python3
"""chaos.py [--network] [SECONDS [SEED]]: two substations of `dnp outstation`, whose points change all the time, `dnp concentrate` and two of `dnp
centre`, which all live, over files and over lines that cut, drop, delay and split what goes over them. Each program is killed at
random moments of its life, also as it begins, and begun again; the centres issue controls meanwhile. After so many seconds, 20
where nothing is said, the lines are good, nobody is killed, and all settles. Then the headline is counted from the files: what
a substation let go stands in each centre's journal or queue, or among the counted events that its lanes dropped; nothing stands
there that no substation had; no control was operated more often than it was issued. And each of some lies, told in a copy of the
files, has to be seen. The seed says what happens, and the machine when, so no two runs are the same. A damaged unit passes its
check words once in some 100,000 times: where a run of days has one event that never was, look for that.

With --network the concentrator and the centres have a network file and keep their connections, and with an even seed their
masters enable unsolicited responses. Without it they work in rounds.

A substation that is killed loses what stood in its memory: it let that go to nobody. What it let go is read off its line: the
events of each fragment of which a confirm was handed on to it. The events that the last life of each substation made are to
come all."""
import collections
import random
import shutil
import signal
import sqlite3
import subprocess
import sys
import tempfile
import time
from pathlib import Path

import counting
from counting import CENTRES, FILES
from lines import Heard, Line
from network import DNP, free_port, is_listening, keeps_connections

SUBSTATIONS, POINTS, OUTPUTS = 2, 3, 4
KINDS = ("binary", "counter", "analog")
COLUMNS = "point, flags, value, time"
PLAN = """confirm_ms = {confirm_ms}
response_ms = {response_ms}
select_ms = 5000
retries = 1
unsolicited = {unsolicited}
queue = {queue}
queue2 = {queue2}
"""
NETWORK = """[concentrator]
listen = "127.0.0.1:{ports[1]}"
listen2 = "127.0.0.1:{ports[2]}"
at = "127.0.0.1:{centre_ports[1]}"
at2 = "127.0.0.1:{centre_ports[2]}"
[defaults]
{polls}
[centre]
{polls}
"""
STATION = """[[substation]]
at = "127.0.0.1:{at}"
listen = "127.0.0.1:{listen}"
"""
SUBSTATION = """[[substation]]
lanes = {lanes}
binary = [1, 2, 3]
counter = [1, 2, 3]
analog = [1, 2, 3]
deadband = [0, 0, 0]
outputs = {outputs}
setpoints = 0
base = {base}
"""
# the queue of the first centre takes what there is; that of the second is short, and drops some while that one is away
LONG, SHORT = [4096] * 9, [25] * 9
# a change of each substation comes each so many milliseconds; times of its next life begin so much later
CHANGE, LIFE = 20, 10**7
# how long a program may take to make its stores, and all to settle
BEGIN, SETTLE = 120, 60
# by which a connection is known to be lost, in milliseconds; and how much longer all may take to settle whose masters rest after a loss, twice
# as long after each, a minute at most
KEEPALIVE, RESTS = 1000, 70
# how a program may end: killed, or before it did anything, as where the file of one that was killed is held a moment longer
ENDS = {-signal.SIGKILL: "killed", 3: "could not begin"}


def base(number):
    """The first indexes above of a substation's binary, counter and analog inputs, outputs and setpoints."""
    return [1000 * number, 1000 * number + 100, 1000 * number + 200, OUTPUTS * number, 0]


def above(number, event):
    """An event of a substation as it stands in queues and journals."""
    kind, index, flags, value, time_ms = event
    return base(number)[KINDS.index(kind)] + index, flags, value, time_ms


class Program:
    """A program that is begun again and again. Its words are made at each beginning; `at_work` tells whether it does what it
    is for by now."""

    def __init__(self, name, room, words, at_work):
        self.name, self.room, self.words, self.at_work = name, room, words, at_work
        self.process, self.due, self.dies, self.statuses = None, 0, None, collections.Counter()

    def begin(self):
        self.seen = len(self.text("out"))
        with open(self.room / f"{self.name}.out", "a", encoding="ascii") as out, open(self.room / f"{self.name}.err", "a", encoding="ascii") as err:
            self.process = subprocess.Popen([str(word) for word in self.words()], cwd=self.room, stdin=subprocess.DEVNULL, stdout=out, stderr=err)

    def text(self, stream):
        path = self.room / f"{self.name}.{stream}"
        return path.read_text(encoding="ascii") if path.exists() else ""

    def printed(self):
        """The lines that it printed in this life."""
        return self.text("out")[self.seen :].splitlines()

    def ended(self):
        """Whether it has ended, which is counted once."""
        if self.process and self.process.poll() is not None:
            status = self.process.returncode
            self.statuses[f"{status} at work" if status == 3 and self.at_work(self) else status] += 1
            self.process = None
        return self.process is None

    def kill(self):
        if self.process:
            self.process.kill()
            self.process.wait()
        return self.ended()

    def live(self, chance, now, pace):
        """A moment in the time of chaos: it is begun when it is due, and killed when that is due. Of four lives one ends as it
        begins, the others some time after it came to do what it is for."""
        if self.ended():
            self.dies, self.due = None, self.due or now + (2 if chance.random() < 0.1 else 0.3) * chance.random()
            if now >= self.due:
                self.begin()
                self.due, self.dies = 0, now + 0.3 * chance.random() ** 2 if chance.random() < 0.25 else None
        elif self.dies is None and self.at_work(self):
            self.dies = now + 4 * pace * chance.random() ** 2
        elif self.dies is not None and now >= self.dies:
            self.kill()


class Chaos:
    """A network that lives, and what befalls it."""

    def __init__(self, room, seconds, seed, has_network=False):
        self.room, self.seconds, self.seed, self.chance = Path(room), seconds, seed, random.Random(seed)
        self.has_network = has_network
        self.plan(1)
        self.substation_ports, self.ports = [free_port() for _ in range(SUBSTATIONS)], {number: free_port() for number in CENTRES}
        self.below = next(port for port in iter(free_port, None) if not is_listening(port + 1))
        # (the second substation's line stands at the port after the first one's)
        free_port()
        self.heard = [Heard() for _ in range(SUBSTATIONS)]
        self.lines = [Line(self.below + number, port, f"{seed} {number}", self.heard[number]) for number, port in enumerate(self.substation_ports)]
        self.centre_ports = {number: free_port() for number in CENTRES}
        self.lines += [Line(self.centre_ports[number], self.ports[number], f"{seed} above {number}") for number in CENTRES]
        # of each life of a substation: when it began, and its events, each due so long after the one before
        self.lives, self.lifetimes, self.serial = [[] for _ in range(SUBSTATIONS)], 0, 0
        self.chaos = False
        self.programs = [Program(f"substation{number}", self.room, lambda number=number: self.outstation(number),
                                 lambda _, port=port: is_listening(port)) for number, port in enumerate(self.substation_ports)]
        self.concentrator = Program("concentrator", self.room, self.concentrate, self.works)
        self.centres = {number: Program(f"centre{number}", self.room, lambda number=number: self.centre(number), self.works) for number in CENTRES}
        self.programs += [self.concentrator, *self.centres.values()]
        # which of its lines each of these connects over, and which connections were there before its present life
        self.ways = {self.concentrator.name: self.lines[:SUBSTATIONS]}
        self.ways |= {centre.name: [line] for centre, line in zip(self.centres.values(), self.lines[SUBSTATIONS:])}
        self.old = {}
        self.network()

    def network(self):
        """Writes the network file."""
        polls = f"keepalive_ms = {KEEPALIVE}\n" + ('unsolicited = "123"' if self.seed % 2 == 0 else "events_ms = 150")
        head = NETWORK.format(ports=self.ports, centre_ports=self.centre_ports, polls=polls)
        each = (STATION.format(at=self.below + number, listen=port) for number, port in enumerate(self.substation_ports))
        (self.room / "network.toml").write_text(head + "".join(each), encoding="ascii")

    def connections(self, name):
        """Those that a program, or its life before, has on its lines."""
        return {pair for line in self.ways[name] for pair in line.standing.copy()}

    def works(self, program):
        """Whether a program does what it is for: it has printed a line, or with a network, by which it prints none, has made a connection."""
        if self.has_network:
            return self.connections(program.name) - self.old.get(program.name, set())
        return program.printed()

    def plan(self, pace):
        """Writes the plan, with times for programs that are so much slower than those that are built."""
        head = PLAN.format(confirm_ms=int(2000 * pace), response_ms=int(1000 * pace), unsolicited=str(self.seed % 2 == 0).lower(), queue=LONG,
                           queue2=SHORT)
        parts = [SUBSTATION.format(lanes=LONG, outputs=OUTPUTS, base=base(number)) for number in range(SUBSTATIONS)]
        (self.room / "plan.toml").write_text(head + "".join(parts), encoding="ascii")
        self.pace, self.change = pace, int(CHANGE * pace)

    def outstation(self, number):
        """The words of a substation's next life, for which a file of changes is made, whose times no other life has."""
        self.lifetimes += 1
        now = time.monotonic()
        if self.lives[number]:
            # (of the life before, those that it had by now)
            begun, events = self.lives[number][-1]
            del events[int((now - begun) * 1000) // self.change + 1 :]
        ends, lines, events = max(self.end - now, 1) * 1000, [], []
        for k in range(int(ends) // self.change):
            kind, index, time_ms = KINDS[k % 3], k // 3 % POINTS, LIFE * self.lifetimes + k
            value = (k // 9 + 1) % 2 if kind == "binary" else k + 1
            lines.append(f"{self.change * k} change {kind} {index} {value} 01 {time_ms}\n")
            events.append(above(number, (kind, index, 1, value, time_ms)))
        (self.room / f"changes{number}").write_text("".join(lines), encoding="ascii")
        self.lives[number].append((now, events))
        place = ["--network", "network.toml"] if self.has_network else ["--port", self.substation_ports[number]]
        return [DNP, "outstation", "--plan", "plan.toml", "--station", number, *place, "--forever", "--verbose", "--replay", f"changes{number}"]

    def concentrate(self, *words):
        places = ["--port", self.ports[1], "--port2", self.ports[2], "--below", self.below, *(words or ("--every", "100", "--forever"))]
        if self.has_network and not words:
            self.old["concentrator"] = self.connections("concentrator")
            places = ["--network", "network.toml"]
        return [DNP, "concentrate", "--plan", "plan.toml", "--queue", "queue.db", "--controls", "below.db", *places]

    def centre(self, number, *words):
        place = ["--port", self.centre_ports[number], *(words or ("--every", "150", "--forever", *self.issue()))]
        if self.has_network and not words:
            self.old[f"centre{number}"] = self.connections(f"centre{number}")
            place = ["--network", "network.toml", *self.issue()]
        return [DNP, "centre", "--plan", "plan.toml", "--journal", f"journal{FILES[number]}.db", "--controls", f"above{FILES[number]}.db",
                "--number", number, *place]

    def issue(self):
        """A control to issue, in most of the lives of chaos, with an on-time of its own."""
        if not self.chaos or self.chance.random() < 0.25:
            return ()
        self.serial += 1
        return "--issue", f"{self.chance.randrange(SUBSTATIONS)} block {self.chance.randrange(OUTPUTS)} 1 1 {self.serial} 0"

    def make(self):
        """Makes the stores: by a round and two polls in which nobody is reached. Where that takes long, as in a build that checks each
        access, lives and times are longer."""
        begun = time.monotonic()
        for words in (self.concentrate("--every", "1", "--new"), *(self.centre(number, "--every", "1", "--new") for number in CENTRES)):
            done = subprocess.run([str(word) for word in words], cwd=self.room, stdin=subprocess.DEVNULL, capture_output=True, timeout=BEGIN, check=False)
            if done.returncode:
                raise ValueError(f"no stores were made: {done.returncode}, {done.stderr.decode()}")
        self.plan(max(1, (time.monotonic() - begun) / 3))

    def rage(self):
        """The time of chaos."""
        self.chaos, self.end = True, time.monotonic() + self.seconds
        for line in self.lines:
            line.fails = True
        while (now := time.monotonic()) < self.end:
            for program in self.programs:
                program.live(self.chance, now, self.pace)
            if self.chance.random() < 0.01:
                self.chance.choice(self.lines).doomed = True
            time.sleep(0.01)
        for line in self.lines:
            line.fails = line.doomed = False
        self.chaos = False

    def gone_of(self, number):
        """The rows above of the events that a substation has let go. It may let more go meanwhile, so that its set is copied first."""
        return {above(number, event) for event in self.heard[number].gone.copy()}

    def settle(self):
        """Waits until all is confirmed that the substations have, and each centre has polled three times without a row since: what
        was wrong. Who ends meanwhile is begun again."""
        since, polls, most = time.monotonic(), None, (SETTLE + RESTS * self.has_network) * self.pace
        while time.monotonic() < since + most:
            for program in self.programs:
                if program.ended():
                    program.begin()
                    polls = None
            come = all(self.last(number) <= self.gone_of(number) for number in range(SUBSTATIONS))
            if come and self.has_network:
                if not any(map(self.waits, CENTRES)):
                    return ""
            elif come and polls is None:
                polls = {number: len(centre.printed()) for number, centre in self.centres.items()}
            if polls and all(centre.printed()[polls[number] :][-3:] == ["rows 0"] * 3 for number, centre in self.centres.items()):
                return ""
            time.sleep(0.1)
        return f"it did not settle in {most:.0f} s: " + "; ".join(f"{program.name}: {program.text('err')[-300:]!r}" for program in self.programs)

    def waits(self, number):
        """Whether rows of the queue wait for a centre."""
        ran = subprocess.run([DNP, "rows", "--queue", "queue.db", "--centre", str(number)], cwd=self.room, capture_output=True, check=False)
        return ran.returncode or ran.stdout

    def end_all(self):
        for program in self.programs:
            program.kill()
        time.sleep(0.1)

    def operated(self):
        """How often each control went down to a substation, by its on-time."""
        return sum((heard.operated for heard in self.heard), collections.Counter())

    def last(self, number):
        """The events of a substation's last life."""
        return set(self.lives[number][-1][1])

    def made(self):
        """All events that the substations ever had."""
        return {event for lives in self.lives for _, events in lives for event in events}

    def gone(self):
        """What the substations let go: what was confirmed, and what their last lives made, of which all was confirmed."""
        return set().union(*map(self.last, range(SUBSTATIONS)), *map(self.gone_of, range(SUBSTATIONS)))

    def count(self, room, operated):
        """What is wrong by the headline, with the events of each centre and how many controls were issued."""
        events = {number: counting.events(room, number, self.gone(), self.made(), COLUMNS) for number in CENTRES}
        faults, issued = counting.controls(room, operated)
        return [fault for it in events.values() for fault in it.faults] + faults, events, issued

    def happened(self, issued):
        """What did not happen of what has to, for a count to say something."""
        faults = [f"{program.name} ended with {dict(program.statuses)}" for program in self.programs if not program.statuses.keys() <= {*ENDS}
                  or not program.statuses[-signal.SIGKILL]]
        operates = sum(self.programs[number].text("err").count(" OPERATE, ") for number in range(SUBSTATIONS))
        faults += [f"{operates} times was operated, and {issued} controls issued"] * (operates > issued)
        faults += ["nothing was let go"] * (not set().union(*(heard.gone for heard in self.heard)))
        faults += ["no control was issued: it needs more time"] * (not issued)
        faults += [fault for line in self.lines for fault in line.wrong[:3]]
        return faults + ["the lines did not fail"] * (not self.kinds())

    def kinds(self):
        return sum((line.counts for line in self.lines), collections.Counter())


def changed(room, name, query, *values):
    """Changes a store by SQL."""
    base_of = sqlite3.connect(room / name)
    with base_of:
        base_of.executemany(query, values)
    base_of.close()


def lies(chaos, events, operated):
    """Lies, each a name and what tells it in a copy of the files; it answers what was operated then."""
    journal, gone = counting.rows(chaos.room / "journal.db", f"SELECT {COLUMNS} FROM journal"), chaos.gone()
    waiting = set(counting.rows(chaos.room / "queue.db", f"SELECT {COLUMNS} FROM queue"))
    # (as many as the centre's lanes dropped may be missing)
    spare = events[1].dropped - len(events[1].missing) + 1
    taken = sorted({row for row in journal if row in gone and row not in waiting})[:spare]
    if len(taken) < spare:
        raise ValueError("the first centre's journal has too few rows that the queue doesn't have")
    same = "WHERE point = ? AND flags = ? AND value = ? AND time = ?"
    serial = next(iter(operated), None)

    def lost(room):
        changed(room, "journal.db", f"DELETE FROM journal {same}", *taken)
        return operated

    def invented(room):
        changed(room, "journal2.db", "INSERT INTO journal (kind, point, flags, value, time) VALUES (0, ?, ?, ?, ?)", (*taken[0][:3], 7))
        return operated

    def queued(room):
        changed(room, "queue.db", "INSERT INTO queue_b (lane, point, flags, value, time) VALUES (0, ?, ?, ?, ?)", (*taken[0][:2], -5, taken[0][3]))
        return operated

    def late(room):
        changed(room, "journal.db", f"UPDATE journal SET time = time + {LIFE * 1000} {same}", *taken[-1:])
        return operated

    told = {"a row is lost": lost, "a row is invented": invented, "a row is queued that never was": queued, "a time is another one": late,
            "a control that was never issued": lambda room: operated + collections.Counter([10**9])}
    if serial is not None:
        told["a control twice"] = lambda room: operated + collections.Counter([serial])
    return told


def can_fail(chaos, events, operated):
    """Tells each lie in a copy of the files: how many there are, and which are believed."""
    believed, all_of_them = [], lies(chaos, events, operated)
    for name, tell in all_of_them.items():
        room = chaos.room / "copy"
        room.mkdir()
        for file in chaos.room.glob("*.db*"):
            shutil.copy(file, room)
        if not chaos.count(room, tell(room))[0]:
            believed.append(f"believed: {name}")
        shutil.rmtree(room)
    return len(all_of_them), believed


def judge(name, faults, told):
    print(f"{'FAILED' if faults else 'ok'} chaos:{name} ({told})" + "".join(f"\n    {fault}" for fault in faults), flush=True)
    return not faults


def main():
    has_network, numbers = "--network" in sys.argv, [int(word) for word in sys.argv[1:] if word != "--network"]
    seconds, seed = numbers + [20, 1][len(numbers) :]
    if has_network and not keeps_connections():
        print("left out: chaos:network, whose connections this program doesn't keep")
        return 0
    room = tempfile.mkdtemp(prefix="chaos-")
    chaos, told, good, lied = Chaos(room, seconds, seed, has_network), "", True, None
    try:
        chaos.make()
        chaos.rage()
        fault = chaos.settle()
        chaos.end_all()
        operated = chaos.operated()
        faults, events, issued = chaos.count(chaos.room, operated)
        faults = ([fault] if fault else []) + faults + chaos.happened(issued)
        ends = "; ".join(f"{program.name} {', '.join(f'{ENDS.get(status, status)} {count} times' for status, count in program.statuses.items())}"
                         for program in chaos.programs)
        told = (f"{len(chaos.gone())} of {len(chaos.made())} events let go; "
                + "; ".join(f"centre {number} has {it.again} again and lacks {len(it.missing)}, of {it.dropped} counted" for number, it in events.items())
                + f"; {issued} controls issued, {operated.total()} operated; {dict(chaos.kinds())}; {ends}")
        lied = can_fail(chaos, events, operated)
    except (OSError, ValueError, AssertionError, sqlite3.Error, subprocess.TimeoutExpired) as fault:
        faults = [repr(fault)]
    finally:
        chaos.end_all()
    good = judge(f"{'network-' * has_network}{seconds}-seconds-of-seed-{seed}", faults + [f"the files are in {room}"] * bool(faults), told)
    if lied:
        good = judge("can-fail", lied[1], f"{lied[0]} lies") and good
    if good:
        shutil.rmtree(room)
    return 0 if good else 1


if __name__ == "__main__":
    sys.exit(main())
