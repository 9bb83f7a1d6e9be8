"""The programs of a network over localhost, each with its files: `dnp concentrate` and two of `dnp centre`, which may be killed
or stopped at any moment, and a substation of another make, whose every event has a value of its own. What became of events
and controls is counted from the files, by sqlite3 of Python, the events of each centre by themselves."""
import collections
import itertools
import os
import subprocess
import sys
import time
from pathlib import Path

import counting
from counting import CENTRES, FILES

HERE = Path(__file__).resolve().parent
sys.path.insert(0, str(HERE.parent))
from scale import DNP, kilobytes  # noqa: E402

LANES = "[" + ", ".join(["4096"] * 9) + "]"
PLAN = f"""confirm_ms = 5000
response_ms = 10000
select_ms = 5000
retries = 0
unsolicited = false
queue = {LANES}
queue2 = {LANES}
[[substation]]
lanes = {LANES}
binary = []
counter = []
analog = [1]
deadband = [0]
outputs = 1
setpoints = 0
base = [0, 0, 100, 0, 0]
"""
UNREACHED, KILLED = 3, 137
# how long one centre waits for its turn before the other, which has ended, is begun once more, and how often that is
TURN, TURNS = 0.4, 4

# ten for each process of those that run side by side, again and again
PORTS = itertools.cycle(range(10_000 + os.getpid() % 2_000 * 10, 10_010 + os.getpid() % 2_000 * 10))


def free_port():
    """A port where nobody listens: of this process alone, and none that the system gives to others."""
    for port in PORTS:
        if not is_listening(port):
            return port
    raise OSError("no port is free")


def is_listening(port):
    """Whether somebody listens on the port; to ask by a connection would be served as one."""
    with open("/proc/net/tcp", encoding="ascii") as table:
        return any(f":{port:04X} " in line and " 0A " in line for line in table)


def keeps_connections():
    """Whether the programs keep their connections with a network file: then they refuse words of rounds next to it."""
    words = [DNP, "centre", "--plan", "none", "--network", "none", "--journal", "none", "--controls", "none", "--every", "100"]
    return subprocess.run(words, stdin=subprocess.DEVNULL, capture_output=True, check=False).returncode == 2


class Network:
    def __init__(self, room, events):
        self.room = Path(room)
        (self.room / "plan.toml").write_text(PLAN, encoding="ascii")
        self.below, self.ports = free_port(), {number: free_port() for number in CENTRES}
        self.substation = subprocess.Popen(
            [sys.executable, HERE / "substation.py", str(self.below), "0", str(events), self.room / "log"])
        self.await_port(self.below, self.substation)
        self.concentrator = None
        self.statuses = collections.Counter()

    def await_port(self, port, program):
        for _ in range(2000):
            if is_listening(port):
                return True
            if program.poll() is not None:
                return False
            time.sleep(0.005)
        return False

    def begin(self, new=False, env=None, tries=200):
        """Begins to concentrate, and tells whether it came to listen. A file of a process that was killed may be held a
        moment longer, so it is tried again."""
        words = ["--new"] if new else []
        for _ in range(tries):
            with open(self.room / "said", "a", encoding="utf-8") as said:
                self.concentrator = subprocess.Popen(
                    [DNP, "concentrate", "--plan", "plan.toml", "--queue", "queue.db", "--controls", "below.db", "--port",
                     str(self.ports[1]), "--port2", str(self.ports[2]), "--below", str(self.below), "--rounds", "1000000", *words],
                    cwd=self.room, env=env, stdout=said, stderr=said)
            if self.await_port(self.ports[2], self.concentrator):
                return True
            if self.concentrator.poll() != UNREACHED:
                return False
            time.sleep(0.01)
        return False

    def centre(self, number=1, new=None, issue=None, env=None):
        """Begins a centre, which makes its files where there are none, or as it is told."""
        journal, controls = (f"{name}{FILES[number]}.db" for name in ("journal", "above"))
        new = not (self.room / journal).exists() if new is None else new
        words = ["--new"] if new else []
        words += ["--issue", issue] if issue else []
        return subprocess.Popen(
            [DNP, "centre", "--plan", "plan.toml", "--journal", journal, "--controls", controls, "--port", str(self.ports[number]),
             "--number", str(number), *words], cwd=self.room, env=env, stdout=subprocess.PIPE, stderr=subprocess.PIPE)

    def noted(self, program):
        """The exit status of a centre that has ended, which is counted."""
        program.communicate()
        self.statuses[f"centre {program.returncode}"] += 1
        return program.returncode

    def poll(self, number=1, **how):
        """A run of a centre, waited for: its exit status."""
        program = self.centre(number, **how)
        try:
            program.wait(timeout=60)
        except subprocess.TimeoutExpired:
            program.kill()
        return self.noted(program)

    def both(self, **how):
        """A run of each centre, waited for, the first with what is told: their exit statuses."""
        return self.wait({1: self.centre(1, **how), 2: self.centre(2)})

    def wait(self, programs):
        """Waits for a run of each centre. Where one of them has ended, and the concentrator waits for the next connection of
        that one before it serves the other, it is begun once more: the exit statuses of the first runs."""
        statuses, turns, since = {}, 0, time.monotonic()
        while programs:
            for number in [number for number, program in programs.items() if program.poll() is not None]:
                statuses.setdefault(number, self.noted(programs.pop(number)))
                since = time.monotonic()
            for number, program in list(programs.items()):
                if len(programs) == 1 and time.monotonic() - since > TURN:
                    if turns == TURNS:
                        program.kill()
                    else:
                        turns += 1
                        other = CENTRES[2 - number]
                        programs[other] = self.centre(other)
                    since = time.monotonic()
            time.sleep(0.002)
        return statuses

    def settle(self, times):
        """Goes on in good order until each centre has polled so many times: whether it could."""
        done = 0
        for _ in range(100):
            if self.concentrator.poll() is not None and not self.begin():
                return False
            done += set(self.both().values()) == {0}
            if done == times:
                return True
            time.sleep(0.02)
        return False

    def stop(self):
        """Kills the concentrator."""
        self.concentrator.kill()
        self.concentrator.wait()

    def end(self):
        for program in (self.concentrator, self.substation):
            if program and program.poll() is None:
                program.kill()
            if program:
                program.wait()
        time.sleep(0.05)

    def rows(self, name, query):
        return counting.rows(self.room / name, query)

    def count(self):
        """What came of all events and controls, once all has ended. A round that is under way then leaves its events at the
        substation: only those that it let go have to be here."""
        lines = [line.split() for line in (self.room / "log").read_text(encoding="ascii").split("\n") if line]
        made, let_go = (max([int(number) for word, number in lines if word == which], default=0) for which in ("value", "gone"))
        operated = collections.Counter(int(number) for word, number in lines if word == "operated")
        gone, all_of_them = ({(value,) for value in range(1, last + 1)} for last in (let_go, made))
        faults, again = ["the substation let no event go"] * (made > 0 and not gone), []
        for number in CENTRES:
            events = counting.events(self.room, number, gone, all_of_them)
            faults += events.faults + [f"centre {number}: {events.dropped} events were dropped"] * bool(events.dropped)
            again.append(str(events.again))
        more, issued = counting.controls(self.room, operated)
        told = " and ".join(again)
        return faults + more, f"{made} events, {let_go} let go, {told} of them again; {issued} controls, {operated.total()} operated"
