#!/usr/bin/env python3
"""rows.py ROUNDS EVENTS: `dnp rows --follow` beside a network that runs: a concentrator polls so often, with so many new events
each time, a centre takes them into its journal, and every row is followed by three readers: JSON lines through mosquitto, a
broker of another make, to a subscriber; CSV into a file, by a reader that is killed again and again and goes on after the last
whole line; and plain text. At the end each of them has to have what sqlite3's own SELECT says of the journal, row by row, in
order, each once. The queue and both books of controls are read beside their programs, none of which may fail, and the files
are the same, octet for octet, and no file more, after a read of what nobody has open. Without mosquitto that reader is left
out."""
import csv
import json
import os
import random
import shutil
import signal
import subprocess
import sys
import tempfile
import time
from pathlib import Path

from network import DNP, Network, free_port, is_listening

WAIT = 60
# (what a row of the journal has to say, in sqlite3's own words)
WANTED = """SELECT id, CASE kind WHEN 0 THEN 'binary' WHEN 1 THEN 'counter' ELSE 'analog' END, point, value, printf('%02X', flags), time,
strftime('%Y-%m-%dT%H:%M:%S', time / 1000, 'unixepoch') || printf('.%03dZ', time % 1000) FROM journal ORDER BY id"""
NAMES = ("id", "kind", "index", "value", "flags", "time", "utc")
TEXT = ("id", "kind", "index", "value", "flags", "utc")


def rows(*words):
    return [DNP, "rows", *words]


def as_text(row):
    named = dict(zip(NAMES, row))
    return " ".join("-" if named[name] is None else str(named[name]) for name in TEXT)


def as_record(row):
    return ["" if it is None else str(it) for it in row]


def lines_of(path):
    """The whole lines of a file."""
    text = path.read_bytes() if path.exists() else b""
    return text[:text.rfind(b"\n") + 1].decode("ascii").splitlines()


def awaits(path, count):
    """Waits until a file has so many lines."""
    until = time.monotonic() + WAIT
    while len(lines_of(path)) < count and time.monotonic() < until:
        time.sleep(0.05)


class Broker:
    """mosquitto on a port of its own, with `dnp rows` before it and a subscriber behind it."""

    def __init__(self, room):
        self.room, self.port = room, free_port()
        (room / "mosquitto.conf").write_text(f"listener {self.port} 127.0.0.1\nallow_anonymous true\nmax_queued_messages 0\n", encoding="ascii")
        self.programs = [subprocess.Popen([MOSQUITTO, "-c", room / "mosquitto.conf"], stdout=subprocess.DEVNULL, stderr=subprocess.DEVNULL)]
        while not is_listening(self.port) and self.programs[0].poll() is None:
            time.sleep(0.02)
        place = ["-h", "127.0.0.1", "-p", str(self.port), "-q", "1", "-t", "dnp/events"]
        with open(room / "taken", "wb") as taken:
            self.programs.append(subprocess.Popen(["mosquitto_sub", *place], stdout=taken))
        time.sleep(0.5)
        self.reader = subprocess.Popen(rows("--journal", "journal.db", "--follow", "--every", "50", "--json"), cwd=room, stdout=subprocess.PIPE)
        self.programs.append(subprocess.Popen(["mosquitto_pub", *place, "-l"], stdin=self.reader.stdout))
        self.reader.stdout.close()

    def end(self):
        for program in (self.reader, *reversed(self.programs)):
            program.terminate()
            program.wait()


class Killed:
    """A reader that is killed at random moments, and goes on after the last whole line."""

    def __init__(self, room, chance):
        self.room, self.path, self.chance, self.kills = room, room / "rows.csv", chance, 0
        self.begin()

    def begin(self):
        if self.path.exists():
            whole = self.path.read_bytes()
            self.path.write_bytes(whole[:whole.rfind(b"\n") + 1])
        kept = lines_of(self.path)
        last = kept[-1].split(",")[0] if len(kept) > 1 else "0"
        with open(self.path, "ab") as out:
            program = rows("--journal", "journal.db", "--follow", "--every", "20", "--csv", "--after", last)
            # (the head line stands there from the first run)
            self.program = subprocess.Popen(program if not kept else ["sh", "-c", '"$@" | sed -u 1d', "-", *program],
                                            cwd=self.room, stdout=out, start_new_session=True)

    def now(self):
        if self.chance.random() < 0.5:
            self.kill()
            self.kills += 1
            self.begin()

    def kill(self):
        # (the group of its own session alone)
        os.killpg(self.program.pid, signal.SIGKILL)
        self.program.wait()


def beside(network, words, faults):
    """A read beside a program that has the file: it has to end in good order."""
    ran = subprocess.run(rows(*words), cwd=network.room, stdout=subprocess.PIPE, stderr=subprocess.PIPE, check=False)
    if ran.returncode != 0:
        faults.append(f"{' '.join(words)}: {ran.returncode}, {ran.stderr!r}")
    return ran.stdout.decode("ascii").splitlines()


def is_unchanged(room, faults):
    """Nobody has the files: a read leaves each as it is, and makes none, also where it may not write there."""
    kept = {path.name: path.read_bytes() for path in room.iterdir() if path.is_file() and ".db" in path.name}
    for store, name in (("--journal", "journal.db"), ("--queue", "queue.db"), ("--controls", "above.db"), ("--controls", "below.db")):
        assert subprocess.run(rows(store, name), cwd=room, stdout=subprocess.DEVNULL, check=False).returncode == 0, name
    if {path.name: path.read_bytes() for path in room.iterdir() if path.is_file() and ".db" in path.name} != kept:
        faults.append("a file was changed or made")


def held(network, killed, broker, faults):
    """Holds what the readers took against sqlite3's SELECT."""
    wanted = network.rows("journal.db", WANTED)
    controls = network.rows("above.db", "SELECT id, target, point, code, on_ms, state FROM control ORDER BY id")
    awaits(network.room / "rows.txt", len(wanted))
    awaits(killed.path, len(wanted) + 1)
    if lines_of(network.room / "rows.txt") != [as_text(row) for row in wanted]:
        faults.append("the text is not what sqlite3 reads")
    records = list(csv.reader(lines_of(killed.path)))
    if records != [list(NAMES)] + [as_record(row) for row in wanted]:
        faults.append("the CSV is not what sqlite3 reads")
    if broker:
        awaits(network.room / "taken", len(wanted))
        taken = [json.loads(line) for line in lines_of(network.room / "taken")]
        if taken != [dict(zip(NAMES, row)) for row in wanted]:
            faults.append(f"the broker's subscriber has {len(taken)} rows, which are not what sqlite3 reads")
    shown = [json.loads(line) for line in beside(network, ("--controls", "above.db", "--json"), faults)]
    states = {"pending": 0, "spent": 1, "finished": 2}
    if [tuple(it[name] for name in ("id", "target", "index", "code", "on_ms")) + (states[it["state"]],) for it in shown] != controls:
        faults.append("the controls are not what sqlite3 reads")
    return len(wanted)


def run(network, rounds, killed, faults):
    """The rounds, with reads beside them."""
    for number in range(rounds):
        issue = f"0 block 0 1 1 {number + 1} 0" if number % 10 == 0 else None
        if set(network.both(issue=issue).values()) != {0}:
            faults.append(f"round {number}: a centre failed")
        queued = beside(network, ("--queue", "queue.db"), faults)
        if any(" centre 1 class 1 analog 100 " not in line for line in queued):
            faults.append(f"the queue is shown as {queued[:3]}")
        beside(network, ("--queue", "queue.db", "--centre", "2"), faults)
        beside(network, ("--controls", "below.db"), faults)
        killed.now()
    if network.concentrator.poll() is not None:
        faults.append("the concentrator has ended")


def main():
    rounds, events = (int(word) for word in sys.argv[1:])
    room = Path(tempfile.mkdtemp(prefix="rows-"))
    network = Network(room, events)
    faults, told, broker, readers = [], "", None, []
    try:
        assert network.begin(new=True) and set(network.both(new=True).values()) == {0}, "it did not begin"
        broker = Broker(room) if MOSQUITTO else None
        killed = Killed(room, random.Random(1))
        readers.append(killed)
        with open(room / "rows.txt", "wb") as out:
            text = subprocess.Popen(rows("--journal", "journal.db", "--follow", "--every", "100"), cwd=room, stdout=out)
        run(network, rounds, killed, faults)
        network.end()
        count = held(network, killed, broker, faults)
        text.terminate()
        text.wait()
        killed.kill()
        readers.clear()
        if broker:
            broker.end()
            broker = None
        is_unchanged(room, faults)
        told = f"{count} rows, a reader killed {killed.kills} times" + ("" if MOSQUITTO else ", no mosquitto")
    finally:
        network.end()
        for reader in readers:
            reader.kill()
        if broker:
            broker.end()
    for fault in faults:
        print(f"    {fault} (in {room})")
    if not faults:
        shutil.rmtree(room)
    print(f"{'FAILED' if faults else 'ok'} programs:rows-beside-{rounds}-rounds ({told})")
    return bool(faults)


MOSQUITTO = shutil.which("mosquitto_pub") and (shutil.which("mosquitto") or shutil.which("mosquitto", path="/usr/sbin"))
if __name__ == "__main__":
    sys.exit(main())
