#!/usr/bin/env python3
"""`dnp concentrate --network` and `dnp centre --network`, whose connections stand, beside `dnp outstation`, relays that cut and
freeze, peers of another make that misbehave, and kills.

    network_loop.py [CASE..]

Every event that a substation made stands in both journals: once, or at most twice after a cut. The log says of each peer what was
wrong with it. Standard output stays empty. Prints a line 'ok CASE' or 'FAILED CASE' for each case."""
import collections
import contextlib
import datetime
import os
import re
import resource
import select
import shutil
import signal
import socket
import struct
import subprocess
import sys
import tempfile
import threading
import time
from pathlib import Path

from network import is_listening

HERE = Path(__file__).resolve().parent
sys.path.insert(0, str(HERE.parent))
from scale import DNP, scaled  # noqa: E402

def lanes(size):
    """The nine lanes of a plan, each of this size."""
    return "[" + ", ".join([str(size)] * 9) + "]"


LANES = lanes(4096)
HEAD = f"""confirm_ms = 20000
response_ms = %d
select_ms = 5000
retries = 0
unsolicited = %s
queue = %s
queue2 = {LANES}
"""
SUBSTATION = f"""[[substation]]
lanes = {LANES}
binary = []
counter = []
analog = [1]
deadband = [0]
outputs = 1
setpoints = 0
base = [0, 0, %d, %d, 0]
"""
# how a peer of another make misbehaves, by the word of substation.py, and what the log says of it
FOREIGN = {
    "silent": r"lost, no good answer since the start: no answer in 1000 ms",
    "noise": r"lost, no good answer since the start: octets came, and no frame",
    "stranger": r"response refused: event of analog \d+, which the plan lacks",
    "floats": r"response refused: 30\.5 at octet \d+ is not in the profile",
    "odd": r"response refused: .* at octet \d+",
    "elsewhere": r"lost, no good answer since .*: frames came from 99 to 2; this asks \d+ as 2",
    "numbered": r"lost, no good answer since .*: a response with sequence number \d+ came, where \d+ is awaited",
    "later": r"lost, no good answer since .*: a response without FIR came",
    "leaving": r"lost, no good answer since .*: the connection ended before the answer",
    "refusing": r"refuses the READ: OBJECT_UNKNOWN",
}
# how long anything is waited for, in seconds: a checked program takes seconds to make or open its stores
WAIT = scaled(20, 90)
failed = False


def check_word(octets):
    """The check word of the data link layer: its polynomial, low bits first, complemented."""
    word = 0
    for octet in octets:
        word ^= octet
        for _ in range(8):
            word = word >> 1 ^ (0xA6BC if word & 1 else 0)
    return struct.pack("<H", word ^ 0xFFFF)


def frame(control, to, of):
    """A frame without user data."""
    head = struct.pack("<HBBHH", 0x6405, 5, control, to, of)
    return head + check_word(head)


def judge(case, fault):
    """Prints what became of a case."""
    global failed
    failed = failed or bool(fault)
    print(f"{'FAILED' if fault else 'ok'} programs:network-loop-{case}" + (f" ({fault})" if fault else ""), flush=True)


def awaited(holds, seconds):
    """Whether something came to hold within so many seconds."""
    end = time.monotonic() + seconds
    while time.monotonic() < end:
        if holds():
            return True
        time.sleep(0.05)
    return bool(holds())


def listening(port, seconds=WAIT):
    return awaited(lambda: is_listening(port), seconds)


PORTS = set()


def free_port():
    """A port where nobody listens, and that this process had not before."""
    while True:
        with socket.create_server(("127.0.0.1", 0)) as server:
            port = server.getsockname()[1]
        if port not in PORTS:
            PORTS.add(port)
            return port


class Relay(threading.Thread):
    """Carries octets from who connects to a port of its own to another port; cuts them off, or stands still."""

    def __init__(self, to):
        super().__init__(daemon=True)
        self.to, self.pairs, self.is_frozen, self.is_over = to, [], False, False
        self.door = socket.create_server(("127.0.0.1", 0))
        self.port, self.lock = self.door.getsockname()[1], threading.Lock()
        self.start()

    def run(self):
        while not self.is_over:
            with self.lock:
                ends = [end for pair in self.pairs for end in pair]
            ready, _, _ = select.select([self.door, *([] if self.is_frozen else ends)], [], [], 0.02)
            with self.lock:
                for end in ready:
                    if end is self.door:
                        self.take()
                    else:
                        self.carry(end)

    def take(self):
        near, _ = self.door.accept()
        try:
            self.pairs.append((near, socket.create_connection(("127.0.0.1", self.to), timeout=2)))
        except OSError:
            near.close()

    def carry(self, end):
        pair = next((pair for pair in self.pairs if end in pair), None)
        if pair is None:
            return
        other = pair[1] if end is pair[0] else pair[0]
        try:
            octets = end.recv(65536)
            if not octets:
                raise OSError
            other.sendall(octets)
        except OSError:
            self.drop(pair)

    def drop(self, pair):
        self.pairs.remove(pair)
        for end in pair:
            end.close()

    def cut(self):
        with self.lock:
            for pair in list(self.pairs):
                self.drop(pair)

    def end(self):
        self.is_over = True
        self.join()
        self.cut()
        self.door.close()


class Network:
    """A network of so many substations over localhost, each in its own process; `relayed` ones behind a relay."""

    def __init__(self, count, relayed=(), response_ms=5000, unsolicited=True, more="", queue=4096):
        self.room = Path(tempfile.mkdtemp(prefix="network-loop-"))
        self.running = {}
        self.ports = [free_port() for _ in range(count)]
        self.relays = {number: Relay(self.ports[number]) for number in relayed}
        self.doors = {1: free_port(), 2: free_port()}
        plan = HEAD % (response_ms, "true" if unsolicited else "false", lanes(queue))
        plan += "".join(SUBSTATION % (100 + number, 200 + number) for number in range(count))
        (self.room / "plan.toml").write_text(plan, encoding="ascii")
        text = f'name = "Loop"\n[concentrator]\nlisten = "127.0.0.1:{self.doors[1]}"\nlisten2 = "127.0.0.1:{self.doors[2]}"\n'
        text += "[defaults]\n" + ('unsolicited = "123"\n' if unsolicited else "events_ms = 200\n") + more
        text += "[centre]\n" + ('unsolicited = "123"\n' if unsolicited else "events_ms = 200\n")
        for number, port in enumerate(self.ports):
            at = self.relays[number].port if number in self.relays else port
            text += f'[[substation]]\nat = "127.0.0.1:{at}"\nlisten = "127.0.0.1:{port}"\nname = "Site {number}"\n'
        (self.room / "network.toml").write_text(text, encoding="ascii")

    def begin(self, name, *words):
        """Begins a program; its log goes on in one file, and so does what it prints."""
        with open(self.room / f"{name}.log", "a", encoding="utf-8") as log, open(self.room / f"{name}.out", "a", encoding="utf-8") as out:
            self.running[name] = subprocess.Popen([*words], cwd=self.room, stdin=subprocess.DEVNULL, stdout=out, stderr=log)
        return self.running[name]

    def dnp(self, name, command, *words):
        return self.begin(name, DNP, command, "--plan", "plan.toml", "--network", "network.toml", *words)

    def outstation(self, number, replay=None):
        words = ["--replay", replay] if replay else []
        self.dnp(f"outstation{number}", "outstation", "--station", str(number), "--forever", *words)
        assert listening(self.ports[number]), self.log(f"outstation{number}")

    def replay(self, number, count, ms, first=1, after=0):
        """A file by which a substation makes so many events, each with a value of its own."""
        path = self.room / f"replay{number}-{first}"
        lines = [f"{after + k * ms} change analog 0 {(number + 1) * 100_000 + first + k} 01 now" for k in range(count)]
        path.write_text("\n".join(lines) + "\n", encoding="ascii")
        return path.name

    def concentrator(self, *words):
        new = [] if (self.room / "queue.db").exists() else ["--new"]
        self.dnp("concentrator", "concentrate", "--queue", "queue.db", "--controls", "below.db", *new, *words)
        assert listening(self.doors[2]), self.log("concentrator")

    def centre(self, number, *words):
        files = [f"journal{number}.db", f"above{number}.db"]
        new = [] if (self.room / files[0]).exists() else ["--new"]
        self.dnp(f"centre{number}", "centre", "--number", str(number), "--journal", files[0], "--controls", files[1], *new, *words)

    def kill(self, name):
        ran = self.running.pop(name)
        ran.kill()
        ran.wait()

    def log(self, name):
        path = self.room / f"{name}.log"
        return path.read_text(encoding="utf-8") if path.exists() else ""

    def printed(self, name):
        return (self.room / f"{name}.out").read_text(encoding="utf-8")

    def journal(self, number):
        """How often each value stands in the journal of a centre, whose program may run."""
        read = subprocess.run(
            [DNP, "rows", "--journal", f"journal{number}.db"], cwd=self.room, capture_output=True, text=True, timeout=60, check=False)
        return collections.Counter(int(line.split()[3]) for line in read.stdout.splitlines())

    def has_all(self, number, values):
        return values <= self.journal(number).keys()

    def lacks(self, values, often=1, seconds=WAIT):
        """What is wrong with the journals, which have to have these values."""
        for number in (1, 2):
            if not awaited(lambda number=number: self.has_all(number, values), seconds):
                missing = sorted(values - self.journal(number).keys())
                return f"centre {number} lacks {len(missing)} of {len(values)} events, as {missing[:5]}"
        for number in (1, 2):
            journal = self.journal(number)
            strange = sorted(journal.keys() - values)
            if strange:
                return f"centre {number} has events that never were, as {strange[:5]}"
            if max(journal.values()) > often:
                return f"centre {number} has an event {max(journal.values())} times"
        for name in ("concentrator", "centre1", "centre2"):
            if self.printed(name):
                return f"{name} printed {self.printed(name)[:60]!r}"
        return ""

    def is_logged(self, name, pattern, seconds=WAIT):
        return awaited(lambda: re.search(pattern, self.log(name)), seconds)

    def losses(self, number):
        """How often the log says that a substation is lost, or lost for another reason."""
        return len(re.findall(rf"substation {number} .*lost, no good answer since ", self.log("concentrator")))

    def __enter__(self):
        return self

    def __exit__(self, kind, fault, trace):
        for name in list(self.running):
            self.kill(name)
        for relay in self.relays.values():
            relay.end()
        if kind is None and not os.environ.get("KEEP"):
            shutil.rmtree(self.room)
        else:
            print(f"    {self.room}")


def values(number, count, first=1):
    """The values that a replay of so many events makes."""
    return {(number + 1) * 100_000 + first + k for k in range(count)}


def plain():
    """Three substations, one of which comes late, two centres, and a control: each event stands in each journal once."""
    with Network(3) as network:
        for number in (0, 1):
            network.outstation(number, network.replay(number, 60, 50, after=1500))
        network.concentrator("--forever")
        for number in (1, 2):
            network.centre(number)
        wanted = values(0, 60) | values(1, 60)
        if not network.is_logged("concentrator", r"substation 2 \(Site 2\): lost, no good answer since the start: .*Connection refused"):
            return "nothing is said of the absent substation"
        network.outstation(2, network.replay(2, 20, 50, after=1500))
        wanted |= values(2, 20)
        if not network.is_logged("concentrator", r"substation 2 \(Site 2\): back after .* and \d+ tr"):
            return "it is not said that the absent substation is there"
        if not network.is_logged("concentrator", r"centre 2 connected"):
            return "the second centre does not connect"
        network.kill("centre2")
        network.centre(2, "--issue", "0 trip 0 100ms")
        for name, pattern in (
            ("centre2", r"control 1: issued for substation 0 \(Site 0\)"),
            ("centre2", r"control 1.*: selected at the concentrator"),
            ("centre2", r"control 1.*: taken by the concentrator \(status 0 SUCCESS\)"),
            ("concentrator", r"substation 0 \(Site 0\): control 1.*: selected"),
            ("concentrator", r"substation 0 \(Site 0\): control 1.*: operated \(status 0 SUCCESS\)"),
        ):
            if not network.is_logged(name, pattern):
                return f"{name} does not say {pattern}"
        return network.lacks(wanted)


def cuts():
    """A relay cuts one link again and again, and another one stands still."""
    with Network(2, relayed=(0, 1), response_ms=2000) as network:
        for number in (0, 1):
            network.outstation(number, network.replay(number, 80, 50, after=1500))
        network.concentrator()
        for number in (1, 2):
            network.centre(number)
        for often in range(1, 4):
            if not awaited(lambda: network.relays[0].pairs, WAIT):
                return "no connection is made again"
            time.sleep(0.5)
            network.relays[0].cut()
            if not awaited(lambda often=often: network.losses(0) >= often, WAIT):
                return f"{network.losses(0)} losses are said after {often} cuts"
        network.relays[1].is_frozen = True
        time.sleep(3)
        network.relays[1].is_frozen = False
        # (each cut may come between an event and its confirm)
        return network.lacks(values(0, 80) | values(1, 80), often=5)


def kills():
    """The concentrator and a centre are killed, and go on over their files; so does a substation, which forgets its events."""
    with Network(2) as network:
        for number in (0, 1):
            network.outstation(number, network.replay(number, 80, 50, after=1500))
        network.concentrator()
        for number in (1, 2):
            network.centre(number)
        for number in (1, 2):
            if not network.is_logged("concentrator", rf"centre {number} connected"):
                return f"centre {number} does not connect"
        network.kill("centre1")
        network.kill("concentrator")
        network.concentrator()
        network.centre(1)
        # (a kill may come between the store of an event and its confirm at both of its links)
        fault = network.lacks(values(0, 80) | values(1, 80), often=3)
        if fault:
            return fault
        network.kill("outstation0")
        if not network.is_logged("concentrator", r"substation 0 \(Site 0\): lost"):
            return "nothing is said of the substation that was killed"
        network.outstation(0, network.replay(0, 20, 50, first=1000, after=3000))
        fault = network.lacks(values(0, 80) | values(1, 80) | values(0, 20, 1000), often=3)
        if fault or not network.is_logged("concentrator", r"substation 0 \(Site 0\): back after"):
            return fault or "it is not said that the substation is back"
        # (its polls were answered as it came back, and its events are unsolicited responses, from three seconds later on)
        network.kill("outstation0")
        pattern = r"(\S+) substation 0 \(Site 0\): back after [^\n]*\n(?:.*\n)*\S+ substation 0 \(Site 0\): lost, no good answer since (\S+):"
        if not network.is_logged("concentrator", pattern):
            return "nothing is said of the substation that was killed again"
        back, since = (datetime.datetime.fromisoformat(it.replace("Z", "+00:00")) for it in re.search(pattern, network.log("concentrator")).groups())
        return "" if (since - back).total_seconds() >= 2 else f"back at {back}, and no good answer since {since}"


def foreign():
    """Peers of another make that misbehave, each in its own way: the log says which, and one that doesn't is served as ever."""
    with Network(len(FOREIGN) + 1, response_ms=1000, unsolicited=False) as network:
        for number, kind in enumerate(FOREIGN, 1):
            network.begin(
                f"foreign{number}", sys.executable, str(HERE / "substation.py"), str(network.ports[number]), str(number), kind, "seen")
            assert listening(network.ports[number])
        network.outstation(0, network.replay(0, 40, 50, after=1000))
        network.concentrator()
        for number in (1, 2):
            network.centre(number)
        unsaid = []
        # (a cause is said once, wherever in a response it lies, as long as nothing good comes)
        again = [number for number, kind in enumerate(FOREIGN, 1) if kind == "floats"]
        for number, (kind, pattern) in enumerate(FOREIGN.items(), 1):
            if not network.is_logged("concentrator", rf"substation {number} \(Site {number}\): (still )?{pattern}", WAIT):
                unsaid.append(kind)
        if unsaid:
            print(network.log("concentrator"))
            return f"nothing is said of {unsaid}"
        for number in (1, 2):
            if not awaited(lambda number=number: network.has_all(number, values(0, 40)), WAIT):
                return f"centre {number} lacks events of the substation that is well"
        for number in again:
            said = re.findall(rf"substation {number} .*: response refused: 30\.5 at octet", network.log("concentrator"))
            if len(said) != 1:
                return f"{len(said)} lines of one object: {network.log('concentrator')[-800:]}"
        return ""


def read_all(stream, seconds=10):
    octets, end = b"", time.monotonic() + seconds
    stream.settimeout(1)
    while time.monotonic() < end:
        try:
            more = stream.recv(1 << 16)
        except TimeoutError:
            continue
        except OSError:
            break
        if not more:
            break
        octets += more
    return octets


def doors():
    """At the door of the second centre: a half-closed peer gets its answers, a newer one takes over, one that sends and never reads
    is heard no more, and all that holds up nobody."""
    with Network(1, unsolicited=False) as network:
        network.outstation(0, network.replay(0, 100, 50, after=2000))
        network.concentrator()
        network.centre(1)
        ask, answer = frame(0xC9, 9, 3), frame(0x0B, 3, 9)
        with socket.create_connection(("127.0.0.1", network.doors[2])) as stream:
            stream.sendall(ask * 50)
            stream.shutdown(socket.SHUT_WR)
            came = read_all(stream)
            if came != answer * 50:
                return f"a half-closed peer got {len(came)} octets of {len(answer) * 50}"
        if not network.is_logged("concentrator", r"127.0.0.1:\d+ centre 2 ended, served 0: the master closed the connection"):
            return "the end of the half-closed peer is not said"
        first = socket.create_connection(("127.0.0.1", network.doors[2]))
        first.sendall(ask)
        first.settimeout(5)
        if first.recv(100) != answer:
            return "the first peer is not answered"
        second = socket.create_connection(("127.0.0.1", network.doors[2]))
        second.sendall(ask)
        second.settimeout(5)
        if second.recv(100) != answer or read_all(first, 5) != b"":
            return "the newer peer did not take over"
        if not network.is_logged("concentrator", rf"centre 2 ended, served 0: taken over by 127.0.0.1:{second.getsockname()[1]}"):
            return "nothing is said of the newer peer"
        # (two come while the program stands still: each has its answer)
        network.running["concentrator"].send_signal(signal.SIGSTOP)
        both = [socket.create_connection(("127.0.0.1", network.doors[2])) for _ in range(2)]
        for stream in both:
            stream.sendall(ask)
            stream.settimeout(WAIT)
        network.running["concentrator"].send_signal(signal.SIGCONT)
        for number, stream in enumerate(both):
            if stream.recv(100) != answer:
                return f"of two that came at once number {number} has no answer"
        before = memory(network.running["concentrator"])
        flood = socket.create_connection(("127.0.0.1", network.doors[2]))
        flood.setblocking(False)
        sent, end = 0, time.monotonic() + 3
        while time.monotonic() < end:
            _, ready, _ = select.select([], [flood], [], 0.1)
            if ready:
                with contextlib.suppress(OSError):
                    sent += flood.send(ask * 1000)
        grown = memory(network.running["concentrator"]) - before
        if not awaited(lambda: network.has_all(1, values(0, 100)), WAIT):
            return "the first centre lacks events"
        flood.close()
        return f"memory grew by {grown} kB" if grown > scaled(4096, 1 << 30) else ""


def memory(ran):
    """The resident memory of a process, in kilobytes."""
    return int(re.search(r"VmRSS:\s+(\d+)", Path(f"/proc/{ran.pid}/status").read_text(encoding="ascii"))[1])


def descriptors():
    """No descriptor is left: the newest connection is refused, which is said, and the others are served on."""
    with Network(1) as network:
        network.outstation(0, network.replay(0, 40, 50, after=4000))
        network.concentrator()
        network.centre(1)
        if not network.is_logged("concentrator", r"centre 1 connected"):
            return "the first centre is not served"
        pid = network.running["concentrator"].pid
        taken = {int(number) for number in os.listdir(f"/proc/{pid}/fd")}
        free = next(number for number in range(1000) if number not in taken)
        resource.prlimit(pid, resource.RLIMIT_NOFILE, (free, free))
        for _ in range(3):
            with socket.create_connection(("127.0.0.1", network.doors[2])) as stream:
                stream.settimeout(WAIT)
                with contextlib.suppress(ConnectionResetError):
                    if stream.recv(100) != b"":
                        return "a connection is served without a descriptor"
        if not network.is_logged("concentrator", rf"127.0.0.1:{network.doors[2]}: the newest connection is refused: no descriptor is left"):
            return "nothing is said of the connections that were refused"
        if not awaited(lambda: network.has_all(1, values(0, 40)), WAIT):
            return "the first centre lacks events"
        return ""


def full():
    """A lane is full for a centre that is away: that its drops begin is said, and how many they were once it takes events again."""
    with Network(1, queue=20) as network:
        network.outstation(0, network.replay(0, 60, 20, after=1500))
        network.concentrator()
        network.centre(2)
        if not awaited(lambda: network.has_all(2, values(0, 60)), WAIT):
            return "the centre that is there lacks events"
        if not network.is_logged("concentrator", r"centre 1: a lane of the queue for it is full, and drops its oldest events: \d+ events? so far"):
            return "it is not said that a lane is full"
        if "events were dropped" in network.log("concentrator"):
            return "it is said that no lane is full while the centre is away"
        network.centre(1)
        if not network.is_logged("concentrator", r"centre 1: no lane of the queue for it is full any more: 40 events were dropped"):
            return "it is not said how many events were dropped"
        if not awaited(lambda: network.has_all(1, values(0, 20, first=41)), WAIT):
            return "the centre that was away lacks the newest events"
        said = len(re.findall(r"is full", network.log("concentrator")))
        return "" if said == 2 and len(network.journal(1)) == 20 else f"{said} lines are said of full lanes, and {len(network.journal(1))} events came"


def words():
    """Words that a network refuses, by name, and one that it takes."""
    with Network(1) as network:
        stores = {"concentrate": ["--queue", "q", "--controls", "c"], "centre": ["--journal", "j", "--controls", "c"]}
        refused = [("concentrate", "--rounds", "2"), ("concentrate", "--every", "100"), ("centre", "--every", "100"), ("centre", "--polls", "2")]
        for command, option, value in refused:
            ran = subprocess.run(
                [DNP, command, "--plan", "plan.toml", "--network", "network.toml", *stores[command], option, value],
                cwd=network.room, capture_output=True, text=True, timeout=30, check=False)
            if ran.returncode != 2 or option not in ran.stderr or ran.stdout:
                return f"{command} {option}: {ran.returncode} {ran.stderr!r}"
        return ""


CASES = {"plain": plain, "cuts": cuts, "kills": kills, "foreign": foreign, "doors": doors, "descriptors": descriptors, "full": full, "words": words}


def main():
    signal.signal(signal.SIGTERM, lambda *_: sys.exit(1))
    for name, case in CASES.items():
        if len(sys.argv) == 1 or name in sys.argv[1:]:
            try:
                judge(name, case())
            except AssertionError as fault:
                judge(name, f"it did not begin: {str(fault)[-300:]}")
    return failed


if __name__ == "__main__":
    sys.exit(main())
