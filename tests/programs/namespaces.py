#!/usr/bin/env python3
"""Two substations, a concentrator and two centres, each in a network namespace of its own with its own address, by `--network`: the
first substation and the concentrator are found by a name that stands in a hosts file alone, the second substation and the second
centre's place by an IPv6 address. Events of both substations reach both centres, a control of each centre operates, under link
addresses that no other test has; the names of stations and points stand in the logs and in what `dnp rows` prints, and in no file of
a store. A name that nobody knows ends the program with 3, before a file is made. Where no namespace can be made, all of it is left
out, and that is said."""
import contextlib
import os
import re
import shutil
import subprocess
import sys
import tempfile
import time
from pathlib import Path

HERE = Path(__file__).resolve().parent
sys.path.insert(0, str(HERE.parent))
from scale import DNP, scaled  # noqa: E402

CASE = "programs:namespaces"
WAIT = scaled(30, 120)
TAG = f"dnp{os.getpid() % 100_000}"
LANES = "[" + ", ".join(["16"] * 9) + "]"
SUBSTATION = f"""[[substation]]
lanes = {LANES}
binary = [1, 1]
counter = []
analog = [2]
deadband = [0]
outputs = 2
setpoints = 0
"""
PLAN = f"""confirm_ms = 5000
response_ms = 3000
select_ms = 5000
retries = 0
unsolicited = false
queue = {LANES}
queue2 = {LANES}
{SUBSTATION}base = [0, 0, 0, 0, 0]
{SUBSTATION}base = [100, 0, 100, 100, 0]
"""
NETWORK = """name = "Two valleys"
points = "points.csv"
[concentrator]
listen = "10.99.0.9:20100"
listen2 = "[fd99::9]:20101"
at = "scada.test:20100"
address = 109
centre = 101
centre2 = 103
[[substation]]
at = "rtu0.test:20000"
name = "Kirchberg 110 kV"
address = 210
master = 102
[[substation]]
at = "[fd99::11]:20000"
listen = "[::]:20000"
name = "Talstadt"
address = 211
master = 104
"""
POINTS = """substation,kind,index,name,unit,scale,zero,one
0,binary,1,"Feeder 1, breaker",,,open,closed
1,analog,0,Voltage,kV,0.1,,
1,output,1,Feeder 7 command,,,trip,close
"""
HOSTS = "127.0.0.1 localhost\n10.99.0.10 rtu0.test\n10.99.0.9 scada.test\n"
REPLAY = "0 change binary 1 1 01 now\n100 change analog 0 {value} 01 now\n"
# each host by its number, which its addresses end in
HOSTS_OF = {"rtu0": 10, "rtu1": 11, "scada": 9, "centre1": 1, "centre2": 3}


def ip(*words):
    subprocess.run(["ip", *words], check=True, capture_output=True, text=True)


def address6(number):
    """The last part of an IPv6 address is hexadecimal: 10 and 11 are written as they are, as in the network's file."""
    return f"fd99::{number}"


class Namespaces:
    """A namespace for each host, by its name and its number, and one with the bridge to which all of them are connected."""

    def __init__(self, hosts=None, tag=TAG):
        self.hosts, self.tag, self.made, self.folders = hosts or HOSTS_OF, tag, [], []

    def add(self, name):
        ip("netns", "add", name)
        self.made.append(name)
        ip("-n", name, "link", "set", "lo", "up")

    def build(self):
        hub = f"{self.tag}hub"
        self.add(hub)
        ip("-n", hub, "link", "add", "br0", "type", "bridge")
        ip("-n", hub, "link", "set", "br0", "up")
        for host, number in self.hosts.items():
            name, inner = self.tag + host, f"v{number}"
            self.add(name)
            ip("-n", hub, "link", "add", inner, "type", "veth", "peer", "name", "eth0", "netns", name)
            ip("-n", hub, "link", "set", inner, "master", "br0", "up")
            ip("-n", name, "addr", "add", f"10.99.0.{number}/24", "dev", "eth0")
            ip("-n", name, "addr", "add", f"{address6(number)}/64", "dev", "eth0", "nodad")
            ip("-n", name, "link", "set", "eth0", "up")
            folder = Path("/etc/netns") / name
            folder.mkdir(parents=True)
            self.folders.append(folder)
            (folder / "hosts").write_text(HOSTS, encoding="ascii")

    def end(self):
        for name in reversed(self.made):
            subprocess.run(["ip", "netns", "del", name], capture_output=True)
        for folder in self.folders:
            shutil.rmtree(folder, ignore_errors=True)
        with contextlib.suppress(OSError):
            Path("/etc/netns").rmdir()


class System:
    """The programs, each in its namespace, over files in one folder."""

    def __init__(self, room):
        self.room, self.programs = room, []
        for name, text in (("plan.toml", PLAN), ("network.toml", NETWORK), ("points.csv", POINTS)):
            (room / name).write_text(text, encoding="ascii")
        (room / "nobody.toml").write_text(NETWORK.replace("rtu0.test", "nobody.invalid"), encoding="ascii")
        for number in (0, 1):
            (room / f"replay{number}").write_text(REPLAY.format(value=70 + number), encoding="ascii")

    def words(self, host, command, *more, network="network.toml"):
        return ["ip", "netns", "exec", TAG + host, DNP, command, "--plan", "plan.toml", "--network", network, *more]

    def begin(self, host, command, *more):
        with open(self.room / f"{host}.log", "a", encoding="utf-8") as log:
            program = subprocess.Popen(self.words(host, command, *more), cwd=self.room, stdout=log, stderr=log)
        self.programs.append(program)
        return program

    def run(self, host, command, *more, network="network.toml"):
        return subprocess.run(self.words(host, command, *more, network=network), cwd=self.room, capture_output=True, text=True, timeout=WAIT)

    def log(self, host):
        return (self.room / f"{host}.log").read_text(encoding="utf-8")

    def await_line(self, host, text):
        """Waits until a line of the log has a text, in which # is any number."""
        pattern = re.escape(text).replace(re.escape("#"), "[0-9]+")
        until = time.monotonic() + WAIT
        while not re.search(pattern, self.log(host)):
            if time.monotonic() > until:
                raise AssertionError(f"{host}: no line with '{text}'; the last ones are:\n{self.log(host)[-2000:]}")
            time.sleep(0.05)

    def rows(self, *words):
        names = ("--plan", "plan.toml", "--network", "network.toml")
        return subprocess.run([DNP, "rows", *words, *names], cwd=self.room, capture_output=True, text=True, check=True).stdout

    def await_rows(self, wanted, *words):
        """Waits until each of these texts is the end of a line of rows."""
        until = time.monotonic() + WAIT
        while True:
            lines = self.rows(*words).splitlines()
            missing = [it for it in wanted if not any(line.endswith(it) for line in lines)]
            if not missing:
                return
            if time.monotonic() > until:
                raise AssertionError(f"dnp rows {words}: no line that ends in {missing}: {lines}")
            time.sleep(0.1)

    def end(self):
        for program in self.programs:
            program.kill()
            program.wait()


def expect(given, wanted):
    if wanted not in given:
        raise AssertionError(f"'{wanted}' is not in:\n{given}")


def nobody(system):
    """A name that nobody knows ends the program with 3, and is told by its place; no file is made."""
    words = ("--queue", "none.db", "--controls", "none-below.db", "--new")
    ended = system.run("scada", "concentrate", *words, network="nobody.toml")
    if ended.returncode != 3 or (system.room / "none.db").exists():
        raise AssertionError(f"status {ended.returncode}: {ended.stderr}")
    expect(ended.stderr, "nobody.toml: substation 0, at: nobody.invalid:20000 can't be looked up: ")


def work(system):
    """Events come, and a control of each centre operates."""
    nobody(system)
    for number in (0, 1):
        system.begin(f"rtu{number}", "outstation", "--station", str(number), "--forever", "--replay", f"replay{number}")
    system.await_line("rtu0", "rtu0.test:20000 is 10.99.0.10:20000: looked up in ")
    system.await_line("rtu0", "listening on 10.99.0.10:20000 as 210 for master 102")
    system.await_line("rtu1", "listening on [::]:20000 as 211 for master 104")
    system.begin("scada", "concentrate", "--queue", "queue.db", "--controls", "below.db", "--forever", "--new")
    system.await_line("scada", "rtu0.test:20000 is 10.99.0.10:20000: looked up in ")
    system.await_line("scada", "listening on 10.99.0.9:20100 as 109 for master 101")
    system.await_line("scada", "listening on [fd99::9]:20101 as 109 for master 103")
    for number, control in ((1, "1 latch-on 1"), (2, "0 latch-on 0")):
        files = ("--journal", f"journal{number}.db", "--controls", f"above{number}.db", "--new")
        system.begin(f"centre{number}", "centre", "--number", str(number), *files, "--issue", control)
    system.await_line("centre1", "scada.test:20100 is 10.99.0.9:20100: looked up in ")
    system.await_line("centre1", "control 1: issued for substation 1 (Talstadt), output 1 (Feeder 7 command)")
    system.await_line("centre2", "control 1: issued for substation 0 (Kirchberg 110 kV), output 0")
    for number in (1, 2):
        system.await_rows(["Kirchberg 110 kV: Feeder 1, breaker", "Talstadt: Voltage"], "--journal", f"journal{number}.db")
    for control in ("substation 0 (Kirchberg 110 kV): control #", "substation 1 (Talstadt): control # for output 1 (Feeder 7 command)"):
        system.await_line("scada", f"{control}: operated (status 0 SUCCESS)")
    wanted = ["operated by the substation (status 0 SUCCESS) Talstadt: Feeder 7 command"]
    system.await_rows(wanted, "--controls", "below.db", "--of", "concentrator")
    system.await_rows(["taken by the concentrator (status 0 SUCCESS) Talstadt: Feeder 7 command"], "--controls", "above1.db", "--of", "centre")


def nothing_stored(room):
    """No name stands in a file of a store."""
    for path in room.glob("*.db*"):
        octets = path.read_bytes()
        for name in (b"Kirchberg", b"Talstadt", b"Feeder", b"Voltage"):
            if name in octets:
                raise AssertionError(f"{path.name} has the name {name}")


def main():
    namespaces = Namespaces()
    try:
        try:
            namespaces.build()
        except (OSError, subprocess.CalledProcessError) as fault:
            why = getattr(fault, "stderr", None) or str(fault)
            print(f"left out: {CASE}, where no network namespace can be made: {why.strip()}")
            return 0
        room = Path(tempfile.mkdtemp())
        system = System(room)
        try:
            work(system)
            system.end()
            nothing_stored(room)
        except (AssertionError, OSError, subprocess.SubprocessError) as fault:
            print(f"FAILED {CASE}: {fault}")
            print(f"its files: {room}")
            return 1
        finally:
            system.end()
        shutil.rmtree(room)
        print(f"ok {CASE}: two substations, a concentrator and two centres, each at an address of its own")
        return 0
    finally:
        namespaces.end()


if __name__ == "__main__":
    sys.exit(main())
