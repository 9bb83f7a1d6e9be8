"""A network of sixteen substations whose programs are measured: substations and witnesses in processes of their own, the sync of a disk, and
lines of a table."""
import collections
import json
import os
import subprocess
import sys
import tempfile
import time
from pathlib import Path

HERE = Path(__file__).resolve().parent
sys.path.insert(0, str(HERE.parents[1] / "tests/programs"))
from counting import CENTRES, FILES, rows  # noqa: E402
from network import is_listening  # noqa: E402
from standing import HOST, Network, above, awaited, free_port, percentile  # noqa: E402

SUBSTATIONS = 16
BY_POLLS = 'events_ms = 100\n'


class Helper:
    """A process of this folder that takes lines, and prints what it found at their end."""

    def __init__(self, program, *words):
        self.ran = subprocess.Popen([sys.executable, HERE / program, *map(str, words)], stdin=subprocess.PIPE, stdout=subprocess.PIPE, text=True)

    def tell(self, line):
        self.ran.stdin.write(f"{line}\n")
        self.ran.stdin.flush()

    def ask(self, line):
        self.tell(line)
        return json.loads(self.ran.stdout.readline())

    def found(self):
        """What it prints at its end."""
        said, _ = self.ran.communicate(timeout=60)
        return json.loads(said)

    def end(self):
        self.ran.kill()
        self.ran.wait()


class Measured(Network):
    """Both centres are of the programs, each behind a witness."""

    def place_all(self, substations, ways):
        super().place_all(substations, ways)
        self.ways_above = [(HOST, free_port()) for _ in self.doors]

    def begin_all(self):
        """Begins all but the substations, which are there: whether the concentrator listens."""
        if not self.concentrate():
            return False
        for number in CENTRES:
            self.centre(number=number)
        return True


class Polled(Measured):
    POLLS = BY_POLLS


def sync_ms(folder, times=200, rest_s=0):
    """How long the sync of a written block took, each in milliseconds, with a rest after each."""
    took = []
    with tempfile.NamedTemporaryFile(dir=folder) as file:
        for number in range(times):
            os.pwrite(file.fileno(), os.urandom(4096), number % 8 * 4096)
            begun = time.perf_counter()
            os.fdatasync(file.fileno())
            took.append((time.perf_counter() - begun) * 1000)
            time.sleep(rest_s)
    return took


def waited_s(program):
    """How many seconds a program waited for a core that others had."""
    return int(Path(f"/proc/{program.pid}/schedstat").read_text(encoding="ascii").split()[1]) / 1e9


def stolen():
    """The time of all cores until now, and what of it a virtual machine did not have, in ticks."""
    ticks = [int(word) for word in Path("/proc/stat").read_text(encoding="ascii").split("\n")[0].split()[1:9]]
    return sum(ticks), ticks[7]


def middle_and_99th(numbers, form="{:.1f}"):
    """The median and the 99th percentile in words."""
    return " and ".join(form.format(percentile(numbers, part)) for part in (0.5, 0.99)) if numbers else "none"


def stored(room, number):
    """How often each event is in the journal of a centre, by its index and value."""
    return collections.Counter(rows(room / f"journal{FILES[number]}.db", "SELECT point, value FROM journal"))


__all__ = ["CENTRES", "FILES", "HOST", "Helper", "Measured", "Network", "Polled", "SUBSTATIONS", "above", "awaited", "free_port", "is_listening",
           "middle_and_99th", "percentile", "stolen", "stored", "sync_ms", "waited_s"]
