"""How long an event of a substation takes until it is committed in the journals of both centres: at so many events a second over sixteen
substations, by unsolicited responses or by polls. The stores are files in a folder whose sync is measured next to it."""
import shutil
import tempfile
import time
from pathlib import Path

from measured import (CENTRES, HOST, SUBSTATIONS, Helper, Measured, Polled, above, awaited, is_listening, middle_and_99th, percentile, stolen, stored, sync_ms,
                      waited_s)
from standing import POINTS, processor_s

# the most that the 99th percentile may be, in milliseconds, if a sync takes at most one, and in syncs otherwise
MOST_MS = MOST_SYNCS = 50
WAIT, REST_S = 20, 0.05


def judged(late, sync):
    """What the 99th percentile is compared with, and whether it is under that."""
    most = MOST_MS if sync <= 1 else MOST_SYNCS * sync
    return f", {'holds' if late <= most else 'DOES NOT HOLD'}: at most {most:.0f} ms"


class Run:
    """A network that runs for a while."""

    def __init__(self, room, kind, rate, seconds):
        self.network, self.rate, self.seconds = kind(room, SUBSTATIONS), rate, seconds
        self.syncs, self.begun, self.lasted, self.stolen = [], None, None, 0
        self.sources = [Helper("source.py", port, number, POINTS) for number, (_, port) in enumerate(self.network.listens)]
        places = zip(self.network.ways_above, self.network.doors)
        self.witnesses = {number: Helper("witness.py", way, door) for number, ((_, way), (_, door)) in zip(CENTRES, places)}

    def states(self):
        return [source.ask("state") for source in self.sources]

    def begin(self):
        """Whether all of them are there, and each substation was asked."""
        ports = [port for _, port in [*self.network.listens, *self.network.ways_above]]
        if not awaited(lambda: all(map(is_listening, ports)), WAIT) or not self.network.begin_all():
            return False
        are_there = all(not self.network.says(f"centre {number} connected", seconds=WAIT) for number in CENTRES)
        return are_there and awaited(lambda: all(state["is_asked"] for state in self.states()), WAIT, 0.5)

    def spent(self):
        """What each program took of a core until now, and how long it waited for one, in seconds."""
        return {name: (processor_s(program), waited_s(program)) for name, program in self.network.programs.items()}

    def shares(self, before):
        """The same since then, in percent."""
        seconds, now = time.monotonic() - self.begun, self.spent()
        return {name: [(now[name][k] - before[name][k]) / seconds * 100 for k in (0, 1)] for name in now}

    def measure(self):
        """Has events made for a while: what the programs took meanwhile."""
        before = self.spent()
        for source in self.sources:
            source.tell(f"go {1000 * SUBSTATIONS / self.rate}")
        self.begun, (before_all, before_stolen) = time.monotonic(), stolen()
        # (the sync that the programs have while all of them sync)
        self.syncs = sync_ms(self.network.room, int(self.seconds / REST_S), REST_S)
        shares, (now_all, now_stolen) = self.shares(before), stolen()
        self.stolen = (now_stolen - before_stolen) / (now_all - before_all) * 100
        for source in self.sources:
            source.tell("rest")
        self.lasted = time.monotonic() - self.begun
        awaited(lambda: not any(state["left"] for state in self.states()), WAIT, 0.5)
        time.sleep(2)
        return shares

    def ages(self):
        """Each event with its moment, and of each centre how long it took to each, in milliseconds, with what is wrong."""
        made = {(above(number, index), value): moment for number, source in enumerate(self.sources) for index, value, moment in source.found()}
        took, faults = {}, []
        for number, witness in self.witnesses.items():
            confirmed = witness.found()
            took[number] = [(moment - made[index, value]) / 1e6 for index, value, moment in confirmed if (index, value) in made]
            faults += [f"centre {number} confirmed {len(confirmed)} of {len(made)} events"] * (len(confirmed) != len(made))
        return made, took, faults

    def end(self):
        self.network.end()
        for helper in [*self.sources, *self.witnesses.values()]:
            helper.end()


def row(name, folder, kind, rate, seconds):
    """A row of the table: whether it was measured."""
    room = Path(tempfile.mkdtemp(prefix="latency-", dir=folder))
    syncs = sync_ms(room)
    run = Run(room, kind, rate, seconds)
    try:
        if not run.begin():
            print(f"{name}: it did not begin; the files are in {room}\n{run.network.log()[-600:]}", flush=True)
            return False
        shares = run.measure()
        syncs += sync_ms(room)
        wrong = [wrong for state in run.states() for wrong in state["wrong"]]
        made, took, faults = run.ages()
        for program in run.network.programs:
            run.network.kill(program)
        for number in CENTRES:
            rows = stored(room, number)
            faults += [f"centre {number} lacks {len(made.keys() - rows.keys())} events"] * bool(made.keys() - rows.keys())
            faults += [f"centre {number} has {rows.total() - len(rows)} rows again"] * (rows.total() != len(rows))
        sync = percentile(syncs, 0.5)
        alone, meanwhile = (middle_and_99th(each, "{:.3f}") for each in (syncs, run.syncs))
        print(f"{name}, files in {folder}: {len(made) / run.lasted:.0f} events a second; a sync takes {alone} ms, and meanwhile {meanwhile} ms")
        for number, ages in took.items():
            promised = judged(percentile(ages, 0.99), sync) if ages and kind is Measured else ""
            print(f"    centre {number}: median and 99th percentile {middle_and_99th(ages)} ms{promised}")
        each = ", ".join(f"{program} {took:.0f} % ({waited:.0f} %)" for program, (took, waited) in shares.items())
        print(f"    share of a core, and of the time in which it waited for one: {each}; the machine lacked {run.stolen:.0f} % of its cores")
        for fault in [*faults, *wrong]:
            print(f"    {fault}")
        print(end="", flush=True)
    finally:
        run.end()
    shutil.rmtree(room)
    return True


def table(folders, rate, seconds):
    """The rows of all folders, by unsolicited responses and by polls: whether all were measured."""
    kinds = {"unsolicited responses both ways": Measured, "polls each 100 ms both ways": Polled}
    return all([row(name, folder, kind, rate, seconds) for folder in folders for name, kind in kinds.items()])
