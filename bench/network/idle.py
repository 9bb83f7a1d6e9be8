"""What programs take that have nothing to do: sixteen substations by `dnp outstation`, a concentrator and two centres, with unsolicited responses
enabled, and no event."""
import shutil
import tempfile
import time
from pathlib import Path

from measured import CENTRES, SUBSTATIONS, Network
from standing import memory_kb, processor_s

# what each program may take of a core, in percent, and of memory
MOST_SHARE, MOST_KB = 0.1, 40_000


def begin(network):
    """Whether all of it runs."""
    for number in range(SUBSTATIONS):
        if not network.outstation(number, ""):
            return False
    if not network.concentrate():
        return False
    for number in CENTRES:
        network.centre(number=number)
    return all(not network.says(f"centre {number} connected", seconds=20) for number in CENTRES)


def table(seconds, folder=None):
    """The table, from so many seconds in which nothing happens: whether it was measured."""
    room = Path(tempfile.mkdtemp(prefix="idle-", dir=folder))
    network = Network(room, SUBSTATIONS)
    try:
        if not begin(network):
            print(f"idle: it did not begin; the files are in {room}\n{network.log()[-600:]}", flush=True)
            return False
        time.sleep(5)
        before = {name: processor_s(program) for name, program in network.programs.items()}
        time.sleep(seconds)
        shares = {name: (processor_s(program) - before[name]) / seconds * 100 for name, program in network.programs.items()}
        memory = {name: memory_kb(program) for name, program in network.programs.items()}
        most = max((name for name in shares if name.startswith("substation")), key=shares.get)
        print(f"idle for {seconds} s, {SUBSTATIONS} substations with unsolicited responses enabled")
        for name in ("concentrator", "centre", "centre2", most):
            holds = shares[name] < MOST_SHARE and memory[name] < MOST_KB
            said = "holds" if holds else "DOES NOT HOLD"
            print(f"    {name}: {shares[name]:.4f} % of a core, {memory[name] / 1000:.1f} MB: {said}")
        print(end="", flush=True)
    finally:
        network.end()
    shutil.rmtree(room)
    return True
