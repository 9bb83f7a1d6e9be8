#!/usr/bin/env python3
"""standing_network.py [--good N] [--seconds S] [--strict] [--kills N] [--seed N] [CASE..]

`dnp concentrate --network` and `dnp centre --network` over connections that stand, with substations by `dnp outstation` and of another make, a
relay that cuts, freezes and refuses, and a second centre of another make. The cases are stories over one network each:

- few: each event once, its age, a restart, the time, a control, a substation that comes late, quality, a freeze, kills, and the doors;
- bad: so many good substations for so many seconds, and then six that do what none may do, too, each in a network namespace of its own behind a
  line that takes its time, or all on this machine where no namespace can be made; strict: ages are judged, and the 99th percentile may
  move by a fifth;
- idle: what programs take that have nothing to do;
- far: each station in a network namespace of its own, with a line that takes its time; left out where no namespace can be made;
- long: sixteen substations for so many seconds, with kills and cuts at random moments. It isn't among those that are run without a name.

Prints a line 'ok NAME' or 'FAILED NAME' for each thing that is looked at."""
import argparse
import random
import shutil
import sys
import tempfile
import threading
import time
from pathlib import Path

import standing_doors
from network import keeps_connections
from peer_centre import Centre
from peer_substation import Substation
from scale import scaled
from standing import EVERY_S, MEMORY, MOST_KB, WAIT, Network, aged, awaited, each_once, judge, made_of, memory_kb, processor_s
from standing_bad import bad
from standing_far import far
from standing_few import Few

# what a program may take of a processor that has nothing to do, and how long that is looked at, in seconds
IDLE_PART, IDLE_S = scaled(0.001, 1), 20


def few(room, _):
    """The story of a network with few substations."""
    story = Few(room)
    try:
        story.late_substation()
        story.control()
        time.sleep(max(0, story.COUNT * story.EVERY_MS / 1000 - 3))
        story.plain()
        story.start_below()
        story.quality()
        story.frozen()
        story.killed()
        story.cut()
        story.centre.end()
        return standing_doors.judged(story) and story.good
    finally:
        story.network.end()


def idle(room, _):
    """Nothing happens: the programs whose connections stand take next to nothing of a processor, and little memory."""
    network = Network(room, 3)
    try:
        network.outstation(0, "")
        peers = [network.peer(Substation, number) for number in (1, 2)]
        network.concentrate()
        network.centre()
        centre = network.peer_above(Centre)
        centre.start()
        started = awaited(lambda: centre.started and all(peer.enabled for peer in peers), 2 * WAIT)
        time.sleep(2)
        programs = {name: network.programs[name] for name in ("concentrator", "centre")}
        before = {name: processor_s(program) for name, program in programs.items()}
        time.sleep(IDLE_S)
        took = {name: (processor_s(program) - before[name]) / IDLE_S for name, program in programs.items()}
        used = {name: memory_kb(program) for name, program in programs.items()}
        told = ", ".join(f"{name} {took[name] * 100:.3f} % and {used[name]} kB" for name in took)
        return judge("idle-programs-take-nothing", "" if started else "it did not begin", *network.wrongs(),
                     *(f"{name}: {part * 100:.3f} % of a processor" for name, part in took.items() if part > IDLE_PART),
                     *(f"{name}: {kb} kB" for name, kb in used.items() if kb > MOST_KB), told=told)
    finally:
        network.end()


def long(room, words):
    """Sixteen substations, all of whose lines are cut and whose programs are killed at random moments: no event is lost, and none made up."""
    chance, count = random.Random(words.seed), 16
    network = Network(room, count, ways=range(count))
    try:
        peers = [network.peer(Substation, number, every=EVERY_S) for number in range(count)]
        for number in range(count):
            network.relay(number)
        network.concentrate()
        network.centre()
        follower, centre = network.follow(), network.peer_above(Centre)
        centre.start()
        end = time.monotonic() + (words.seconds or 120)
        for _ in range(words.kills):
            time.sleep(max(0, chance.uniform(0, 2) * (end - time.monotonic()) / words.kills))
            disturb(chance, network, peers)
        time.sleep(max(0, end - time.monotonic()))
        for peer in peers:
            peer.call(peer.rest)
        time.sleep(0.2)
        made = {key: at for number, peer in enumerate(peers) for key, at in made_of(number, peer).items()}
        both = {"centre 1": follower.rows, "centre 2": centre.rows}
        awaited(lambda: not any(each_once(name, list(rows), made, 99) for name, rows in both.items()), 90)
        twice = [len(rows) - len({(row.index, row.value) for row in rows}) for rows in both.values()]
        return judge("long-run-loses-nothing", *(each_once(name, list(rows), made, 99) for name, rows in both.items()), *network.wrongs(),
                     told=f"{len(made)} events, {words.kills} kills and cuts, {twice} rows again; {aged(centre.rows)}")
    finally:
        network.end()


def disturb(chance, network, peers):
    """A kill, a cut, a freeze or a crash."""
    relay = chance.choice(network.relays)
    what = chance.randrange(5)
    if what == 0:
        network.kill("concentrator")
        network.concentrate()
    elif what == 1:
        network.kill("centre")
        network.centre()
    elif what == 2:
        chance.choice(peers).crash(0.5)
    elif what == 3:
        relay.cut()
    else:
        relay.is_frozen = True
        threading.Timer(chance.uniform(0.1, 3), lambda: setattr(relay, "is_frozen", False)).start()


CASES = {"few": few, "bad": bad, "idle": idle, "far": far, "long": long}


def main():
    given = argparse.ArgumentParser()
    given.add_argument("--good", type=int, default=scaled(10, 4))
    given.add_argument("--seconds", type=float)
    given.add_argument("--strict", action="store_true")
    given.add_argument("--kills", type=int, default=20)
    given.add_argument("--seed", type=int, default=1)
    given.add_argument("cases", nargs="*", choices=[[], *CASES], metavar="CASE")
    words = given.parse_args()
    if not keeps_connections():
        print("left out: standing connections, which this program doesn't keep")
        return 0
    room = Path(tempfile.mkdtemp(prefix="standing-", dir=MEMORY))
    results = {}

    def run(name):
        results[name] = CASES[name](room / name, words)

    # (side by side, since they mostly wait)
    threads = [threading.Thread(target=run, args=(name,)) for name in words.cases or ("few", "bad", "idle", "far")]
    for thread in threads:
        thread.start()
    for thread in threads:
        thread.join()
    if len(results) == len(threads) and all(results.values()):
        shutil.rmtree(room)
        return 0
    print(f"    the files are in {room}")
    return 1


if __name__ == "__main__":
    sys.exit(main())
