#!/usr/bin/env python3
"""once.py [SECONDS [network|rounds]]: sixteen substations of another make with ten events a second each, a concentrator and both centres, whose
connections stand by `--network`, or which work in rounds by `--every`. Nobody is killed, and no line is cut: after so many seconds, 20 where nothing
is said, each event is in both journals, and none is there twice. That is counted from the files once all have ended. Prints a line 'ok NAME' or
'FAILED NAME' for each of the two."""
import collections
import shutil
import sys
import tempfile
import time
from pathlib import Path

from counting import CENTRES, FILES, rows
from network import is_listening, keeps_connections
from peer_substation import Substation
from scale import scaled
from standing import HOST, MEMORY, POINTS, WAIT, Network, above, awaited, free_port, judge

SUBSTATIONS, EVERY_S = scaled(16, 4), scaled(0.1, 1)
ROUND_MS, POLL_MS = 100, 100


class Rounds(Network):
    """The programs connect in each round anew."""

    def place_all(self, substations, ways):
        # (substation S is at the first port and S more)
        first = free_port()
        while any(is_listening(first + number) for number in range(substations)):
            first = free_port()
        self.listens = self.ways = [(HOST, first + number) for number in range(substations)]
        for _ in range(substations):
            free_port()
        self.doors = self.ways_above = [(HOST, free_port()) for _ in range(2)]

    def words_of(self, name, words):
        """The words with ports and a pace, where those of a network are."""
        place = words.index("--network")
        (_, port), (_, port2) = self.doors
        if name == "concentrator":
            places = ["--port", port, "--port2", port2, "--below", self.listens[0][1], "--every", ROUND_MS, "--forever"]
        else:
            places = ["--port", port2 if name == f"centre{FILES[2]}" else port, "--every", POLL_MS, "--forever"]
        return [str(word) for word in [*words[:place], *places, *words[place + 2 :]]]


def counted(room, made):
    """What is wrong with the journals, and how many rows they have."""
    faults, told = [], []
    for number in CENTRES:
        came = collections.Counter(rows(room / f"journal{FILES[number]}.db", "SELECT point, value FROM journal"))
        found = {"missing": made - came.keys(), "never made": came.keys() - made, "there more than once": {row for row, often in came.items() if often > 1}}
        faults += [f"centre {number}: {len(those)} events are {what}, as {sorted(those)[:3]}" for what, those in found.items() if those]
        told.append(f"{came.total()} rows")
    return faults, " and ".join(told)


def run(name, kind, seconds):
    """A network that nothing happens to."""
    room = Path(tempfile.mkdtemp(prefix="once-", dir=MEMORY))
    network = kind(room, SUBSTATIONS)
    faults = []
    try:
        peers = [network.peer(Substation, number) for number in range(SUBSTATIONS)]
        if not network.concentrate():
            faults.append(f"the concentrator did not begin: {network.log()[-300:]}")
        for number in CENTRES:
            network.centre(number=number)
        if not awaited(lambda: all(peer.heard for peer in peers), 2 * WAIT):
            faults.append("not all substations are polled")
        for peer in peers:
            peer.call(lambda peer=peer: peer.begin(EVERY_S))
        time.sleep(seconds)
        for peer in peers:
            peer.call(peer.rest)
        if not awaited(lambda: not any(peer.events for peer in peers), 3 * WAIT, 0.2):
            faults.append("events are left at substations")
        time.sleep(scaled(2, 10))
        for program in network.programs:
            network.kill(program)
        made = {(above(number, event.index), event.value) for number, peer in enumerate(peers) for event in peer.made}
        more, told = counted(room, made)
        faults += more + network.wrongs()
    finally:
        network.end()
    if not faults:
        shutil.rmtree(room)
    return judge(f"once-by-{name}", *faults, *[f"the files are in {room}"] * bool(faults), told=f"{len(made)} events, {told}")


def main():
    seconds, *names = sys.argv[1:] or ["20"]
    good = True
    for name in names or ["rounds", "network"]:
        if name == "network" and not keeps_connections():
            print("left out: once-by-network, whose connections this program doesn't keep")
            continue
        good = run(name, {"network": Network, "rounds": Rounds}[name], float(seconds)) and good
    return 0 if good else 1


if __name__ == "__main__":
    sys.exit(main())
