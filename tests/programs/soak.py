#!/usr/bin/env python3
"""soak.py ROUNDS EVENTS: a concentrator over files polls so often, with so many new events each time, and two centres take them into
their journals. In the last round the concentrator may need hardly more memory than in round 50, or after an eighth of them, and its files may have grown by
their logs alone, each of which is copied back at some 1,000 pages; no event may be lost or stand twice. A run of the centre
reads the whole journal, so its peak may grow only with that: by OCTETS for each event."""
import os
import shutil
import sys
import tempfile

from network import Network, kilobytes

FIRST, KILOBYTES, LOGS, OCTETS = 50, kilobytes(1024), 2 * 4300, 400
FILES = ("queue.db", "queue.db-wal", "below.db", "below.db-wal")


def size(network):
    """The memory of the concentrator, and the length of its files, in kilobytes."""
    with open(f"/proc/{network.concentrator.pid}/status", encoding="ascii") as status:
        (memory,) = [int(line.split()[1]) for line in status if line.startswith("VmRSS")]
    lengths = [os.path.getsize(network.room / name) for name in FILES if (network.room / name).exists()]
    return memory, sum(lengths) // 1024


def centre(network, new):
    """A run of the first centre, waited for: its exit status, and the most memory that it had, in kilobytes."""
    program = network.centre(new=new)
    program.stdout.read()
    _, status, used = os.wait4(program.pid, 0)
    program.returncode = os.waitstatus_to_exitcode(status)
    return program.returncode, used.ru_maxrss


def main():
    rounds, events = (int(word) for word in sys.argv[1:])
    early = min(FIRST, rounds // 8)
    room = tempfile.mkdtemp(prefix="soak-")
    network = Network(room, events)
    faults, told = [], ""
    try:
        assert network.begin(new=True), "it did not begin"
        for number in range(1, rounds + 1):
            status, peak = centre(network, number == 1)
            others = network.poll(2)
            if (status, others) != (0, 0):
                faults.append(f"round {number}: the centres ended with {status} and {others}")
                break
            if number == early:
                first, first_peak = size(network), peak
        if not faults:
            last = size(network)
            told = f"{first[0]} kB of memory, then {last[0]}; {first[1]} kB of files, then {last[1]}; the centre {first_peak} kB, then {peak}"
            if last[0] > first[0] + KILOBYTES:
                faults.append(f"the concentrator's memory grew: {told}")
            if last[1] > first[1] + LOGS:
                faults.append(f"the concentrator's files grew: {told}")
            if peak > first_peak + KILOBYTES + (rounds - early) * events * OCTETS // 1024:
                faults.append(f"the centre's memory grew: {told}")
        network.end()
        more, counted = network.count()
        faults += more
        if not more and ", 0 and 0 of them again" not in counted:
            faults.append(f"events came twice: {counted}")
    finally:
        network.end()
    for fault in faults:
        print(f"    {fault} (in {room})")
    if not faults:
        shutil.rmtree(room)
    print(f"{'FAILED' if faults else 'ok'} programs:{rounds}-rounds ({told})")
    return bool(faults)


sys.exit(main())
