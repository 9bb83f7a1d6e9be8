#!/usr/bin/env python3
"""kills.py KILLS EVENTS SEED: the programs of a network, killed at random moments, the concentrator in half of the cases and one of
the two centres in the others. Then all goes on in good order, and no event may be lost on its way to either, and no control
operated twice."""
import random
import shutil
import signal
import sys
import tempfile
import time

from network import CENTRES, Network


def main():
    kills, events, seed = (int(word) for word in sys.argv[1:])
    chance = random.Random(seed)
    room = tempfile.mkdtemp(prefix="kills-")
    network = Network(room, events)
    faults, told = [], ""
    try:
        assert network.begin(new=True), "it did not begin"
        assert set(network.both(new=True).values()) == {0}, "the first polls failed"
        done = serial = 0
        while done < kills and not faults:
            if network.concentrator.poll() is not None and not network.begin():
                faults.append("a store did not open again")
                break
            issues = chance.random() < 0.5
            serial += issues
            issuer = chance.choice(CENTRES)
            programs = {number: network.centre(number, issue=f"0 block 0 1 1 {serial} 0" if issues and number == issuer else None)
                        for number in CENTRES}
            time.sleep(chance.random() ** 2 * 0.15)
            program = network.concentrator if chance.random() < 0.5 else programs[chance.choice(CENTRES)]
            if program.poll() is None:
                program.send_signal(signal.SIGKILL)
                done += 1
            network.wait(programs)
        if not faults and not network.settle(8):
            faults.append("it did not go on in good order")
        time.sleep(0.2)
        network.end()
        more, told = network.count()
        faults += more
        if not any(name != "centre -9" and name not in ("centre 0", "centre 3") for name in network.statuses):
            told += f"; {dict(sorted(network.statuses.items()))}"
        else:
            faults.append(f"exit statuses {dict(network.statuses)}")
    finally:
        network.end()
    for fault in faults:
        print(f"    {fault} (seed {seed}, in {room})")
    if not faults:
        shutil.rmtree(room)
    print(f"{'FAILED' if faults else 'ok'} programs:killed-{kills}-times-at-{events}-events-a-poll ({told})")
    return bool(faults)


sys.exit(main())
