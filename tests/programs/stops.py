#!/usr/bin/env python3
"""stops.py LIBRARY PROGRAM HOW [STEP]: `dnp concentrate`, which serves two centres, or `dnp centre`, the first of them, cut at its
first call that writes or syncs a file, then at the call STEP after that, and so on until none is left. LIBRARY is stop.c,
compiled. HOW it is cut:

    stopped   it ends before the call. After each, all goes on in good order
    failing   the call fails, and all that follow: the program ends with 3. After that, all goes on in good order
    new       it ends before the call while --new makes its stores. Then either a run without --new serves, or both files are
              removed, and one with --new does

No event may be lost, none stand in a journal more than twice, and the control that was issued not be operated twice. As it
was cut, no book has a control pending that was passed on below it: so it never passes one on again."""
import os
import shutil
import sys
import tempfile
import time

from network import CENTRES, FILES as OF, KILLED, UNREACHED, Network

CONTROL = "0 block 0 1 1 7 0"
PENDING = 0
FILES = {"centre": ("journal.db", "above.db"), "concentrate": ("queue.db", "below.db")}


def is_cut(network, name, env, cut):
    """Runs the program in a network of which both ran well once, and tells whether it ended as one that is cut."""
    assert network.begin(new=True) and set(network.both(new=True).values()) == {0}, "it did not begin"
    if name == "centre":
        return network.poll(issue=CONTROL, env=env) == cut
    network.stop()
    network.begin(env=env, tries=1 if cut == UNREACHED else 200)
    network.both(issue=CONTROL)
    network.both()
    time.sleep(0.05)
    if network.concentrator.poll() == cut:
        return True
    network.stop()
    return False


def is_cut_in_new(network, name, env, faults):
    """Runs the program with --new, and tells whether it was stopped. What it left serves, or can be made anew."""
    if name == "centre":
        assert network.begin(new=True), "it did not begin"
        stopped = network.poll(new=True, env=env) == KILLED
        serves = network.both(new=False)[1] == 0
    else:
        stopped = not network.begin(new=True, env=env, tries=1)
        if not stopped:
            network.stop()
        serves = network.begin(tries=20)
    if not serves:
        for file in FILES[name]:
            for end in ("", "-wal", "-shm"):
                (network.room / (file + end)).unlink(missing_ok=True)
        if not (network.both(new=True)[1] == 0 if name == "centre" else network.begin(new=True)):
            faults.append("with --new it did not begin after its files were removed")
    if name == "concentrate" and set(network.both(new=True).values()) != {0}:
        faults.append("a centre found nobody")
    return stopped


def passed_on(network):
    """What is wrong with the books, of the control that was issued: what stands below, or was operated, is spent above."""
    def states(name):
        # (of a copy: what sqlite3 opens it mends, and here the program has to)
        for end in ("", "-wal"):
            if (network.room / (name + end)).exists():
                shutil.copy(network.room / (name + end), network.room / ("seen-" + name + end))
        return [state for (state,) in network.rows("seen-" + name, "SELECT state FROM control")]
    operated = "operated" in (network.room / "log").read_text(encoding="ascii")
    below, above = states("below.db"), states("above.db")
    faults = ["a control was operated that is pending in the concentrator's book"] * (operated and below == [PENDING])
    return faults + ["a control is in the concentrator's book that is pending in the centre's"] * (below != [] and above == [PENDING])


def cut_at(number, library, name, how):
    """Whether the program came to that call, and what was wrong after it."""
    room = tempfile.mkdtemp(prefix="stops-")
    network = Network(room, 3)
    env = dict(os.environ, LD_PRELOAD=library)
    env["FAIL_AT" if how == "failing" else "STOP_AT"] = str(number)
    faults = []
    try:
        if how == "new":
            cut = is_cut_in_new(network, name, env, faults)
        else:
            cut = is_cut(network, name, env, UNREACHED if how == "failing" else KILLED)
            network.stop()
            faults += passed_on(network)
        if not network.settle(4):
            faults.append("it did not go on in good order")
        time.sleep(0.05)
        network.end()
        faults += network.count()[0]
        for number in CENTRES:
            counts = network.rows(f"journal{OF[number]}.db", "SELECT count(*) FROM journal GROUP BY value")
            often = max((count for (count,) in counts), default=0)
            faults += [f"an event stands in the journal of centre {number} {often} times"] * (often > 2)
        return cut, faults
    finally:
        network.end()
        shutil.rmtree(room)


def main():
    library, name, how = sys.argv[1:4]
    step = int(sys.argv[4]) if len(sys.argv) > 4 else 1
    cuts = failed = 0
    for number in range(1, 10_000, step):
        cut, faults = cut_at(number, library, name, how)
        for fault in faults:
            print(f"    {how} at call {number}: {fault}")
        failed += bool(faults)
        if not cut:
            break
        cuts += 1
    good = not failed and cuts * step > 20
    print(f"{'ok' if good else 'FAILED'} programs:{name}-{how}-at-each-write ({cuts} times, from call 1 on in steps of {step})")
    return not good


sys.exit(main())
