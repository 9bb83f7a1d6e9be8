#!/usr/bin/env python3
"""sim.py LIBRARY STEP: `dnp sim` over its SQL databases, with one request for memory refused in each run: the first, then the one
STEP behind it, and so on until there is none. Each run either prints the whole report, or ends with 3, says why, and has
printed what its first lines print. All memory is given back. LIBRARY is refuse.c, compiled."""
import os
import subprocess
import sys
import tempfile
from pathlib import Path

TOP = Path(__file__).resolve().parents[2]
DNP = os.environ.get("DNP", str(TOP / "crates/dnp/out/dnp"))
SCRIPT = """open 0
open above
open above2
change 0 binary 0 1 01 1000
issue 0 block 0 3 1 0 0
round 0
round above
round above2
control 1
issue2 0 block 0 4 1 0 0
control2 1
change 0 binary 0 0 01 2000
round 0
poll above 123
deliver above down
deliver above up
lose above down
"""


def run(number, library, report):
    """A run with that request refused: its exit status, what it printed, what it said, and how many requests and blocks there
    were."""
    env = dict(os.environ, REFUSE=str(number), REPORT=str(report), LD_PRELOAD=library)
    report.unlink(missing_ok=True)
    done = subprocess.run([DNP, "sim", "--plan", TOP / "examples/plan.toml"], input=SCRIPT, env=env, capture_output=True,
                          encoding="utf-8", timeout=60, check=False)
    requests, kept, _ = (int(word) for word in report.read_text(encoding="ascii").split())
    return done.returncode, done.stdout, done.stderr, requests, kept


def is_beginning(printed, whole):
    """Whether so much of the report was printed, or of its first lines and that the script was stopped."""
    lines = printed.split("\n")
    if len(lines) > 1 and lines[-2].startswith("stopped "):
        return whole.startswith("\n".join(lines[:-2]))
    return whole.startswith(printed)


def main():
    library, step = sys.argv[1], int(sys.argv[2])
    report = Path(tempfile.mkdtemp(prefix="memory-")) / "report"
    status, whole, _, count, kept = run(0, library, report)
    bad = [] if (status, kept) == (0, 0) else ["nothing refused"]
    ends = {0: 0, 3: 0}
    for number in range(1, count + 1, step):
        status, printed, said, _, kept = run(number, library, report)
        good = printed == whole if status == 0 else status == 3 and said.startswith(("dnp: ", "error: ")) and is_beginning(printed, whole)
        if not good or kept:
            bad.append(f"request {number}: exit status {status}, {kept} blocks kept, {printed!r}, {said!r}")
        else:
            ends[status] += 1
    for line in bad:
        print(f"    {line}")
    good = not bad and min(ends.values()) > 0
    print(f"{'ok' if good else 'FAILED'} refused-memory:sim ({count} requests, in steps of {step}: {ends[3]} runs ended with 3, {ends[0]} went on)")
    return not good


sys.exit(main())
