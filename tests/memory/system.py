#!/usr/bin/env python3
"""system.py LIBRARY: a script in a whole system over lists (tests/crates/dnp_memory, with an octet on its standard input), with one
request for memory refused in each run. A line that runs out of memory prints the report of what was done, and the rest runs.
Each report has to keep the headline's definitions (tests/headline), and all memory is given back. LIBRARY is refuse.c,
compiled."""
import os
import subprocess
import sys
import tempfile
from pathlib import Path

TOP = Path(__file__).resolve().parents[2]
sys.path.insert(0, str(TOP / "tests/headline"))
import holds

PROGRAM = os.environ.get("MEMORY", str(TOP / "out/tests/dnp_memory"))
# what is printed where nothing is refused: the event, the control of each centre, and the event whose confirm was lost, which came
# again
WANTED = """journal 1
 0 binary 0 1 01 1000
journal2 1
 0 binary 0 1 01 1000
queue 2
 0 binary 0 0 01 2000
 0 binary 0 0 01 2000
queue2 2
 0 binary 0 0 01 2000
 0 binary 0 0 01 2000
dropped 0
dropped2 0
confirmed 2
 0 binary 0 1 01 1000
 0 binary 0 0 01 2000
buffered 0
overwritten 0
gone 0
issued 2
 0 block 0 3 1 0 0
 0 block 0 3 1 0 0
operated 2
 0 block 0 3 1 0 0
 0 block 0 3 1 0 0
lost 0
lost2 0
"""


def run(number, library, report):
    """A run with that request refused: its exit status, what it printed, how many requests there were, and how many blocks
    were kept."""
    env = dict(os.environ, REFUSE=str(number), REPORT=str(report), LD_PRELOAD=library)
    report.unlink(missing_ok=True)
    done = subprocess.run([PROGRAM], input="\n", env=env, capture_output=True, encoding="utf-8", timeout=60, check=False)
    requests, kept, _ = (int(word) for word in report.read_text(encoding="ascii").split())
    return done.returncode, done.stdout, requests, kept


def faults(printed):
    """What is wrong with the reports."""
    text, found = "", []
    for line in printed.splitlines(keepends=True):
        text += line
        if line.startswith("lost2 "):
            try:
                holds.check(holds.read(text))
            except holds.Broken as broken:
                found.append(str(broken))
            text = ""
    return found + (["the last report has no end"] if text or not printed else [])


def main():
    library = sys.argv[1]
    with tempfile.TemporaryDirectory() as room:
        report = Path(room) / "report"
        status, printed, count, kept = run(0, library, report)
        wrong = [] if (status, printed, kept) == (0, WANTED, 0) else [f"nothing refused: status {status}, {kept} blocks, {printed!r}"]
        stops = 0
        for number in range(1, count + 1):
            status, printed, _, kept = run(number, library, report)
            stops += printed.count("\nlost ") > 1
            found = faults(printed) + [f"{kept} blocks are kept"] * (kept != 0) + [f"status {status}"] * (status != 0)
            wrong += [f"request {number} refused: {it}" for it in found]
    if stops < 20:
        wrong.append(f"only {stops} runs stopped at a line")
    for it in wrong[:20]:
        print(f"    {it}")
    print(f"{'FAILED' if wrong else 'ok'} refused-memory:system ({count} requests, {stops} of which stopped a line)")
    return bool(wrong)


sys.exit(main())
