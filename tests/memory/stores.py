#!/usr/bin/env python3
"""stores.py LIBRARY STEP: the stores in SQL databases in memory, each taken through all its calls (tests/crates/dnp_store_files, with the
word 'walk'), with one request for memory refused in each run: the first, then the one STEP behind it, and so on until there is
none. The call that was refused is made once more, and answered Memory before: so the same lines come, whichever it was. All
memory is given back. LIBRARY is refuse.c, compiled."""
import os
import subprocess
import sys
import tempfile
from pathlib import Path

TOP = Path(__file__).resolve().parents[2]
PROGRAM = os.environ.get("STORES", str(TOP / "out/tests/dnp_store_files"))
WANTED = "".join(f"{name} in memory: as it has to be\n" for name in ("queue", "queue for one centre", "journal", "book"))


def run(number, library, report):
    """A run with that request refused: its exit status, what it printed, how many requests there were, and how many blocks
    were kept."""
    env = dict(os.environ, REFUSE=str(number), REPORT=str(report), LD_PRELOAD=library)
    report.unlink(missing_ok=True)
    done = subprocess.run([PROGRAM, "walk"], env=env, stdin=subprocess.DEVNULL, capture_output=True, encoding="utf-8", timeout=60,
                          check=False)
    requests, kept, _ = (int(word) for word in report.read_text(encoding="ascii").split())
    return done.returncode, done.stdout, requests, kept


def main():
    library, step = sys.argv[1], int(sys.argv[2])
    with tempfile.TemporaryDirectory() as room:
        report = Path(room) / "report"
        status, printed, count, kept = run(0, library, report)
        wrong = [] if (status, printed, kept) == (0, WANTED, 0) else [f"nothing refused: status {status}, {kept} blocks, {printed!r}"]
        # (the first ones are those of the words of the command line, without which nothing is walked)
        words, tried = 0, 0
        for number in range(1, count + 1, step):
            status, printed, _, kept = run(number, library, report)
            tried += 1
            if printed != WANTED and number < 20 and not printed.startswith("queue"):
                words += 1
            elif (status, printed, kept) != (0, WANTED, 0):
                wrong.append(f"request {number} refused: status {status}, {kept} blocks, {printed!r}")
    for it in wrong[:20]:
        print(f"    {it}")
    print(f"{'FAILED' if wrong else 'ok'} refused-memory:stores ({count} requests, {tried} of them refused, {words} of them for the words)")
    return bool(wrong)


sys.exit(main())
