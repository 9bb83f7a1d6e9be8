"""Runs the programs of tests/hostile, and holds how they end against what is documented of all of them."""
import os
import re
import subprocess
import sys
import tempfile
import threading
from pathlib import Path

TOP = Path(__file__).resolve().parents[2]
sys.path.insert(0, str(TOP / "tests"))
from scale import DNP, STORES, scaled  # noqa: E402

DONE, REFUSED, USAGE, FAULT = range(4)
# the line with which outstation, concentrate and centre begin their log: which build the program is
STARTED = re.compile(r"\d{4}-\d\d-\d\dT\d\d:\d\d:\d\d\.\d{3}Z started: dnp [\d.]+ \((?:proved.*|built without proof|build unknown)\)")
# what answer and decode say of the first check word that is wrong
CHECK_WORD = re.compile(r"dnp: standard input: (?:(?:line|octet) \d+: )?at octet \d+ of the frame, from 0, is [\dA-F]{2} [\dA-F]{2}, where the check word "
                        r"[\dA-F]{2} [\dA-F]{2} belongs\n")
# so many seconds for one run
PATIENCE = scaled(60, 180)


class Broken(Exception):
    """What came out otherwise than it has to, and the files of a run that shows it."""

    def __init__(self, what, **files):
        super().__init__(what)
        self.files = files


class Run:
    """A run of a program to its end: `status`, `out` and `err`, `kilobytes`, the most memory that it had, and `seconds`, those of its
    processor."""

    def __init__(self, words, given, room):
        with tempfile.TemporaryFile(dir=room) as stdin, tempfile.TemporaryFile(dir=room) as out, tempfile.TemporaryFile(dir=room) as err:
            stdin.write(given)
            stdin.seek(0)
            program = subprocess.Popen(words, cwd=room, stdin=stdin, stdout=out, stderr=err)
            timer = threading.Timer(PATIENCE, program.kill)
            timer.start()
            _, status, used = os.wait4(program.pid, 0)
            timer.cancel()
            self.status = program.returncode = os.waitstatus_to_exitcode(status)
            self.kilobytes, self.seconds = used.ru_maxrss, used.ru_utime + used.ru_stime
            out.seek(0)
            err.seek(0)
            self.out, self.err = out.read().decode("utf-8", "surrogateescape"), err.read().decode("utf-8", "surrogateescape")
        self.given = {"words": " ".join(map(str, words[1:])).encode(), "stdin": given}

    def broken(self, what, **files):
        """What is wrong with this run."""
        said = {"stdout": self.out.encode("utf-8", "surrogateescape"), "stderr": self.err.encode("utf-8", "surrogateescape")}
        return Broken(f"{what} (status {self.status}, {self.err[-200:]!r})", **self.given, **said, **files)

    def ends(self, *statuses):
        """The run has to have ended with one of these."""
        if self.status not in statuses:
            raise self.broken(f"status {self.status}, where one of {', '.join(map(str, statuses))} is documented")
        return self


def ran(*words, given=b"", room=None):
    """A run of `dnp`."""
    return Run([DNP, *words], given, room)
