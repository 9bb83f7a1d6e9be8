#!/usr/bin/env python3
"""Runs `dnp` with standard output or standard error at a terminal, and holds what came against what comes at a pipe: 'ok NAME' or
'FAILED NAME: WHY'. The escapes are those of ECMA-48; between them the octets have to be the same."""
import os
import pty
import re
import select
import socket
import subprocess
import sys
import tempfile
import time
from pathlib import Path

TOP = Path(__file__).resolve().parents[2]
sys.path[:0] = [str(TOP / "tests"), str(TOP / "tests/hostile")]
import wire  # noqa: E402
from scale import DNP  # noqa: E402

COLOUR = re.compile(rb"\x1b\[[\d;]*m")
ESCAPE = re.compile(rb"\x1b")
ERASE = b"\r\x1b[K"
BOLD, RED, YELLOW, RESET = b"\x1b[1m", b"\x1b[31m", b"\x1b[33m", b"\x1b[0m"
# a frame, one whose check word is wrong, and a function that the stations lack
FRAMES = [wire.frame(0xC4, 10, 1, bytes.fromhex("C0 C0 01 3C 02 06")), wire.frame(0xC4, 10, 1, bytes.fromhex("C0 C0 01 3C 02 06"))[:-1] + b"\0",
          wire.frame(0xC4, 10, 1, bytes.fromhex("C1 C1 0D"))]
HEX = "\n".join(frame.hex(" ") for frame in FRAMES).encode() + b"\n"


def told(name, why):
    """Prints how a case came out: why it failed, if it did."""
    print(f"FAILED {name}: {why}" if why else f"ok {name}")


class Ran:
    """A run of `dnp` to its end, whose standard output, or error, is a terminal where that is asked for: `out` and `err`, in which
    lines end as at a pipe."""

    def __init__(self, words, given=b"", out=False, err=False, room=None, **environment):
        ends = {}
        handles = {}
        for name, wanted in (("stdout", out), ("stderr", err)):
            mine, other = pty.openpty() if wanted else os.pipe()
            ends[mine], handles[name] = name, other
        with tempfile.TemporaryFile() as stdin:
            stdin.write(given)
            stdin.seek(0)
            environment = {"TERM": "xterm", **{k: v for k, v in os.environ.items() if k not in ("NO_COLOR", "TERM")}, **environment}
            self.program = subprocess.Popen([DNP, *words], cwd=room, stdin=stdin, env=environment, **handles)
        for handle in handles.values():
            os.close(handle)
        self.ends, self.came = ends, {"stdout": b"", "stderr": b""}

    def take(self, until=None, seconds=300):
        """Takes what comes, up to the end, or until standard error has these octets."""
        stop = time.monotonic() + seconds
        while self.ends and time.monotonic() < stop and not (until and until in self.came["stderr"]):
            for end in select.select(list(self.ends), [], [], 0.1)[0]:
                try:
                    octets = os.read(end, 65_536)
                except OSError:  # (a terminal whose other end is closed)
                    octets = b""
                if not octets:
                    os.close(end)
                    del self.ends[end]
                    continue
                self.came[self.name_of(end)] += octets
        return self

    def name_of(self, end):
        return self.ends[end]

    def ended(self):
        self.take()
        self.status = self.program.wait()
        self.out, self.err = (self.came[name].replace(b"\r\n", b"\n") for name in ("stdout", "stderr"))
        return self


def decode():
    """Refusals are red, frames bold, and what the profile lacks yellow; each stream is judged for itself."""
    plain = Ran(["decode"], HEX).ended()
    seen = Ran(["decode"], HEX, out=True).ended()
    told("decodes-in-colours", COLOUR.sub(b"", seen.out) != plain.out and f"{seen.out} has other octets than {plain.out}"
         or next((f"{part} is not in {seen.out}" for part in (
             BOLD + b"1 1>10 C4 UNCONFIRMED_USER_DATA 6 octets, words good" + RESET + b"\n", RED + b"2 1>10 frame refused: BlockCheck 0 at octet 10" + RESET + b"\n",
             YELLOW + b"3   request seq 1 fir fin COLD_RESTART, beyond the profile" + RESET + b"\n", b"\n1   request seq 0 fir fin READ\n") if part not in seen.out), None))
    for name, run in {"at-a-pipe": plain, "with-NO_COLOR": Ran(["decode"], HEX, out=True, NO_COLOR="1").ended(),
                      "at-a-dumb-terminal": Ran(["decode"], HEX, out=True, TERM="dumb").ended(),
                      "beside-a-terminal": Ran(["decode"], HEX, err=True).ended(), "as-JSON": Ran(["decode", "--json"], HEX, out=True).ended()}.items():
        told(f"decodes-without-an-escape-{name}", ESCAPE.search(run.out + run.err) and f"{run.out} and {run.err}" or not run.out and "nothing came")
    told("takes-an-empty-NO_COLOR-for-none", RED not in Ran(["decode"], HEX, out=True, NO_COLOR="").ended().out and "there is no colour")


def check():
    """The headings of a table are bold."""
    words = ["check", "--plan", str(TOP / "examples/plan.toml"), "--network", str(TOP / "examples/network.toml")]
    plain, seen = Ran(words).ended(), Ran(words, out=True).ended()
    told("checks-with-bold-headings", COLOUR.sub(b"", seen.out) != plain.out and f"{seen.out} has other octets than {plain.out}"
         or seen.out.count(BOLD) != 2 and f"{seen.out.count(BOLD)} headings" or ESCAPE.search(plain.out) and "an escape at a pipe")
    other = Ran([*words, "--csv"], out=True).ended()
    told("checks-without-an-escape-as-CSV", ESCAPE.search(other.out) and f"{other.out}")


def late(err):
    """What the log of a station says of one who comes too late, where standard error is a terminal or not."""
    with socket.create_server(("127.0.0.1", 0)) as server:
        port = server.getsockname()[1]
    run = Ran(["outstation", "--plan", str(TOP / "examples/plan.toml"), "--station", "0", "--port", str(port)], err=err)
    run.take(b"listening on", 60)
    with socket.create_connection(("127.0.0.1", port)):
        run.take(b" connected", 60)
        with socket.create_connection(("127.0.0.1", port)) as other:
            other.settimeout(60)
            told(f"hangs-up-who-comes-too-late-{'seen' if err else 'piped'}", other.recv(1) != b"" and "something came")
            run.take(b"came too late", 60)
    return run.ended().err


def log():
    """A line that needs a look is yellow, and others are plain."""
    seen, plain = late(True), late(False)
    said = b"came too late and is hung up: the program ends after the connection that it serves; '--forever' serves more"
    told("logs-in-colours", YELLOW + said + RESET not in seen and f"{seen}" or seen.count(b"\x1b") != 2 and f"other escapes: {seen}")
    told("logs-without-an-escape-at-a-pipe", (ESCAPE.search(plain) or said not in plain) and f"{plain}")


def long_work(room):
    """A long script is told while it is checked and run, and nothing is left of that."""
    # (more than 1 MiB in few lines)
    script = (b"damage 0 up " + b"0" * 580 + b"\n") * 1_800
    words = ["sim", "--plain", "--plan", str(TOP / "examples/plan.toml")]
    plain, seen = Ran(words, script).ended(), Ran(words, script, err=True).ended()
    told("tells-what-takes-long", not seen.err.startswith(ERASE + b"dnp: checking the script of 1067400 octets ..") and f"{seen.err[:200]}"
         or not seen.err.endswith(ERASE) and f"{seen.err[-200:]} stands at the end"
         or seen.out != plain.out and "the report is another one")
    told("tells-no-pipe-what-takes-long", plain.err and f"{plain.err[:200]}")
    both = Ran(words, script, out=True, err=True).ended()
    told("prints-the-report-alone-at-one-terminal", both.out != plain.out and f"{both.out[:200]}")


def main():
    decode()
    check()
    log()
    with tempfile.TemporaryDirectory() as room:
        long_work(room)


if __name__ == "__main__":
    main()
