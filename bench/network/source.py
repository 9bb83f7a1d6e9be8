#!/usr/bin/env python3
"""source.py PORT NUMBER POINTS: a substation of another make, in a process of its own, which is told what to do by lines on standard input:
`go MS` has it make an event each so many milliseconds, `rest` has it make none, and `state` has it print how many it made and how many it still
has, and whether a master polled it or enabled its unsolicited responses. At the end of the lines it prints each event that it made: its index,
its value and its moment in nanoseconds since 1970."""
import json
import sys
import time
from pathlib import Path

sys.path.insert(0, str(Path(__file__).resolve().parents[2] / "tests/programs"))
from peer_substation import Substation  # noqa: E402
from peers import READ  # noqa: E402


class Source(Substation):
    """Keeps the moment of each event, finer than the time that is sent."""

    def __init__(self, *place, **how):
        super().__init__(*place, **how)
        self.moments = []

    def change(self):
        self.moments.append(time.time_ns())
        super().change()

    def state(self):
        is_asked = bool(self.enabled) or any(heard.function == READ for heard in self.heard)
        return {"made": len(self.made), "left": len(self.events), "is_asked": is_asked, "wrong": self.wrong[:3]}


def main():
    port, number, points = map(int, sys.argv[1:])
    source = Source(("127.0.0.1", port), own=10 + number, points=points)
    source.start()
    for line in sys.stdin:
        word, *more = line.split()
        if word == "go":
            source.call(lambda seconds=float(more[0]) / 1000: source.begin(seconds))
        elif word == "rest":
            source.call(source.rest)
        elif word == "state":
            print(json.dumps(source.state()), flush=True)
    source.end()
    print(json.dumps([[event.index, event.value, moment] for event, moment in zip(source.made, source.moments)]), flush=True)


if __name__ == "__main__":
    main()
