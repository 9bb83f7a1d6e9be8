#!/usr/bin/env python3
"""Holds reports of `dnp sim` against the headline, and reads nothing but what is printed.

Usage: holds.py [REPORT..]   (no file: standard input)

The four definitions are those of the record `Holds` in crates/dnp_world/specs/Reports.antt, counted
here anew, and hold of each centre: a report that breaks one of them is told by the definition's
name, and one that is no report by `well_formed`. The lines of `round` and `control`, which come
first, are read over.
"""
import re
import sys
from collections import Counter

# What the words of each centre end in.
CENTRES = ["", "2"]
EVENTS = [f"{name}{centre}" for name in ["journal", "queue", "dropped"] for centre in CENTRES] + \
    ["confirmed", "buffered", "overwritten", "gone"]
COMMANDS = ["issued", "operated"]
COUNTS = [f"lost{centre}" for centre in CENTRES]

# Each number has one spelling, so that two rows are the same where their lines are.
_N = "(?:0|[1-9][0-9]*)"
_Z = "(?:0|-?[1-9][0-9]*)"
_POINT = f"(?:binary {_N} [01]|counter {_N} {_N}|analog {_N} {_Z})"
EVENT = re.compile(f" {_N} {_POINT} [0-9A-F]{{2}} (?:-|{_N})")
COMMAND = re.compile(f" {_N} (?:block {_N} {_N} {_N} {_N} {_N}|set(?:16|32) {_N} {_Z})")
COUNT = re.compile(f"([a-z]+2?) ({_N})")
OUTCOME = re.compile(f"round (?:above2?|{_N}) (?:ok|refused 1)|control2? {_N} (?:ok|refused [123])")


class Broken(Exception):
    """A report breaks a definition, of this name; what is wrong stands behind it."""

    def __init__(self, name, what):
        super().__init__(f"{name}: {what}")
        self.name = name


def demand(name, is_so, what):
    """Tells what is wrong, where it isn't so."""
    if not is_so:
        raise Broken(name, what)


def read(text):
    """The lists of a report by their names, and the numbers of `lost` and `lost2`."""
    lines = text.split("\n")
    demand("well_formed", lines.pop() == "", "the last line has no line feed")
    at = 0
    while at < len(lines) and OUTCOME.fullmatch(lines[at]):
        at += 1
    report = {}
    for name in EVENTS + COMMANDS + COUNTS:
        demand("well_formed", at < len(lines), f"there is no line {name}")
        count = COUNT.fullmatch(lines[at])
        is_named = count is not None and count[1] == name
        demand("well_formed", is_named, f"{lines[at]!r} where {name} and its number belong")
        number = int(count[2])
        at += 1
        if name in COUNTS:
            report[name] = number
            continue
        report[name] = lines[at : at + number]
        demand("well_formed", len(report[name]) == number, f"{name} is shorter than {number}")
        form = COMMAND if name in COMMANDS else EVENT
        for line in report[name]:
            demand("well_formed", form.fullmatch(line), f"{line!r} in {name}")
        at += number
    demand("well_formed", at == len(lines), "more comes behind lost2")
    return report


def happened(report):
    """The rows that happened at the substations, with repeats."""
    return report["buffered"] + report["confirmed"] + report["overwritten"] + report["gone"]


def demand_covered(name, few, many, where):
    """Each of these stands at least as often among those."""
    left_over = Counter(few) - Counter(many)
    for line, times in left_over.items():
        raise Broken(name, f"{line!r}, {times} times too few in {where}")


def check(report):
    """Holds a report that was read against the four definitions, of each centre."""
    for centre in CENTRES:
        queue, dropped, journal, lost = (f"{name}{centre}" for name in ["queue", "dropped", "journal", "lost"])
        # nothing_invented: each row of the journal happened at its substation.
        invented = set(report[journal]) - set(happened(report))
        demand("nothing_invented", not invented, f"{min(invented, default='')!r} never happened")
        # nothing_vanishes: what was confirmed is in the queue or the journal, or was dropped.
        stands = report[queue] + report[dropped] + report[journal]
        demand_covered("nothing_vanishes", report["confirmed"], stands, f"{queue}, {dropped} and {journal}")
        # lost_is_counted: as many rows were dropped as are counted as lost.
        count = len(report[dropped])
        demand("lost_is_counted", count == report[lost], f"{count} {dropped}, {report[lost]} {lost}")
    # no_command_twice: none was performed more often than it was issued.
    demand_covered("no_command_twice", report["operated"], report["issued"], "issued")


def main():
    """Checks the reports of these files, and tells each that breaks a definition."""
    status = 0
    for file in sys.argv[1:] or ["/dev/stdin"]:
        try:
            with open(file, encoding="utf-8", newline="") as text:
                check(read(text.read()))
        except (Broken, OSError, UnicodeDecodeError) as fault:
            print(f"{file}: {fault}")
            status = 1
    return status


if __name__ == "__main__":
    sys.exit(main())
