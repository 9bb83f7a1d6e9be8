"""The rows that the readings of a script make, worked out from plan and script alone.

A reading is an event where its point has class 1, 2 or 3, and its flags are others than those of
the point's last event, or its value is further from that one's than the deadband. Before the first
event, and after a restart of the substation, 0 and the flags 02 stand in its place. A reading that
no object of its kind can carry does nothing. Stations, lines and lanes have no say in this.
"""
from holds import demand_covered, happened

MAX_TIME = 2**48
FIRST = (0, 2)
VALUES = {"binary": (0, 1), "counter": (0, 2**32 - 1), "analog": (-(2**31), 2**31 - 1)}
FLAGS = {"binary": 127, "counter": 255, "analog": 255}


def rows_made(substations, lines):
    """The rows, as a report has them. A substation has a list of classes by each kind, and
    `deadband`."""
    reported = {}
    rows = []
    for line in lines:
        verb, *words = line.split(" ")
        if verb == "restart" and words[0].isdigit():
            reported = {at: last for at, last in reported.items() if at[0] != int(words[0])}
        if verb != "change":
            continue
        station, kind, index = int(words[0]), words[1], int(words[2])
        value, flags, time = int(words[3]), int(words[4], 16), words[5]
        substation = substations[station]
        classes = substation[kind]
        least, most = VALUES[kind]
        is_in_range = least <= value <= most and flags <= FLAGS[kind]
        if time != "-":
            is_in_range = is_in_range and int(time) < MAX_TIME
        if index >= len(classes) or not is_in_range or classes[index] == 0:
            continue
        at = (station, kind, index)
        last_value, last_flags = reported.get(at, FIRST)
        deadband = substation["deadband"][index] if kind == "analog" else 0
        if flags != last_flags or abs(value - last_value) > deadband:
            reported[at] = (value, flags)
            spelled = time if time == "-" else int(time)
            rows.append(f" {station} {kind} {index} {value} {flags:02X} {spelled}")
    return rows


def check(report, made):
    """Holds what happened at the substations, as a report has it, against what the readings made:
    the same rows, each as often."""
    demand_covered("is_fate", made, happened(report), "what happened")
    demand_covered("is_fate", happened(report), made, "what the readings made")
