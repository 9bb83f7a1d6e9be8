#!/usr/bin/env python3
"""Random plans and scripts for `dnp sim`, the same ones for the same seed.

Usage: scripts.py SEED NUMBER FOLDER   (writes NUMBER.toml and NUMBER.script into the folder)

A script is made of acts of a few lines each, such as a poll with its response and confirm. Behind
each line something else may come in between. How likely each act is, and how much comes in between,
differs from script to script, so that some go smoothly and others hardly move a row.
"""
import os
import random
import sys

# What the words of each centre end in.
CENTRES = ["", "2"]
KINDS = ["binary", "counter", "analog"]
WAYS = ["down", "up"]
ENDS = ["master", "outstation"]
# A frame that is spelled right: where it is put in the place of another, nothing changes.
WHOLE_FRAME = "056414C40A0001008FEDC0C0013C02063C03063C04063C01068A51"


def numbers(these):
    """A list as TOML has it."""
    return "[" + ", ".join(str(number) for number in these) + "]"


class Plan:
    """A random plan."""

    def __init__(self, r):
        self.r = r
        self.confirm, self.response, self.select = (r.choice([1, 50, 5000]) for _ in range(3))
        self.retries = r.randrange(4)
        self.is_unsolicited = r.random() < 0.4
        self.is_wide = r.random() < 0.05
        self.queues = [self.lanes(), self.lanes()]
        count = r.choice([1, 1, 1, 2, 2, 3, 4, r.randint(5, 16)])
        self.substations = [self.substation() for _ in range(count)]
        for name, size in [("binary", len), ("counter", len), ("analog", len),
                           ("outputs", int), ("setpoints", int)]:
            self.place([size(substation[name]) for substation in self.substations])

    def lanes(self):
        """The room of nine lanes."""
        if self.is_wide:
            return [self.r.choice([300, 4096]) for _ in range(9)]
        most = self.r.choice([1, 3, 8, 100])
        return [self.r.randint(1, most) for _ in range(9)]

    def substation(self):
        """A substation, whose indices above are still to come."""
        r = self.r
        most = r.choice([1, 2, 5, 40]) if self.is_wide else r.choice([1, 2, 4])
        new = {kind: r.choices([0, 1, 2, 3], [1, 5, 3, 3], k=r.randint(0, most)) for kind in KINDS}
        new["deadband"] = [r.choice([0, 0, 1, 3, 2**32 - 1]) for _ in new["analog"]]
        new["outputs"], new["setpoints"] = r.choice([0, 1, 1, 2, 8]), r.choice([0, 1, 2])
        new["lanes"], new["base"] = self.lanes(), []
        return new

    def place(self, sizes):
        """Gives each substation its first index above of one kind: in any order, with gaps."""
        r = self.r
        left = 65536 - sum(sizes)
        bases, at = {}, 0
        for station in r.sample(range(len(sizes)), len(sizes)):
            gap = r.choice([0, 0, r.randint(0, min(left, 3000)), left if r.random() < 0.02 else 0])
            at, left = at + gap, left - gap
            # (one without points has its base too, which is no index above the last)
            bases[station] = min(at, 65535)
            at += sizes[station]
        for station, substation in enumerate(self.substations):
            substation["base"].append(bases[station])

    def text(self):
        """The plan as TOML."""
        lines = [f"confirm_ms = {self.confirm}", f"response_ms = {self.response}",
                 f"select_ms = {self.select}", f"retries = {self.retries}",
                 f"unsolicited = {str(self.is_unsolicited).lower()}",
                 f"queue = {numbers(self.queues[0])}", f"queue2 = {numbers(self.queues[1])}"]
        for substation in self.substations:
            lines.append("[[substation]]")
            for key, value in substation.items():
                lines.append(f"{key} = {numbers(value) if isinstance(value, list) else value}")
        return "\n".join(lines) + "\n"


class Script:
    """A random plan with a random script: its lines, and after how many of them a report is asked
    for, the last time after all."""

    def __init__(self, seed, number):
        self.r = r = random.Random(f"{seed} {number}")
        self.plan = Plan(r)
        self.stations = range(len(self.plan.substations))
        self.links = ["above", "above2", *map(str, self.stations)]
        self.between = r.choice([0, 0, 0.02, 0.1, 0.3])
        # by centre the substation of each control, whose number is its place from 1, and how many
        # were tried
        self.controls = {centre: [] for centre in CENTRES}
        self.tried = {centre: 0 for centre in CENTRES}
        # the second centre has less to do in some scripts, and nothing in others
        self.centres = r.choice([["", "2"], ["", "", "", "2"], [""]])
        self.clock = 0
        self.lines = []
        acts = [(self.changes, 6), (self.polled, 5), (self.unasked, 3), (self.upwards, 4),
                (self.unconfirmed, 3), (self.round, 2), (self.issue, 0.3), (self.controlled, 3),
                (self.relayed, 2), (self.opened, 2), (self.disturbance, 3),
                (self.answers_again, 0.2)]
        weights = [weight * r.choice([0.1, 1, 1, 4]) for _, weight in acts]
        weights[0] = max(weights[0], 3)
        if r.random() < 0.9:
            for link in self.links:
                self.put(f"open {link}")
        length = r.choice([20, 50, 100, 200, 500])
        while len(self.lines) < length:
            r.choices(acts, weights)[0][0]()
        self.reports = [len(self.lines)]
        if r.random() < 0.5:
            self.reports.insert(0, r.randrange(len(self.lines)))

    def text(self, count=None):
        """So many lines, or all."""
        return "".join(line + "\n" for line in self.lines[:count])

    def put(self, line):
        """One line, and what comes in between behind it."""
        self.lines.append(line)
        while self.r.random() < self.between:
            self.disturbance()

    # ---- what words name

    def link(self):
        return self.r.choice(self.links)

    def centre(self):
        return self.r.choice(self.centres)

    def below(self):
        return str(self.r.choice(self.stations))

    def classes(self):
        r = self.r
        return r.choice(["123", "1230", "1", "".join(r.sample("0123", r.randint(1, 4)))])

    def reading(self, kind):
        """A value and flags, seldom ones that no object can carry, and a time or none."""
        r = self.r
        self.clock += r.choice([0, 1, 1000])
        time = r.choice([self.clock, self.clock, self.clock, "-", 2**48 - 1, 0])
        if r.random() < 0.02:
            return f"{r.choice([-1, 2, 2**32, -2**31 - 1])} {r.choice(['80', 'ff', '02'])} {2**48}"
        flags = r.choice(["01", "01", "01", "01", "41", "7f", "00", "02"])
        if kind == "binary":
            return f"{r.randrange(2)} {flags} {time}"
        edges = [2**32 - 1, 2**31] if kind == "counter" else [2**31 - 1, -(2**31), -1]
        value = r.choice(edges) if r.random() < 0.1 else r.randrange(6)
        return f"{value} {flags} {time}"

    def command(self):
        """A substation and a command, seldom one that no output takes."""
        r = self.r
        station = r.choice(self.stations)
        substation = self.plan.substations[station]
        if r.random() < 0.6 and substation["outputs"] or r.random() < 0.1:
            index = r.randrange(substation["outputs"] + 1 if r.random() < 0.1 else 1)
            code = r.choice([1, 2, 3, 3, 3, 4, 4, 65, 129, 0, 5, 255])
            count, off_ms = r.choice([1, 1, 1, 0, 2]), r.choice([0, 9])
            return f"{station} block {index} {code} {count} 0 {off_ms}"
        index = r.randrange(substation["setpoints"] + (r.random() < 0.1) or 1)
        if r.random() < 0.5:
            return f"{station} set16 {index} {r.choice([0, 5, -5, 2**15 - 1, -(2**15)])}"
        return f"{station} set32 {index} {r.choice([0, 5, -5, 2**31 - 1, -(2**31)])}"

    # ---- acts

    def changes(self):
        """Readings of points of one substation."""
        r = self.r
        station = r.choice(self.stations)
        kinds = [kind for kind in KINDS if self.plan.substations[station][kind]] or KINDS
        count = r.randint(50, 400) if self.plan.is_wide and r.random() < 0.2 else r.randint(1, 8)
        for _ in range(count):
            kind = r.choice(kinds)
            points = len(self.plan.substations[station][kind])
            index = r.randrange(points + (r.random() < 0.02) or 1)
            self.put(f"change {station} {kind} {index} {self.reading(kind)}")

    def across(self, link, way):
        """What stands on a way of a link is delivered."""
        if self.r.random() < 0.8:
            self.put(f"flush {link} {way}")
        else:
            for _ in range(self.r.randint(1, 3)):
                self.put(f"{self.r.choice(['deliver', 'deliver', 'repeat'])} {link} {way}")

    def polled(self):
        """A poll with its responses and confirms."""
        link = self.link()
        self.put(f"poll {link} {self.classes()}")
        for _ in range(self.r.choice([1, 2, 2, 4])):
            self.across(link, "down")
            self.across(link, "up")
        self.across(link, "down")

    def unasked(self):
        """What is sent unasked, and its confirm."""
        link = self.link()
        if self.r.random() < 0.5:
            self.put(f"enable {link} {self.classes()}")
            self.across(link, "down")
        for _ in range(self.r.randint(1, 3)):
            self.across(link, "up")
            self.across(link, "down")

    def round(self, link=None):
        """A clean round, mostly on a link that was opened again."""
        link = link or self.link()
        if self.r.random() < 0.7:
            self.put(f"open {link}")
        self.put(f"round {link}")

    def upwards(self):
        """A round below, and one above."""
        self.round(self.below())
        self.round(f"above{self.centre()}")

    def unconfirmed(self):
        """Responses that arrive and whose confirm does not, and what was in them once more."""
        r, link = self.r, self.link()
        is_above = link.startswith("above")
        upper = link.replace("above", "centre") if is_above else "concentrator"
        lower = "concentrator" if is_above else link
        self.put(f"open {link}")
        self.put(f"poll {link} 123")
        self.across(link, "down")
        self.across(link, "up")
        self.put(r.choice([f"lose {link} down", f"hangup {link} outstation", f"restart {lower}",
                           f"hangup {link} master", f"restart {upper}", f"open {link}",
                           f"pass {self.plan.confirm}"]))
        if r.random() < 0.7:
            self.round(link)

    def issue(self):
        """A command, now and then the same one more than once. Answers its centre and its
        substation."""
        centre, command = self.centre(), self.command()
        station, form, index = command.split()[:3]
        outputs = "outputs" if form == "block" else "setpoints"
        is_there = int(index) < self.plan.substations[int(station)][outputs]
        for _ in range(self.r.choice([1, 1, 1, 2, 3])):
            self.put(f"issue{centre} {command}")
            self.controls[centre] += [station] * is_there
        return centre, station

    def controlled(self):
        """A command, and the controls that bring it and those before it to their outputs."""
        r = self.r
        centre, _ = self.issue()
        controls, tried = self.controls[centre], self.tried[centre]
        first = r.choice([tried, tried, max(0, tried - 2), 0])
        for control in range(first, len(controls)):
            if r.random() < 0.7:
                self.put(f"open above{centre}")
                self.put(f"open {controls[control]}")
            self.put(f"control{centre} {control + 1}")
        self.tried[centre] = len(controls)
        if r.random() < 0.1:
            self.put(f"control{centre} {r.choice([0, len(controls), len(controls) + 1, 2**64 - 1])}")

    def relayed(self):
        """A command, and the steps that bring it to its output."""
        r = self.r
        centre, below = self.issue()
        for link, most in [(f"above{centre}", 4), (below, 4)]:
            for _ in range(r.choice([most, most, r.randint(1, most)])):
                self.put(f"relay {link}")
                self.across(link, "down")
                self.across(link, "up")

    def opened(self):
        self.put(f"open {self.link()}")

    def answers_again(self):
        """A request that is answered again and again, and answers that are lost or that break the
        line."""
        link = self.link()
        self.put(f"poll {link} 123")
        for _ in range(self.r.choice([2, 34])):
            self.put(f"repeat {link} down")
        for _ in range(self.r.choice([1, 31, 32, 33])):
            self.put(f"lose {link} up")
        self.across(link, "up")
        self.across(link, "down")

    def damage(self):
        """Octets in the place of a unit's."""
        r = self.r
        if r.random() < 0.1:
            return WHOLE_FRAME
        octets = r.randbytes(r.choice([1, 10, r.randint(1, 292)])).hex()
        return r.choice(["", "0564"])[: len(octets)] + octets[4:] or octets

    def disturbance(self):
        """One line that wasn't to come here."""
        r, link, plan = self.r, self.link(), self.plan
        way, end = r.choice(WAYS), r.choice(ENDS)
        waits = [1, plan.confirm - 1, plan.confirm, plan.response, plan.select, 2**64 - 1]
        which = r.choices(range(12), [3, 3, 3, 2, 1, 2, 2, 2, 1, 1, 1, 1])[0]
        self.lines.append([
            f"deliver {link} {way}",
            f"lose {link} {way}",
            f"repeat {link} {way}",
            f"damage {link} {way} {self.damage()}",
            f"hangup {link} {end}",
            f"restart {r.choice(['centre', 'centre2', 'concentrator', self.below(), self.below()])}",
            f"pass {r.choice(waits[:5] if r.random() < 0.95 else waits)}",
            f"tick {link} {end}",
            f"{r.choice(['poll', 'enable', 'disable'])} {link} {self.classes()}",
            f"clear {link}",
            f"time {link} {r.choice([0, self.clock, 2**48 - 1, 2**48])}",
            f"relay {link}",
        ][which])


def main():
    """Writes one plan and its script."""
    seed, number, folder = sys.argv[1:]
    script = Script(int(seed), int(number))
    for ending, text in [("toml", script.plan.text()), ("script", script.text())]:
        with open(os.path.join(folder, f"{number}.{ending}"), "w", encoding="ascii") as file:
            file.write(text)


if __name__ == "__main__":
    main()
