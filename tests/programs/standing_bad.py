"""Good substations, and next to them six that do what none may do, each in a way of its own. Part of standing_network.py."""
import re
import time

import counting
import standing_far
from bad_peers import BAD
from peer_centre import Centre
from peer_substation import Substation
from relay import Row
from scale import scaled
from standing import MEDIAN_MS, POINTS, WAIT, Network, above, aged, ages, awaited, each_once, judge, made_of, percentile

# how often each substation has an event, in seconds, and one way of the line to each, in milliseconds
EVERY_S, DELAY_MS = scaled(0.1, 1), 10
# by how much the 99th percentile may move
PART = 1.2
# how long a master may rest before it looks whether a lost substation is back, in seconds
REST_S = 70
# what the log says of each bad substation
CAUSES = {
    "floats": r"response refused: 30\.5 at octet \d+ is not in the profile",
    "too-many": rf"response refused: event of analog {POINTS}, which the plan lacks",
    "endless": r"(?:still )?lost, .*: the answer has no end",
    # (in a second its octets are no frame yet)
    "dripping": r"(?:still )?lost, .*: (?:no answer in \d+ ms|octets came, and no frame)",
    "deaf": r".*the same unsolicited response.*",
    "restarting": r"(?:still )?lost, .*: (?:the connection ended before the answer|the stream could not be read: .*)",
}


class Beside:
    """The network: the bad ones come later."""

    def __init__(self, network, count, is_strict):
        self.network, self.is_strict = network, is_strict
        for number in range(count):
            network.relay(number, DELAY_MS)
        self.good = [network.peer(Substation, number, every=EVERY_S) for number in range(count)]
        self.begun = network.concentrate()
        self.witness, self.centre = network.witness(), network.peer_above(Centre)
        network.centre()
        self.centre.start()
        self.numbers = dict(enumerate(BAD, count))
        self.end_of_good = above(count, 0)

    def both(self):
        return {"centre 1": self.witness.rows, "centre 2": self.centre.rows}

    def rows(self, since=None):
        """What came of good substations to each centre, behind so many rows."""
        return {name: [row for row in rows[(since or {}).get(name, 0) :] if row.index < self.end_of_good] for name, rows in self.both().items()}

    def counts(self):
        return {name: len(rows) for name, rows in self.both().items()}

    def cause(self, name, number):
        """What the log says of a bad substation by which it is told from the others; none yet if there is no such line."""
        found = (line for line in self.network.lines_of(number) if re.fullmatch(CAUSES[name], line))
        return next(found, None)

    def come(self):
        """The bad ones come."""
        for number, name in self.numbers.items():
            self.network.relay(number, DELAY_MS)
            self.network.peer(BAD[name], number, every=EVERY_S)

    def said(self):
        """Each bad one is named in the log by its own cause, which is none of the others'."""
        causes = {name: self.cause(name, number) for number, name in self.numbers.items()}
        lines = {name: self.network.lines_of(number)[:4] for number, name in self.numbers.items()}
        unsaid = [f"{name}: {lines[name]}" for name, cause in causes.items() if cause is None]
        # (one that is absent for a while is lost for another reason, so that each is compared by its cause alone)
        alike = [f"{name}: {cause}" for name, cause in causes.items() if cause and
                 [each for each, pattern in CAUSES.items() if re.fullmatch(pattern, cause)] != [name]]
        return judge("bad-each-is-said", *unsaid, *alike, told=f"{len(set(filter(None, causes.values())))} causes")

    def compared(self, seconds):
        """Rows of good substations are as young next to bad ones as without them, and the log says of each bad one what it does."""
        started = awaited(lambda: all(peer.enabled for peer in self.good) and self.centre.started, 2 * WAIT)
        since = self.counts()
        time.sleep(seconds)
        awaited(lambda: all(self.rows(since).values()))
        before, since = self.rows(since), self.counts()
        self.come()
        awaited(lambda: all(self.cause(name, number) for number, name in self.numbers.items()), 2 * WAIT + REST_S, 0.2)
        time.sleep(seconds)
        after = self.rows(since)
        faults = [] if self.begun and started else ["it did not begin"]
        good = self.said()
        for name in before:
            faults += self.older(name, before[name], after[name])
        told = "; ".join(f"{name} without: {aged(before[name])}, with: {aged(after[name])}" for name in before)
        return judge("bad-ones-hold-up-no-good-one", *faults, told=told) and good

    def older(self, name, before, after):
        """By what the rows at a centre are too old, where ages are judged: a busy machine sees rows late."""
        if not before or not after:
            return [f"{name}: no rows"]
        if not self.is_strict:
            return []
        medians = [percentile(ages(rows), 0.5) for rows in (before, after)]
        first, then = (percentile(ages(rows), 0.99) for rows in (before, after))
        return [f"{name}: median {max(medians)} ms"] * (max(medians) > MEDIAN_MS) + [f"{name}: from {first} to {then} ms"] * (then > first * PART)

    def counted(self):
        """No event of a good substation is lost or comes twice, and the log says of none that it is lost or refused."""
        for peer in self.good:
            peer.call(peer.rest)
        time.sleep(0.1)
        made = {key: at for number, peer in enumerate(self.good) for key, at in made_of(number, peer).items()}
        awaited(lambda: all(len(rows) >= len(made) for rows in self.rows().values()))
        lines = [f"substation {number}: {line}" for number in range(len(self.good)) for line in self.network.lines_of(number)]
        faults = [line for line in lines if "lost" in line or "refused" in line]
        wrong = [wrong for peer in [self.centre, *self.good] for wrong in peer.wrong[:2]]
        rows = {**self.rows(), "the journal": self.journal()}
        return judge("bad-ones-lose-no-event-of-good-ones", *(each_once(name, there, made) for name, there in rows.items()), *faults[:3], *wrong[:3],
                     told=f"{len(made)} events")

    def journal(self):
        """What the first centre's journal has of good substations, once its program has ended."""
        self.network.kill("centre")
        found = counting.rows(self.network.room / "journal.db", "SELECT point, value, time FROM journal")
        return [Row(None, *row) for row in found if row[0] < self.end_of_good]


def bad(room, words):
    """Good substations for a while, and then bad ones too: each on a machine of its own, where namespaces can be made."""
    count, seconds = words.good + len(BAD), words.seconds or 4
    tag = f"{standing_far.TAG}b"
    with standing_far.spread("bad with addresses of their own", count, tag) as made:
        ways = range(count)
        network = standing_far.Far(room, count, ways, True, tag) if made else Network(room, count, ways, True)
        try:
            beside = Beside(network, words.good, words.strict)
            good = beside.compared(seconds)
            return beside.counted() and good
        finally:
            network.end()
