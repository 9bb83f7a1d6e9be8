"""The story of a network with few substations over connections that stand: each thing that such a network does once, and what it bears. Part of
standing_network.py."""
import subprocess
import time

from network import DNP
from peer_centre import Centre
from peer_substation import Substation
from peers import CONFIRM, DISABLE, ENABLE, ONLINE, OPERATE, READ, SELECT, WRITE
from relay import Relay
from scale import scaled
from standing import (EVERY_S, HOST, MEDIAN_MS, POINTS, RESPONSE_MS, WAIT, Network, above, aged, ages, awaited, each_once, free_port, judge,
                      made_by_replay, made_of, percentile, replay_of)

# how soon a lost substation is seen above, in seconds
LOST_S = scaled(1, 4)
# what a master asks first, in this order
START = [DISABLE, READ, WRITE, WRITE, ENABLE]
ISSUED = "2 set32 0 77"


class Few:
    """Substations 0 and 1 are by `dnp outstation`, 2 and 3 of another make: a relay is before 2, and 3 comes late. The second centre is of another
    make, behind a relay of its own."""

    COUNT, EVERY_MS = scaled(25, 8), int(EVERY_S * 1000)

    def __init__(self, room):
        self.network = network = Network(room, 4, ways=[2])
        self.made, self.good = {}, True
        self.relay = Relay(network.ways[2], network.listens[2])
        self.door = Relay((HOST, free_port()), network.doors[1])
        network.relays += [self.relay, self.door]
        for number in (0, 1):
            self.replayed(number, 1)
        self.third = network.peer(Substation, 2, every=EVERY_S)
        self.begun = bool(network.concentrate())
        self.centre = Centre(self.door.place, own=3)
        network.peers.append(self.centre)
        self.centre.start()
        network.centre("--issue", ISSUED)
        self.follower = network.follow()

    def replayed(self, number, first):
        """Begins a substation by `dnp outstation`, whose values begin with this one."""
        self.made.update(made_by_replay(number, self.COUNT, first))
        return self.network.outstation(number, replay_of(self.COUNT, self.EVERY_MS, self.EVERY_MS, first))

    def judge(self, name, *faults, told=""):
        self.good = judge(f"few-{name}", *faults, *self.network.wrongs(), told=told) and self.good

    def rows(self):
        """What came to each centre."""
        return {"centre 1": self.follower.rows, "centre 2": self.centre.rows}

    def all_made(self):
        """All events that were made until now."""
        return {**self.made, **made_of(2, self.third), **made_of(3, self.late)}

    def settled(self, often=1, seconds=WAIT):
        """What is wrong with the rows of both centres, once all have come that were made, or time is up."""
        made = self.all_made()
        awaited(lambda: not any(each_once(name, rows, made, 99) for name, rows in self.rows().items()), seconds)
        return [each_once(name, list(rows), made, often) for name, rows in self.rows().items()]

    def late_substation(self):
        """A substation that is not there is never ONLINE above, and its points are once it has come."""
        awaited(lambda: self.centre.started)
        lost = self.network.says(r"substation 3: lost, no good answer since the start: .*Connection refused")
        self.centre.poll("0")
        awaited(lambda: ("analog", above(3, 0)) in self.centre.present, 2)
        before = [self.centre.quality("analog", above(3, index)) for index in range(POINTS)]
        self.late = self.network.peer(Substation, 3, every=EVERY_S)
        came = awaited(lambda: self.late.gone, 2 * WAIT)
        online = awaited(lambda: self.online(3), WAIT)
        self.judge("a-late-substation", "" if self.begun else "it did not begin", lost, "" if came and online else f"came {came}, online {online}",
                   f"ONLINE before it came: {before}" if any((flags or 0) & ONLINE for flags in before) else "")

    def online(self, number):
        """Whether all points of a substation are ONLINE, by a poll of the centre."""
        self.centre.poll("0")
        time.sleep(0.05)
        return all(self.centre.is_online("analog", above(number, index)) for index in range(POINTS))

    def plain(self):
        """Each event comes once to both centres, and soon."""
        for peer in (self.third, self.late):
            peer.call(peer.rest)
        self.judge("each-event-once", *self.settled(), told="; ".join(f"{name}: {aged(rows)}" for name, rows in self.rows().items()))
        median = percentile(ages([row for row in self.centre.rows if row.index < above(3, 0)]), 0.5)
        self.judge("rows-are-young", "" if median is not None and median <= MEDIAN_MS else f"median {median} ms", told=f"median {median} ms")

    def start_below(self):
        """What was asked of a substation: the start, in its order, and no more than that; the rest came unsolicited, and was confirmed."""
        functions = [heard.function for heard in self.third.heard if heard.function not in (CONFIRM, SELECT, OPERATE)]
        written = [bytes(heard.objects[:2]) for heard in self.third.heard if heard.function == WRITE]
        self.judge("a-start-in-its-order", "" if functions[: len(START)] == START else f"{functions}",
                   "" if functions.count(READ) <= 2 else f"{functions.count(READ)} polls")
        confirms = sum(heard.function == CONFIRM for heard in self.third.heard)
        is_written = self.third.iin == 0 and written == [b"\x50\x01", b"\x32\x01"]
        self.judge("a-restart-is-cleared-and-the-time-written", "" if is_written else f"{self.third.iin:02x} {written}",
                   "" if len(self.third.clocks) == 1 and abs(self.third.clocks[0]) < 1000 else f"{self.third.clocks}",
                   "" if not self.centre.indications[-1] & 0x80 else f"{self.centre.indications}")
        self.judge("unsolicited-responses-are-taken-and-confirmed", f"{len(self.third.events)} events are left" if self.third.events else "",
                   "" if confirms > self.COUNT // 2 else f"{confirms} confirms")

    def control(self):
        """A control of `--issue` is taken, selected and operated, each once, and both books say so."""
        done = awaited(lambda: self.third.operated)
        functions = [heard.function for heard in self.third.heard]
        is_it = done and [it[:2] for it in self.third.operated] == [b"\x29\x01"]
        self.judge("a-control-is-operated-once", "" if is_it else f"{self.third.operated}",
                   "" if functions.count(SELECT) == functions.count(OPERATE) == 1 else f"{functions}",
                   self.network.says(r"substation 2: control \d+( for .*)?: selected"),
                   self.network.says(r"substation 2: control \d+( for .*)?: operated \(status 0 SUCCESS\)"),
                   self.network.says(r"control \d+( .*)?: taken by the concentrator \(status 0 SUCCESS\)", "centre"),
                   self.booked("below.db", "concentrator", "operated by the substation (status 0 SUCCESS)"),
                   self.booked("above.db", "centre", "taken by the concentrator (status 0 SUCCESS)"))

    def booked(self, book, whose, wanted):
        words = [DNP, "rows", "--controls", book, "--of", whose]
        shown = subprocess.run(words, cwd=self.network.room, capture_output=True, text=True, check=False).stdout
        return "" if shown.count("\n") == 1 and wanted in shown else f"{book}: {shown!r}"

    def quality(self):
        """Points of a lost substation are COMM_LOST above at once, and ONLINE again once they were read."""
        index = above(2, 0)
        reads = sum(heard.function == READ for heard in self.third.heard)
        self.relay.refuses = True
        begun = time.monotonic()
        self.relay.cut()
        lost = awaited(lambda: self.is_lost(index), WAIT)
        took = time.monotonic() - begun
        others = [number for number in (0, 1, 3) if not self.online(number)]
        self.relay.refuses = False
        back = awaited(lambda: self.online(2), 2 * WAIT)
        again = sum(heard.function == READ for heard in self.third.heard)
        self.judge("quality-follows-the-connection", "" if lost and took <= LOST_S else f"lost {lost} after {took:.2f} s",
                   f"{others} lost, too" if others else "", "" if back and again > reads else f"back {back}, {again - reads} polls",
                   told=f"lost after {took * 1000:.0f} ms")

    def is_lost(self, index):
        self.centre.poll("0")
        time.sleep(0.05)
        return self.centre.is_lost("analog", index)

    def frozen(self):
        """A line that stands still for a while loses nothing, and holds up no other substation."""
        self.relay.is_frozen = True
        for peer in (self.third, self.late):
            for _ in range(5):
                peer.call(peer.change)
        meanwhile = awaited(lambda: not self.late.events, WAIT)
        time.sleep(RESPONSE_MS / 2000)
        held = len(self.third.events)
        self.relay.is_frozen = False
        self.judge("a-frozen-line-loses-nothing", *self.settled(), "" if meanwhile and held >= 5 else f"meanwhile {meanwhile}, {held} held")

    def killed(self):
        """Programs that are killed go on where they were, and a substation that was killed is asked again from its start."""
        self.network.kill("substation0")
        self.network.kill("concentrator")
        for peer in (self.third, self.late):
            for _ in range(5):
                peer.call(peer.change)
        time.sleep(0.3)
        self.network.kill("centre")
        self.replayed(0, 1001)
        begun = self.network.concentrate()
        self.network.centre()
        self.third.crash(0.2)
        self.judge("kills-lose-nothing", "" if begun else "it did not begin again", *self.settled(2, 3 * WAIT),
                   "" if awaited(lambda: self.third.iin == 0) else "a restart is not cleared")

    def cut(self):
        """A line that is cut again and again loses nothing."""
        for _ in range(5):
            self.third.call(self.third.change)
            time.sleep(0.3)
            self.relay.cut()
            self.door.cut()
        self.judge("cuts-lose-nothing", *self.settled(6, 3 * WAIT), told=f"{self.relay.cuts} and {self.door.cuts} cuts")
