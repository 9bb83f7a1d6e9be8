#!/usr/bin/env python3
"""The stations of another make of peer_substation.py, bad_peers.py and peer_centre.py, over programs that need no connection that stays: `dnp
poll`, `dnp outstation`, and `dnp concentrate` in rounds. So what standing_network.py finds with them is the network's fault, and not theirs. And
the judgements that it makes of rows see what is wrong with them. Prints a line 'ok CASE' or 'FAILED CASE' for each case."""
import collections
import re
import shutil
import subprocess
import sys
import tempfile
import time
from pathlib import Path

from bad_peers import BAD
from network import DNP, is_listening
from peer_centre import Centre
from peer_substation import Substation
from peers import CONFIRM, DISABLE, ENABLE, OPERATE, SELECT
from standing import (HOST, MEMORY, PLAN, POINTS, SUBSTATION, above, aged, ages, awaited, each_once, free_port, judge, made_of, percentile,
                      place_text, replay_of)

EVENT = re.compile(r"(?:\S+Z )?analog (\d+) (-?\d+) 01 \S+ event(?: unsolicited)?")
# what the log of rounds says of bad substations, by the number of each; the deaf one isn't asked for unsolicited responses in rounds, and of
# the endless one a round would have no end
ROUNDS_SAY = {
    "floats": r"substation {}: response refused: 30\.5 at octet \d+ is not in the profile",
    "too-many": r"substation {}: response refused: event of analog %d, which the plan lacks" % POINTS,
    # (in a second its octets are no frame yet)
    "dripping": r"substation {}: lost, .*: (?:no answer in \d+ ms|octets came, and no frame)",
    "restarting": r"substation {}: lost, .*: (?:the connection ended before the answer|the stream could not be read)",
}
Given = collections.namedtuple("Given", "index value time came")


class Mute(Centre):
    """A centre that asks and confirms nothing, and keeps each unsolicited response."""

    def __init__(self, *place, **ends):
        super().__init__(*place, **ends)
        self.unasked = []

    def take_unasked(self, fragment):
        self.unasked.append(fragment)

    def ask(self):
        pass

    def confirm(self, control):
        pass


def poll(station, *words):
    words = [DNP, "poll", place_text(station.place), "--timeout", "20000", *words]
    ran = subprocess.run(words, stdin=subprocess.DEVNULL, capture_output=True, text=True, timeout=60, check=False)
    return ran.returncode, ran.stdout.splitlines(), ran.stderr


def events_in(lines):
    """The index and the value of each event that was printed."""
    return [(int(found[1]), int(found[2])) for found in map(EVENT.fullmatch, lines) if found]


def begun(kind=Substation, **how):
    station = kind((HOST, free_port()), **how)
    station.start()
    awaited(lambda: is_listening(station.place[1]))
    return station


def changed(station, count):
    """Has so many events made."""
    for _ in range(count):
        station.call(station.change)
    awaited(lambda: len(station.made) == count)
    return [(event.index, event.value) for event in station.made]


def polled():
    """Events come once, and stay until they are confirmed; a restart is cleared and the time written; a control is operated once."""
    station = begun()
    made = changed(station, 120)
    unconfirmed = poll(station, "--confirm", "no", "--classes", "123")
    kept = len(station.events)
    first, second = poll(station), poll(station)
    good = judge("events-stay-until-they-are-confirmed",
                 "" if events_in(unconfirmed[1]) == made[:50] and kept == 120 else f"{unconfirmed}, {kept} kept",
                 "" if events_in(first[1]) == made and not station.events else f"{first}, {len(station.events)} left",
                 "" if events_in(second[1]) == [] and f"analog 0 {made[-1][1]} 01 - static" in second[1] else f"{second}", *station.wrong)
    indications = first[1][-1:] + poll(station, "--clear-restart", "--time", "now", "--classes", "0")[1][-1:]
    good = judge("indications-are-cleared", "" if indications == ["iin 90 00 need-time restart", "iin 00 00"] else f"{indications}",
                 "" if [abs(off) < 1000 for off in station.clocks] == [True] else f"clocks {station.clocks}", *station.wrong) and good
    operated = poll(station, "--operate", "set32 0 77"), poll(station, "--operate", "latch-on 0", "--direct")
    functions = [heard.function for heard in station.heard]
    good = judge("a-command-is-operated-once", "" if [it[0] for it in operated] == [0, 0] else f"{operated}",
                 "" if [it[0] for it in station.operated] == [41, 12] else f"{station.operated}",
                 "" if functions.count(SELECT) == functions.count(OPERATE) == 1 else f"{functions}", *station.wrong) and good
    station.end()
    return good


def listened():
    """Unsolicited responses come once they are enabled, one after the confirm of the other, and again if they aren't confirmed."""
    station = begun(every=0.05)
    heard = poll(station, "--listen", "--for", "2s")
    made = len(station.made)
    functions = [it.function for it in station.heard]
    came = events_in(heard[1])
    values = [value for _, value in came]
    unasked = sum(line.endswith("unsolicited") for line in heard[1])
    is_whole = values == list(range(1, len(values) + 1)) and len(values) >= made - 4
    is_asked = functions.count(CONFIRM) > 20 and {ENABLE, DISABLE} < set(functions)
    good = judge("unsolicited-responses-are-confirmed", "" if is_whole else f"{heard}",
                 "" if unasked > 20 and is_asked else f"{unasked} unsolicited, {functions}",
                 "" if len(station.gone) == len(values) else f"{len(station.gone)} gone", *station.wrong, told=f"{unasked} of {made} events")
    station.end()
    return good


def unconfirmed():
    """An unsolicited response that isn't confirmed comes again, octet for octet, and no event of it is let go."""
    station = begun()
    centre = Mute(station.place, own=2, peer=10)
    centre.start()
    is_there = awaited(lambda: len(centre.unasked) >= 2)
    changed(station, 3)
    for peer in (centre, station):
        peer.end()
    return judge("what-is-not-confirmed-comes-again", "" if is_there and len(set(centre.unasked)) == 1 else f"{centre.unasked}",
                 "" if not station.gone and len(station.events) == 3 else f"{station.gone} gone", *station.wrong, *centre.wrong)


def replayed(room):
    """The centre takes all that `dnp outstation` has, by polls and unsolicited, and reads its values."""
    room.mkdir()
    port, count = free_port(), 60
    (room / "plan.toml").write_text(PLAN + SUBSTATION.format(first=0, number=0), encoding="ascii")
    (room / "replay").write_text(replay_of(count, 50), encoding="ascii")
    words = [DNP, "outstation", "--plan", "plan.toml", "--station", "0", "--port", str(port), "--forever", "--replay", "replay"]
    program = subprocess.Popen(words, cwd=room, stdout=subprocess.DEVNULL, stderr=subprocess.DEVNULL)
    awaited(lambda: is_listening(port), 60)
    centre = Centre((HOST, port), own=2, peer=10)
    centre.start()
    try:
        awaited(lambda: len(centre.rows) == count)
        centre.poll("0")
        wanted = {index: max(k for k in range(1, count + 1) if k % POINTS == index) for index in range(POINTS)}
        awaited(lambda: {index: centre.present["analog", index].value for index in range(POINTS)} == wanted)
        shown = {index: centre.present["analog", index].value for index in range(POINTS)}
        values = sorted(row.value for row in centre.rows)
        return judge("a-centre-takes-what-an-outstation-has", "" if values == list(range(1, count + 1)) else f"{values}",
                     "" if shown == wanted else f"{shown}", "" if any(row.is_unasked for row in centre.rows) else "none came unsolicited",
                     "" if centre.indications[0] & 0x80 and not centre.indications[-1] & 0x80 else f"{centre.indications}", *centre.wrong,
                     told=aged(centre.rows))
    finally:
        centre.end()
        program.kill()
        program.wait()


def unending():
    """A response without an end goes on, as long as each fragment is confirmed; and the same unsolicited response comes again, however often it is
    confirmed."""
    peers = []
    for kind in (BAD["endless"], BAD["deaf"]):
        station = begun(kind, every=0.1)
        peers.append((station, Centre(station.place, own=2, peer=10)))
        peers[-1][1].start()
    (_, reader), (deaf, listener) = peers
    goes_on = awaited(lambda: len(reader.rows) >= 20)
    repeats = awaited(lambda: sum(heard.function == CONFIRM for heard in deaf.heard) >= 6)
    for station, centre in peers:
        centre.end()
        station.end()
    unasked = [row for row in listener.rows if row.is_unasked]
    good = judge("a-response-without-an-end-goes-on", "" if goes_on and not reader.started else f"{len(reader.rows)} rows", *reader.wrong)
    return judge("what-is-never-let-go-comes-again", "" if repeats and not deaf.gone else f"{deaf.gone} gone",
                 "" if unasked and len(unasked) == len(set(row.value for row in unasked)) else f"{unasked}", *deaf.wrong, *listener.wrong) and good


def rounds(room):
    """`dnp concentrate` in rounds over two good substations and the bad ones, with the centre above: it says of each bad one what it says."""
    room.mkdir()
    bad = {name: kind for name, kind in BAD.items() if name != "endless"}
    kinds = [Substation, Substation, *bad.values()]
    below, *_ = [free_port() for _ in kinds]
    doors = [free_port(), free_port()]
    substations = "".join(SUBSTATION.format(first=above(number, 0), number=number) for number in range(len(kinds)))
    (room / "plan.toml").write_text(PLAN + substations, encoding="ascii")
    stations = []
    for number, kind in enumerate(kinds):
        stations.append(kind((HOST, below + number), own=10 + number, points=POINTS, every=0.4))
        stations[-1].start()
    centre = Centre((HOST, doors[1]), own=3)
    with open(room / "said", "wb") as said:
        words = ["--plan", "plan.toml", "--queue", "queue.db", "--controls", "below.db", "--every", "100", "--forever", "--new"]
        ports = ["--port", str(doors[0]), "--port2", str(doors[1]), "--below", str(below)]
        program = subprocess.Popen([DNP, "concentrate", *words, *ports], cwd=room, stdout=subprocess.DEVNULL, stderr=said)
    try:
        centre.start()
        patterns = {name: ROUNDS_SAY[name].format(number) for number, name in enumerate(bad, 2) if name in ROUNDS_SAY}
        awaited(lambda: all(re.search(pattern, (room / "said").read_text()) for pattern in patterns.values()), 60)
        log = (room / "said").read_text()
        good = judge("rounds-say-what-each-bad-substation-does", *(f"{name}: no '{it}'" for name, it in patterns.items() if not re.search(it, log)),
                     told=f"{len(patterns)} causes")
        for station in stations:
            station.call(station.rest)
        made = made_of(0, stations[0]) | made_of(1, stations[1])

        def good_rows():
            return [row for row in centre.rows if row.index < above(2, 0)]

        awaited(lambda: len(good_rows()) >= len(made), 60)
        wrong = [*stations[0].wrong, *stations[1].wrong, *centre.wrong]
        return judge("events-of-two-come-once-through-rounds", each_once("centre 2", good_rows(), made), *wrong,
                     told=aged(good_rows())) and good
    finally:
        for peer in [centre, *stations]:
            peer.end()
        program.kill()
        program.wait()


def judgements():
    """What is wrong with rows is seen."""
    rows = [Given(k % POINTS, k, 1000 + k, 1010 + k) for k in range(1, 101)]
    made = {row[:2]: row.time for row in rows}
    lies = {"missing": rows[1:], "never made": rows + [rows[0]._replace(value=7000)], "more than once": rows + rows[:1],
            "with another time": rows[:-1] + [rows[-1]._replace(time=5)]}
    unseen = [word for word, lie in lies.items() if word not in each_once("lie", lie, made)]
    late = [row._replace(came=row.came + 500) for row in rows[:49]] + rows[49:]
    numbers = percentile(ages(rows), 0.5), percentile(ages(late), 0.5), percentile(ages(late), 0.99)
    return judge("what-is-wrong-with-rows-is-seen", each_once("all", rows, made), *unseen, "" if numbers == (10, 10, 510) else f"{numbers}",
                 "" if each_once("twice", rows + rows, made, 2) == "" else "twice is once")


def main():
    room = Path(tempfile.mkdtemp(prefix="peers-", dir=MEMORY))
    begun_at = time.monotonic()
    good = judgements()
    good = polled() and good
    good = listened() and good
    good = unconfirmed() and good
    good = unending() and good
    good = replayed(room / "replayed") and good
    good = rounds(room / "rounds") and good
    if good:
        shutil.rmtree(room)
    else:
        print(f"    the files are in {room}, after {time.monotonic() - begun_at:.0f} s")
    return 0 if good else 1


if __name__ == "__main__":
    sys.exit(main())
