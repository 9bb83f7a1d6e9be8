"""A network over connections that stand whose stations have addresses of their own, each in a network namespace, with a line that takes its time
between the concentrator and a substation. Part of standing_network.py."""
import contextlib
import subprocess
import time

from namespaces import TAG, Namespaces
from peer_centre import Centre
from peer_substation import Substation
from standing import EVERY_S, MEDIAN_MS, POINTS, WAIT, Network, aged, ages, awaited, each_once, judge, made_of, percentile, place_text

# one way of the line to substation 0
DELAY_MS = 50
PORT, FAR_PORT = 20000, 20001
SCADA = "10.99.0.9"
# the numbers of hosts, which their addresses end in: substations have those from this one on
CENTRES, FIRST = {"scada": 9, "centre1": 1, "centre2": 3}, 10


class Far(Network):
    """Each program is in the namespace of its host. A substation with a way of its own is behind a relay on its machine."""

    HOSTS = {"concentrator": "scada", "centre": "centre1"}

    def __init__(self, room, substations, ways=None, has_witness=False, tag=TAG):
        self.tag = tag
        super().__init__(room, substations, ways, has_witness)

    def place_all(self, substations, ways):
        hosts = [f"10.99.0.{FIRST + number}" for number in range(substations)]
        self.listens = [(host, PORT) for host in hosts]
        self.ways = [(host, FAR_PORT if number in ways else PORT) for number, host in enumerate(hosts)]
        self.doors = self.ways_above = [(SCADA, 20100), (SCADA, 20101)]

    def place_of_witness(self):
        return SCADA, 20102

    def namespace(self, host):
        return self.tag + host

    def words_of(self, name, words):
        return ["ip", "netns", "exec", self.namespace(self.HOSTS[name]), *words]

    def is_open(self, place):
        """Whether the concentrator listens: what listens in another namespace isn't seen from here."""
        return self.says(rf"listening on {place_text(place)} ") == ""


@contextlib.contextmanager
def spread(case, substations, tag=TAG):
    """The namespaces of so many substations, or none, and that is said, where none can be made."""
    namespaces = Namespaces({**CENTRES, **{f"rtu{number}": FIRST + number for number in range(substations)}}, tag)
    try:
        try:
            namespaces.build()
        except (OSError, subprocess.CalledProcessError) as fault:
            why = getattr(fault, "stderr", None) or str(fault)
            print(f"left out: {case}, where no network namespace can be made: {why.strip()}", flush=True)
            namespaces.end()
            yield None
        else:
            yield namespaces
    finally:
        namespaces.end()


def stories(room):
    network = Far(room, 2, ways=[0])
    try:
        peers = [network.peer(Substation, number, every=EVERY_S) for number in range(2)]
        network.relay(0, DELAY_MS)
        centre = network.peer_above(Centre)
        begun = network.concentrate()
        centre.start()
        network.centre()
        follower = network.follow()
        started = awaited(lambda: all(peer.enabled for peer in peers) and centre.started, 2 * WAIT)
        first = len(centre.rows)
        time.sleep(3)
        for peer in peers:
            peer.call(peer.rest)
        time.sleep(0.2)
        made = {key: at for number, peer in enumerate(peers) for key, at in made_of(number, peer).items()}
        both = {"centre 1": follower.rows, "centre 2": centre.rows}
        awaited(lambda: not any(each_once(name, list(rows), made) for name, rows in both.items()))
        far = [row for row in centre.rows[first:] if row.index < POINTS]
        median = percentile(ages(far), 0.5)
        is_young = median is not None and DELAY_MS <= median <= MEDIAN_MS + DELAY_MS
        faults = [each_once(name, list(rows), made) for name, rows in both.items()]
        faults += network.wrongs() + ([] if begun and started else ["it did not begin"])
        return judge("far-each-event-once", *faults, "" if is_young else f"median {median} ms", told=f"over {DELAY_MS} ms: {aged(far)}")
    finally:
        network.end()


def far(room, _):
    """The story, where namespaces can be made."""
    with spread("far", 2) as made:
        return stories(room) if made else True
