#!/usr/bin/env python3
"""witness.py PORT TARGET: stands between a centre, which connects to PORT, and the concentrator, which is found at TARGET. It hands on what comes
at once, and keeps it with its moment. When standard input ends, it prints each event of which the centre sent a confirm: its index, its value and
the moment of the confirm, in nanoseconds since 1970. A centre confirms a fragment once its rows are committed and synced, so that this moment is
after that, by what it takes to hand on what is read here."""
import json
import select
import socket
import sys
import time
from pathlib import Path

sys.path.insert(0, str(Path(__file__).resolve().parents[2] / "tests/programs"))
from relay import Talk  # noqa: E402


class Connection:
    """A connection of the centre, and that to the concentrator."""

    def __init__(self, near, target):
        self.ends = near, socket.create_connection(("127.0.0.1", target), timeout=5)
        for end in self.ends:
            end.setsockopt(socket.IPPROTO_TCP, socket.TCP_NODELAY, 1)
            end.settimeout(5)
        # what came, each the moment, the end and the octets
        self.came = []

    def carry(self, end):
        """Hands on what came at an end: whether it goes on."""
        octets = end.recv(65536)
        moment = time.time_ns()
        if not octets:
            return False
        self.ends[end is self.ends[0]].sendall(octets)
        self.came.append((moment, end is self.ends[0], octets))
        return True

    def close(self):
        for end in self.ends:
            end.close()

    def confirmed(self):
        """Each event, with the moment of the confirm of its fragment."""
        talk = Talk()
        for moment, is_of_centre, octets in self.came:
            if not is_of_centre:
                talk.said(octets)
                continue
            yield from ((index, value, moment) for _, index, _, value, _ in talk.told(octets))


def main():
    port, target = map(int, sys.argv[1:])
    door, connections, over = socket.create_server(("127.0.0.1", port)), [], []
    while True:
        ends = {end: connection for connection in connections for end in connection.ends}
        ready, _, _ = select.select([sys.stdin, door, *ends], [], [])
        if sys.stdin in ready:
            break
        for end in ready:
            if end is door:
                near, _ = door.accept()
                try:
                    connections.append(Connection(near, target))
                except OSError:
                    near.close()
                continue
            connection = ends[end]
            try:
                goes_on = connection in over or connection.carry(end)
            except OSError:
                goes_on = False
            if not goes_on:
                connection.close()
                over.append(connection)
        connections = [each for each in connections if each not in over]
    print(json.dumps([event for connection in [*over, *connections] for event in connection.confirmed()]), flush=True)


if __name__ == "__main__":
    main()
