"""Substations of another make that do what none may do, each in a way of its own, beside the good one of peer_substation.py."""
import struct
import threading
import time

from peer_substation import Event, Outgoing, Substation
from peers import CON, FIR, ONLINE, UNS, now_ms, reset


class Floats(Substation):
    """Its class 0 has a value as 30.5, a float of 30.5."""

    def present(self):
        return super().present() + struct.pack("<BBBHHBf", 30, 5, 1, 0, 0, ONLINE, 30.5)


class TooMany(Substation):
    """It has a point more than the plan, of which its first response has an event."""

    def open(self):
        super().open()
        if not self.events:
            self.events.append(Event(self.points, 1, now_ms()))


class Endless(Substation):
    """It answers a READ by fragments without FIN, for ever: the next one after each confirm."""

    def offer(self, sequence, is_first):
        event = Event(0, 1 + sequence, now_ms())
        self.respond(sequence, self.rows([event]), head=FIR * is_first | CON)
        self.asked = Outgoing(sequence, [event], b"")
        self.left = [event]

    def take_confirm(self, control):
        time.sleep(0.05)
        super().take_confirm(control)


class Dripping(Substation):
    """It sends an octet each tenth of a second."""

    def begin_link(self, stream, is_master):
        super().begin_link(stream, is_master)
        self.link.give = self.drip
        self.octets = bytearray()

    def drip(self, octets):
        is_first = not self.octets
        self.octets += octets
        if is_first:
            threading.Thread(target=self.drops, args=(self.link, self.octets), daemon=True).start()

    def drops(self, link, octets):
        try:
            while octets:
                link.stream.sendall(octets[:1])
                del octets[:1]
                time.sleep(0.1)
        except OSError:
            pass


class Deaf(Substation):
    """It takes no confirm of an event: none is ever let go, and the same unsolicited response goes again and again."""

    def take_confirm(self, control):
        found = self.unasked if control & UNS else self.asked
        if found and not found.events:
            super().take_confirm(control)
        elif found and control & UNS:
            found.repeat_at = min(found.repeat_at, time.monotonic() + 0.1)

    def take_request(self, sequence, function, objects):
        super().take_request(sequence, function, objects)
        if self.held:
            self.answer_read()


class Restarting(Substation):
    """It restarts in the midst of each response to a READ: half of the octets went, and the connection is reset."""

    def offer(self, sequence, is_first):
        whole, link = bytearray(), self.link
        link.give = whole.extend
        super().offer(sequence, is_first)
        link.stream.sendall(whole[: len(whole) // 2])
        # (what was sent arrives before the reset)
        time.sleep(0.02)
        reset(link.stream)
        self.link = None
        self.restart()


BAD = {"floats": Floats, "too-many": TooMany, "endless": Endless, "dripping": Dripping, "deaf": Deaf, "restarting": Restarting}
