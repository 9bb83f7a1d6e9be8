"""Hostile octets for a master: `dnp centre` is sent hostile units by its concentrator, before each response that it waits for. It
has to end well, and to have each event once in its journal. A case is a unit."""
import socket
import sqlite3
import struct
import subprocess
import threading

import serving
import wire
from program import DNP, DONE, PATIENCE, Broken

SIZE = 4_000
PAGE, PAGES = 20, 3


def ignored(r, base, to, of):
    """A unit that a poll leaves aside: a whole response that no request waits for, a spoilt one, one of other link addresses, a link
    function or noise. A fragment that is refused ends a poll."""
    how = r.random()
    if how < 0.5:
        octets = r.choice(wire.RESPONSES)
        return wire.frame(0x44, to, of, bytes([0xC0 | r.randrange(64), octets[0] & 0xE0 | 0x0F, 0x81]) + octets[2:])
    if how < 0.65:
        return wire.spoilt_header(r, r.choice(base))
    if how < 0.8:
        return wire.spoilt_user(r, r.choice(base))
    if how < 0.9:
        to, of = r.choice(((to, of + 1), (to + 1, of), (of, to), (to, to), (0xFFFF, of), (0xFFFC, 0)))
        return wire.frame(0x44, to, of, b"\xC0" + wire.fragment(r)[:100])
    if how < 0.95:
        return wire.frame(r.choice((0x00, 0x01, 0x0B, 0x0F, 0x40, 0x42, 0x49, 0x4B, 0xC0, 0xC9)), to, of)
    return wire.noise(r)


class Concentrator(threading.Thread):
    """A concentrator of another make, with so many events, that sends so many hostile units before each of its responses."""

    def __init__(self, r, size):
        super().__init__()
        self.r, self.size = r, size
        self.listener = socket.create_server(("127.0.0.1", 0))
        self.listener.settimeout(PATIENCE)
        self.port = self.listener.getsockname()[1]
        self.kept, self.number, self.fault, self.sent = b"", 0, None, []

    def run(self):
        try:
            stream, _ = self.listener.accept()
            with stream:
                stream.settimeout(PATIENCE)
                self.serve(stream)
        except ConnectionError:
            # (the centre hangs up once all is answered, whatever is on the way)
            pass
        except OSError as fault:
            self.fault = fault

    def fragment(self, stream):
        """The next fragment of the centre, which has one segment, or none at the end. What its link layer says is passed
        over."""
        unit = b""
        while len(unit) <= wire.HEADER:
            while len(self.kept) < wire.HEADER or len(self.kept) < wire.size_of(self.kept[2]):
                piece = stream.recv(1 << 16)
                if not piece:
                    return None
                self.kept += piece
            size = wire.size_of(self.kept[2])
            unit, self.kept = self.kept[:size], self.kept[size:]
        return b"".join(unit[k : k + wire.BLOCK] for k in range(wire.HEADER, size, wire.BLOCK + 2))[1 : unit[2] - 5]

    def serve(self, stream):
        page = 0
        while (asked := self.fragment(stream)) is not None:
            control, function = asked[:2]
            if function == 0 or function == 1:
                page = page + 1 if function == 0 else 1
                self.send(stream, self.events(control % 16 if function == 1 else (control + 1) % 16, page))
            else:
                self.send(stream, bytes([0xC0 | control % 16, 0x81, 0, 0]))

    def events(self, sequence, page):
        """A fragment of the response to a READ: events of the first analog input, and in the end what it reads."""
        head = (page == 1) << 7 | (page == PAGES + 1) << 6 | (page <= PAGES) << 5 | sequence
        octets = bytes([head, 0x81, 0, 0])
        if page > PAGES + 1:
            return b""
        if page > PAGES:
            return octets + bytes.fromhex("1E 01 00 00 00 01 00 00 00 00")
        rows = b"".join(struct.pack("<HBi", 0, 1, PAGE * (page - 1) + k) for k in range(PAGE))
        return octets + struct.pack("<BBBH", 32, 1, 0x28, PAGE) + rows

    def send(self, stream, fragment):
        if not fragment:
            return
        base = wire.frames(0x44, serving.CENTRE, serving.CONCENTRATOR, fragment, self.number)
        units = [ignored(self.r, base, serving.CENTRE, serving.CONCENTRATOR) for _ in range(self.size)]
        self.number += len(base)
        octets = b"".join(units + base)
        self.sent.append(octets)
        stream.sendall(octets)


def centre(r, size, room, bounded):
    """Tries so many units on a centre: before each of the five responses."""
    concentrator = Concentrator(r, size // (PAGES + 2))
    concentrator.start()
    (room / "plan.toml").write_text(serving.PLAN, encoding="ascii")
    for name in ("journal.db", "above.db"):
        (room / name).unlink(missing_ok=True)
    done = subprocess.run([DNP, "centre", "--plan", "plan.toml", "--journal", "journal.db", "--controls", "above.db", "--new",
                           "--port", str(concentrator.port)], cwd=room, stdin=subprocess.DEVNULL, capture_output=True, timeout=2 * PATIENCE,
                          check=False)
    concentrator.join()
    base = sqlite3.connect(room / "journal.db")
    values = [value for (value,) in base.execute("SELECT value FROM journal ORDER BY id")]
    base.close()
    if done.returncode != DONE or done.stdout != b"rows %d\n" % (PAGE * PAGES) or values != list(range(PAGE * PAGES)) or concentrator.fault:
        raise Broken(f"status {done.returncode}, {done.stdout!r}, {done.stderr[-200:]!r}, {len(values)} rows, {concentrator.fault}",
                     octets=b"".join(concentrator.sent), plan=serving.PLAN.encode())
    return size
