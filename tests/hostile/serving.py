"""Hostile octets for stations on TCP: `dnp outstation` is sent hostile units by its master, `dnp centre` by its concentrator, with
well-formed frames in between. What is answered to these, and what the journal has in the end, has to be what comes without the
hostile units; all that is sent is well-formed; and the memory stays as it was. A case is a unit."""
import re
import socket
import struct
import subprocess
import threading
import time

import wire
from program import DNP, DONE, PATIENCE, STARTED, Broken

SIZE = 20_000
# what the log says of units that are not for the station
OTHERS = re.compile(r" (?:frames came from \d+ to \d+; this takes those from \d+ to \d+|octets came, and no frame)$")
CONNECTIONS = 4
KILOBYTES = 1024
OUTSTATION, MASTER = 10, 2
CONCENTRATOR, CENTRE = 9, 1
ANALOGS = 4
LANES = "[" + ", ".join(["1000"] * 9) + "]"
PLAN = f"""confirm_ms = 5000
response_ms = 10000
select_ms = 5000
retries = 0
unsolicited = false
queue = {LANES}
queue2 = {LANES}
[[substation]]
lanes = {LANES}
binary = [1, 2]
counter = [1, 3]
analog = [1, 1, 2, 3]
deadband = [0, 0, 0, 0]
outputs = 4
setpoints = 2
base = [0, 0, 0, 0, 0]
"""
STATUS, IS_STATUS = 0xC9, 0x0B
RESTARTED = bytes.fromhex("02 50 01 00 07 07 00")


def free_port():
    with socket.socket() as it:
        it.bind(("127.0.0.1", 0))
        return it.getsockname()[1]


def connected(port):
    """A connection to the port, once somebody listens there."""
    for _ in range(1000):
        try:
            return socket.create_connection(("127.0.0.1", port), timeout=PATIENCE)
        except ConnectionRefusedError:
            time.sleep(0.01)
    raise Broken("nobody listens on the port")


def exchanged(port, octets):
    """What comes back on a connection on which these octets are sent, up to its end."""
    with connected(port) as stream:
        def send():
            stream.sendall(octets)
            stream.shutdown(socket.SHUT_WR)
        sender = threading.Thread(target=send)
        sender.start()
        came = []
        while piece := stream.recv(1 << 16):
            came.append(piece)
        sender.join()
    return b"".join(came)


def said(came, dest, source):
    """The link layer's replies and the fragments in what came: their CONTROL octets, or the octets."""
    place, fragment, number, found = 0, b"", None, []
    while place < len(came):
        if not wire.begins(came, place) or came[place + 2] < 5:
            raise Broken(f"no frame begins at octet {place} of what was sent")
        unit = came[place : place + wire.size_of(came[place + 2])]
        control, to, of = struct.unpack("<BHH", unit[3:8])
        if (to, of) != (dest, source) or len(unit) != wire.size_of(unit[2]) or wire.spoilt_block(unit) is not None:
            raise Broken(f"a wrong frame is sent: {unit.hex(' ')}")
        place += len(unit)
        if control & 0x4F != 0x44:
            found.append(control)
            continue
        user = b"".join(unit[k : k + wire.BLOCK] for k in range(wire.HEADER, len(unit), wire.BLOCK + 2))[: unit[2] - 5]
        first, last = user[0] & 0x40, user[0] & 0x80
        if bool(first) != (fragment == b"") or not first and user[0] % 64 != (number + 1) % 64:
            raise Broken(f"a segment is sent that continues none: {unit.hex(' ')}")
        fragment, number = fragment + user[1:], user[0] % 64
        if last:
            if len(fragment) < 4 or len(fragment) > 2048 or fragment[1] not in (0x81, 0x82) or fragment[3] & 0xF0:
                raise Broken(f"a wrong fragment is sent: {fragment.hex(' ')}")
            found.append(fragment)
            fragment = b""
    if fragment:
        raise Broken("the last fragment has no end")
    return found


def probes(number):
    """A request that is to be answered, and the answer: after the restart bit was cleared, what some analogs read."""
    control = 0xC0 | number % 16
    if number == 0:
        return bytes([control]) + RESTARTED, bytes([control, 0x81, 0, 0])
    first = number % ANALOGS
    last = first + number // ANALOGS % (ANALOGS - first)
    span = struct.pack("<BBBHH", 30, 1, 1, first, last)
    return bytes([control, 1]) + span, bytes([control, 0x81, 0, 0]) + span + bytes([2, 0, 0, 0, 0]) * (last - first + 1)


def hostile(r, base, dest, source, fragment):
    """Hostile octets on the way to a station: what makes it say something is a fragment of this, or the link layer's alone."""
    how = r.random()
    if how < 0.5:
        segment = r.choice((0xC0, 0xC0, 0xC0, 0x40, 0x80, 0)) | r.randrange(64)
        return wire.frame(r.choice((0xC4, 0xC4, 0xC3, 0xD3, 0x44)), dest, source, (bytes([segment]) + fragment(r))[: wire.MOST_USER])
    if how < 0.65:
        return wire.spoilt_header(r, r.choice(base))
    if how < 0.8:
        return wire.spoilt_user(r, r.choice(base))
    if how < 0.85:
        return wire.header(r.randrange(5), 0xC4, dest, source) + r.randbytes(r.randrange(3))
    if how < 0.9:
        # (to and from others, and from itself)
        to, of = r.choice(((dest, source + 1), (dest + 1, source), (source, dest), (dest, dest), (0xFFFF, source), (0xFFFC, 0)))
        return wire.frame(r.choice((0xC4, 0x44, 0xC9)), to, of, b"\xC0" + fragment(r)[:100])
    if how < 0.95:
        control = r.randrange(256)
        return wire.frame(control if control % 16 != 9 else 0xC2, dest, source, r.randbytes(r.randrange(3)))
    return wire.noise(r)


def held(came, asked):
    """The answers to the probes: each stands after the link's status, which was asked for before it."""
    found, answers = said(came, MASTER, OUTSTATION), []
    for place, it in enumerate(found):
        if it == IS_STATUS:
            answers.append(found[place + 1] if place + 1 < len(found) else None)
    wanted = [answer for _, answer in asked]
    if answers != wanted:
        number = next((k for k, pair in enumerate(zip(answers, wanted)) if pair[0] != pair[1]), len(answers))
        came = answers[number] if number < len(answers) else None
        raise Broken(f"request {number} was answered {came.hex(' ') if isinstance(came, bytes) else came}, and not as without hostile units")


def memory(program):
    with open(f"/proc/{program.pid}/status", encoding="ascii") as status:
        return next(int(line.split()[1]) for line in status if line.startswith("VmRSS"))


def connection(r, size):
    """The octets of a connection with so many hostile units, those without them, and the requests with their answers."""
    mixed, alone, asked = [], [], []
    base = [unit for number in range(8) for unit in wire.frames(0xC4, OUTSTATION, MASTER, probes(number)[0], number)]
    for left in range(size, -1, -1):
        if not asked or left == 0 or r.random() < 0.05:
            request, answer = probes(len(asked))
            units = [wire.frame(STATUS, OUTSTATION, MASTER), *wire.frames(0xC4, OUTSTATION, MASTER, request, len(asked))]
            asked.append((request, answer))
            mixed += units
            alone += units
        if left:
            mixed.append(hostile(r, base, OUTSTATION, MASTER, wire.fragment))
    return b"".join(mixed), b"".join(alone), asked


def outstation(r, size, room, bounded):
    """Tries so many units on an outstation."""
    port = free_port()
    (room / "plan.toml").write_text(PLAN, encoding="ascii")
    given = {}
    with open(room / "out", "wb") as out, open(room / "err", "wb") as err:
        program = subprocess.Popen([DNP, "outstation", "--plan", room / "plan.toml", "--station", "0", "--port", str(port),
                                    "--connections", str(2 * CONNECTIONS)], stdin=subprocess.DEVNULL, stdout=out, stderr=err)
        try:
            first = 0
            for turn in range(CONNECTIONS):
                mixed, alone, asked = connection(r, size // CONNECTIONS)
                given = {"alone": alone, "octets": mixed}
                held(exchanged(port, alone), asked)
                held(exchanged(port, mixed), asked)
                if turn == 0:
                    first = memory(program)
                elif turn == CONNECTIONS - 2 and bounded and memory(program) > first + KILOBYTES:
                    raise Broken(f"{first} kilobytes of memory have become {memory(program)}")
            if program.wait(PATIENCE) != DONE:
                raise Broken(f"status {program.returncode}")
        except (Broken, OSError, subprocess.TimeoutExpired) as broken:
            raise Broken(f"{broken} (status {program.poll()})", **given, plan=PLAN.encode()) from None
        finally:
            program.kill()
            program.wait()
    lines = (room / "out").read_text(encoding="ascii").split("\n")
    told = [line for line in (room / "err").read_text(encoding="utf-8").split("\n") if not OTHERS.search(line)]
    log = [f" as {OUTSTATION} for master {MASTER}"] + [" connected", ": the master closed the connection"] * (2 * CONNECTIONS) + [" '--forever' serves more", ""]
    if (len(lines) != 2 * CONNECTIONS + 1 or any(not line.startswith("served ") for line in lines[:-1]) or not STARTED.fullmatch(told[0])
            or len(told) != 1 + len(log) or any(not line.endswith(end) for line, end in zip(told[1:], log))):
        raise Broken(f"it printed {lines}, and said {told}", **given)
    return size
