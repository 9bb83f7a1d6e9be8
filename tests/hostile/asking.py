"""Hostile octets for `dnp poll`, from the outstation that it asks. A case is a unit. In one run they stand before each of the
responses that it waits for: it has to print these, and nothing else, and to end well. In the others they stand in place of the
answer: it has to end in time, by a documented status, with whole lines, and to operate nothing but what was selected. And where they
drip, one after the other, without an end and without an answer, its patience has to end all the same."""
import re
import socket
import struct
import subprocess
import time

import polling
import serving
import wire
from program import DNP, DONE, FAULT, PATIENCE, REFUSED, Broken, scaled

SIZE = 2_000
# polls of the one run, each with as many units before its response; and units of each of the other runs
POLLS, BEFORE, INSTEAD = scaled(10, 2), scaled(150, 20), 20
# where units drip, one comes each so many seconds, and so many milliseconds it waits for the answer, and all in all no more than these
DRIP, WAITS, MOST = 0.02, 300, 10
COMMAND, ECHO = "block 1 3 1 0 0", bytes.fromhex("0C 01 28 01 00 01 00 03 01 00 00 00 00 00 00 00 00 00")
LINE = re.compile(r"(binary|counter|analog|output|setpoint) \d+ -?\d+ [0-9A-F]{2} (-|\d+-\d\d-\d\dT\d\d:\d\d:\d\d\.\d{3}Z) (event|static)( unsolicited)?"
                  r"|iin [0-9A-F]{2} [0-9A-F]{2}( [a-z0-9-]+)*|(select|operate) 1 [A-Za-z0-9_ -]+")
# (a round begins with its number and the time)
ROUND = re.compile(r"(round \d+) \d{4}-\d\d-\d\dT\d\d:\d\d:\d\d\.\d{3}Z")
# What it may say, a line each: what came in place of a frame that is awaited, what came in place of the response, and why it ended
PLACE = r"dnp: 127\.0\.0\.1:\d+: "
STRANGE = rf"{PLACE}(?:frames came from \d+ to \d+; this asks {serving.OUTSTATION} as {serving.MASTER}|octets came, and no frame)\n"
UNLIKE = (rf"{PLACE}a response (?:with sequence number \d+ came, where \d+ is awaited|with FIR came, where a fragment after the first one is "
          r"awaited|without FIR came, where the first fragment is awaited|came whose function, UNS, FIR and FIN don't fit together)\n")
ENDED = (rf"{PLACE}(?:no response in \d+ ms|the connection ended before the answer)(?:; output 1 may have been operated: look at it before the "
         rf"command is given again)?\n|{PLACE}response refused: (?:\d+\.\d+ at octet \d+ is not in the profile|[A-Za-z]+ at octet \d+)\n|{PLACE}the stream could not be (?:read|written): [^\n]+\n")
SAYS = re.compile(f"(?:{STRANGE})?(?:{UNLIKE})?(?:{ENDED})|")


class Outstation(polling.Concentrator):
    """An outstation of another make, at a port of its own."""

    def framed(self, octets):
        return wire.frames(0x44, serving.MASTER, serving.OUTSTATION, octets, self.number)


class Answering(Outstation):
    """One that answers each READ with an event of its own, and sends so many hostile units before that: whole responses that no
    request waits for, and what is no fragment, since a fragment that is no response ends a poll."""

    def serve(self, stream):
        reads = 0
        while (asked := self.fragment(stream)) is not None:
            if asked[1] == 1:
                base = self.framed(bytes([0xE0 | asked[0] % 16, 0x81, 0, 0]) + struct.pack("<BBBHHBi", 32, 1, 0x28, 1, 0, 1, reads))
                self.sent.append(b"".join([polling.ignored(self.r, base, serving.MASTER, serving.OUTSTATION) for _ in range(self.size)] + base))
                stream.sendall(self.sent[-1])
                self.number, reads = self.number + len(base), reads + 1


class Spoiling(Outstation):
    """One that answers the first request with hostile units alone, the next ones in the same way, and hangs up then. `operates`
    counts what it was sent, and `echoed` tells whether it said that the command was selected."""

    operates, echoed = 0, False

    def mutated(self, r):
        """A fragment that may be an answer, or nearly so."""
        answers = [octets[4:] for octets in wire.RESPONSES] + [ECHO] * 6
        octets = bytes([r.choice((0xC0, 0xE0, 0xC1, 0xF0)), r.choice((0x81, 0x81, 0x81, 0x82)), 0, 0]) + r.choice(answers)
        octets = octets if r.random() < 0.2 else wire.mutated(r, octets)
        self.echoed = self.echoed or octets[4:] == ECHO
        return octets

    def serve(self, stream):
        for _ in range(3):
            if (asked := self.fragment(stream)) is None:
                return
            self.operates += asked[1] in (4, 5, 6)
            base = self.framed(bytes([0xC0 | asked[0] % 16, 0x81, 0, 0]) + ECHO)
            units = [serving.hostile(self.r, base, serving.MASTER, serving.OUTSTATION, self.mutated) for _ in range(self.size)]
            self.sent.append(b"".join(units))
            stream.sendall(self.sent[-1])
        stream.shutdown(socket.SHUT_WR)
        while (asked := self.fragment(stream)) is not None:
            self.operates += asked[1] in (4, 5, 6)


class Dripping(Outstation):
    """One that sends a unit of one kind after the other, none of which is an answer, until it is hung up."""

    def serve(self, stream):
        to, of = serving.MASTER, serving.OUTSTATION
        self.kind, number = self.r.choice(("another number", "no end", "link", "noise")), 0
        while True:
            unit = {"another number": wire.frame(0x44, to, of, bytes([0xC0 | number % 64, 0xCF, 0x81, 0, 0])),
                    "no end": wire.frame(0x44, to, of, bytes([0x40 * (number == 0) | number % 64]) + bytes(10)),
                    "link": wire.frame(0x49, to, of), "noise": b"\x05"}[self.kind]
            self.sent.append(unit)
            stream.sendall(unit)
            number += 1
            time.sleep(DRIP)


def asked(outstation, room, *words):
    """A run of `dnp poll` against it: its status, its lines and what it said."""
    outstation.start()
    try:
        done = subprocess.run([DNP, "poll", f"127.0.0.1:{outstation.port}", *words], cwd=room, stdin=subprocess.DEVNULL, capture_output=True,
                              timeout=PATIENCE, check=False)
    except subprocess.TimeoutExpired:
        raise Broken("it did not end in time", sent=b"".join(outstation.sent)) from None
    outstation.listener.close()
    outstation.join(PATIENCE)
    return done.returncode, done.stdout.decode("utf-8", "surrogateescape").splitlines(), done.stderr.decode("utf-8", "surrogateescape")


def poll(r, size, room, bounded):
    """Tries so many units on it."""
    outstation = Answering(r, BEFORE)
    status, lines, said = asked(outstation, room, "--classes", "1", "--repeat", "1ms", "--count", str(POLLS), "--timeout", str(PATIENCE * 1000))
    wanted = [line for number in range(POLLS) for line in (f"round {number + 1}", f"analog 0 {number} 01 - event", "iin 00 00")]
    lines = [ROUND.sub(r"\1", line) for line in lines]
    if (status, lines, said) != (DONE, wanted, "") or outstation.fault:
        raise Broken(f"status {status}, {said!r}, {outstation.fault}", sent=b"".join(outstation.sent), out="\n".join(lines).encode())
    for number in range((size - POLLS * BEFORE) // INSTEAD):
        outstation = Spoiling(r, INSTEAD)
        words = ("--operate", COMMAND) if number % 2 else ("--classes", "1230", "--repeat", "1ms", "--count", "2")
        status, lines, said = asked(outstation, room, *words, "--timeout", "100")
        wrong = [line for line in lines if not LINE.fullmatch(line) and not ROUND.fullmatch(line)]
        if status not in (DONE, REFUSED, FAULT) or wrong or not SAYS.fullmatch(said) or status == FAULT and not said:
            raise Broken(f"status {status}, {said!r}, {wrong}", sent=b"".join(outstation.sent), out="\n".join(lines).encode())
        if outstation.operates > 1 or outstation.operates and not outstation.echoed:
            raise Broken(f"{outstation.operates} times was operated what was {'' if outstation.echoed else 'not '}selected",
                         sent=b"".join(outstation.sent))
    outstation, begun = Dripping(r, 0), time.monotonic()
    status, lines, said = asked(outstation, room, "--timeout", str(WAITS))
    if (status, lines) != (FAULT, []) or "no response" not in said or time.monotonic() - begun > MOST:
        raise Broken(f"status {status} after {time.monotonic() - begun:.1f} s of {outstation.kind}, {said!r}", sent=b"".join(outstation.sent))
    return POLLS * BEFORE + (size - POLLS * BEFORE) // INSTEAD * INSTEAD
